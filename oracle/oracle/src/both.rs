//! The crate and document 01 side by side: each call is made on both, and any difference stops the run.
use crate::calls::{Answer, Call, Cells, number};
use crate::paper::Paper;
use crate::rpds_trie::RpdsTrie;
use crate::shelf::Shelf;
use crate::trie::{Name, Node, Trie};

/// Both shelves, and which cell of the one is which of the other. The second is document 01's, unless a test puts a wrong
/// one in its place.
pub struct Both<T = Paper> {
    /// The shelf of the crate's maps.
    pub rpds: Shelf<RpdsTrie>,
    /// The shelf of document 01's.
    pub paper: Shelf<T>,
    to_paper: Vec<Option<Name>>,
    to_rpds: Vec<Option<Name>>,
}

impl<T: Trie> Default for Both<T> {
    fn default() -> Self {
        Both { rpds: Shelf::default(), paper: Shelf::default(), to_paper: Vec::new(), to_rpds: Vec::new() }
    }
}

/// Notes that `from` stands for `to`, and answers whether it stood for nothing else.
fn pairs(table: &mut Vec<Option<Name>>, from: Name, to: Name) -> bool {
    if table.len() <= from {
        table.resize(from + 1, None);
    }
    *table[from].get_or_insert(to) == to
}

impl<T: Trie> Both<T> {
    /// Makes a call on both, and answers what both answer, or says what differs.
    ///
    /// After an update the whole new editions are compared: the same branches at the same places with the same entries,
    /// chains in the same order; and a cell that the crate shares with other editions is one that document 01 shares with
    /// the same ones. The cells in use rise by the cells taken.
    pub fn call(&mut self, call: &Call) -> Result<Answer, String> {
        let before = self.rpds.in_use();
        let answer = self.rpds.call(call);
        let expected = self.paper.call(call);
        if answer != expected {
            return Err(format!("the crate answers {answer:?}, document 01 {expected:?}"));
        }
        if matches!(call, Call::Format { .. }) && answer.number == number::DONE {
            self.to_paper.clear();
            self.to_rpds.clear();
        }
        if call.is_update() && answer.number == number::DONE {
            let [edition, branches, entries] = answer.values;
            self.same_edition(edition)?;
            let risen = Cells { branches: before.branches + branches, entries: before.entries + entries };
            if self.rpds.in_use() != risen {
                return Err(format!("{before:?} in use, and {:?} afterwards", self.rpds.in_use()));
            }
        }
        if self.rpds.in_use() != self.paper.in_use() {
            return Err(format!("{:?} and {:?} are in use", self.rpds.in_use(), self.paper.in_use()));
        }
        Ok(answer)
    }

    fn same_edition(&mut self, edition: u64) -> Result<(), String> {
        let missing = |number| format!("the edition is not held: {number}");
        let rpds = self.rpds.edition(edition).map_err(missing)?;
        let paper = self.paper.edition(edition).map_err(missing)?;
        let (size, listing) = (rpds.size(), rpds.listing());
        if (size, &listing) != (paper.size(), &paper.listing()) || size != listing.len() as u64 {
            return Err(format!("the crate lists {listing:?}, document 01 {:?}", paper.listing()));
        }
        let (rpds, paper) = (rpds.root().clone(), paper.root().clone());
        let is_same = match (&rpds, &paper) {
            (None, None) => true,
            (Some(rpds), Some(paper)) => self.same_node(rpds, paper),
            _ => false,
        };
        if is_same { Ok(()) } else { Err(format!("the crate has {rpds:?}, document 01 {paper:?}")) }
    }

    fn same_cell(&mut self, rpds: Name, paper: Name) -> bool {
        pairs(&mut self.to_paper, rpds, paper) && pairs(&mut self.to_rpds, paper, rpds)
    }

    fn same_node(&mut self, rpds: &Node, paper: &Node) -> bool {
        match (rpds, paper) {
            (Node::Leaf(rpds), Node::Leaf(paper)) => {
                rpds.len() == paper.len()
                    && rpds.iter().zip(paper).all(|(a, b)| a.entry == b.entry && self.same_cell(a.cell, b.cell))
            }
            (Node::Branch(rpds, kids), Node::Branch(paper, others)) => {
                self.same_cell(*rpds, *paper)
                    && kids.len() == others.len()
                    && kids.iter().zip(others).all(|(a, b)| a.0 == b.0 && self.same_node(&a.1, &b.1))
            }
            _ => false,
        }
    }
}
