//! Document 01's trie, as `crates/trie/specs/Trie.antt` and `Cells.antt` restate it, function by function. What an update
//! takes is counted by document 01's sentences and not by looking at which names are new.
use crate::calls::{Cells, Entry};
use crate::trie::{Item, Names, Node, Root, Trie};
use std::rc::Rc;

/// Document 01's trie at a degree.
#[derive(Clone)]
pub struct Paper {
    bits: u32,
    depths: u32,
    root: Root,
}

/// The table of document 01, "Depths": bits and depths of a degree.
pub fn row(degree: u64) -> Option<(u32, u32)> {
    match degree {
        2 => Some((1, 64)),
        4 => Some((2, 32)),
        8 => Some((3, 22)),
        16 => Some((4, 16)),
        32 => Some((5, 13)),
        64 => Some((6, 11)),
        _ => None,
    }
}

fn single(entry: Entry, names: &mut Names) -> Node {
    Node::Leaf(vec![Item { cell: names.fresh(), entry }])
}

fn child(segment: u64, kids: &[(u64, Rc<Node>)]) -> Option<&Rc<Node>> {
    kids.iter().find(|kid| kid.0 == segment).map(|kid| &kid.1)
}

/// The children with `node` at `segment`; the others are shared.
fn put(segment: u64, node: Node, kids: &[(u64, Rc<Node>)]) -> Vec<(u64, Rc<Node>)> {
    let below = kids.iter().filter(|kid| kid.0 < segment).cloned();
    let above = kids.iter().filter(|kid| kid.0 > segment).cloned();
    below.chain([(segment, Rc::new(node))]).chain(above).collect()
}

fn take_out(segment: u64, kids: &[(u64, Rc<Node>)]) -> Vec<(u64, Rc<Node>)> {
    kids.iter().filter(|kid| kid.0 != segment).cloned().collect()
}

/// How many entries of a chain stand before the key, if it is there.
fn ahead(hash: u64, key: u64, items: &[Item]) -> Option<usize> {
    items.iter().position(|item| item.entry.matches(hash, key))
}

/// The chain without the key: what stands before it is copied, what stands behind it is shared, and all of it is shared
/// where the key is not there.
fn list_remove_first(hash: u64, key: u64, items: &[Item], names: &mut Names) -> Vec<Item> {
    match ahead(hash, key, items) {
        None => items.to_vec(),
        Some(at) => {
            let copied = items[..at].iter().map(|item| Item { cell: names.fresh(), entry: item.entry });
            copied.chain(items[at + 1..].iter().copied()).collect()
        }
    }
}

/// "A key already in the chain is replaced AND moved to the front; the others keep their order."
fn push_front(entry: Entry, items: &[Item], names: &mut Names) -> Vec<Item> {
    let front = Item { cell: names.fresh(), entry };
    let rest = list_remove_first(entry.hash, entry.key, items, names);
    [front].into_iter().chain(rest).collect()
}

/// "Each branch on the path whose only child is a single becomes that single, root included. A branch whose only child is
/// a branch or chain stays."
fn compress(kids: Vec<(u64, Rc<Node>)>, names: &mut Names) -> Node {
    match kids.as_slice() {
        [(_, only)] if matches!(&**only, Node::Leaf(items) if items.len() == 1) => {
            let Node::Leaf(items) = &**only else { unreachable!() };
            Node::Leaf(items.clone())
        }
        _ => Node::Branch(names.fresh(), kids),
    }
}

fn is_empty(node: &Node) -> bool {
    match node {
        Node::Leaf(items) => items.is_empty(),
        Node::Branch(_, kids) => kids.is_empty(),
    }
}

impl Paper {
    fn segment(&self, depth: u32, hash: u64) -> u64 {
        (hash >> (depth * self.bits)) % (1 << self.bits)
    }

    /// A trie of the same degree with this root.
    pub(crate) fn with(&self, root: Root) -> Paper {
        Paper { root, ..*self }
    }

    /// The chain at the end of a hash's path, and how many branches stand on that path.
    fn path(&self, hash: u64) -> (&[Item], u64) {
        let mut node = self.root.as_ref();
        let mut depth = 0;
        while let Some(Node::Branch(_, kids)) = node.map(|node| &**node) {
            node = child(self.segment(depth, hash), kids);
            depth += 1;
        }
        match node.map(|node| &**node) {
            Some(Node::Leaf(items)) => (items, depth.into()),
            _ => (&[], depth.into()),
        }
    }

    /// "Insert at a missing child places a single entry there. Insert at a single with the same hash and key replaces it.
    /// Above depth D, at another key, branches are made until the segments differ; the old entry is shared. If all
    /// segments agree, a chain stands at depth D, the new entry in front."
    fn insert_node(&self, depth: u32, entry: Entry, node: &Rc<Node>, names: &mut Names) -> Node {
        match &**node {
            Node::Leaf(items) if depth == self.depths => Node::Leaf(push_front(entry, items, names)),
            Node::Leaf(items) if items[0].entry.matches(entry.hash, entry.key) => single(entry, names),
            Node::Leaf(items) => {
                let old = self.segment(depth, items[0].entry.hash);
                let new = self.segment(depth, entry.hash);
                let cell = names.fresh();
                if old == new {
                    let deeper = self.insert_node(depth + 1, entry, node, names);
                    Node::Branch(cell, vec![(new, Rc::new(deeper))])
                } else {
                    Node::Branch(cell, put(new, single(entry, names), &[(old, node.clone())]))
                }
            }
            Node::Branch(_, kids) => {
                let segment = self.segment(depth, entry.hash);
                let cell = names.fresh();
                let node = match child(segment, kids) {
                    None => single(entry, names),
                    Some(kid) => self.insert_node(depth + 1, entry, kid, names),
                };
                Node::Branch(cell, put(segment, node, kids))
            }
        }
    }

    /// "Remove takes an entry out; a chain of two becomes a single. An emptied child leaves its branch." The key is there.
    fn remove_node(&self, depth: u32, hash: u64, key: u64, node: &Node, names: &mut Names) -> Node {
        match node {
            Node::Leaf(items) => Node::Leaf(list_remove_first(hash, key, items, names)),
            Node::Branch(_, kids) => {
                let segment = self.segment(depth, hash);
                let kid = child(segment, kids).expect("the key is there");
                let left = self.remove_node(depth + 1, hash, key, kid, names);
                let kids = if is_empty(&left) { take_out(segment, kids) } else { put(segment, left, kids) };
                compress(kids, names)
            }
        }
    }

    fn before(&self, hash: u64, key: u64) -> u64 {
        ahead(hash, key, self.path(hash).0).unwrap_or(0) as u64
    }
}

impl Trie for Paper {
    fn empty(degree: u64) -> Paper {
        let (bits, depths) = row(degree).expect("a degree of the table");
        Paper { bits, depths, root: None }
    }

    fn get(&self, hash: u64, key: u64) -> Option<u64> {
        let items = self.path(hash).0;
        ahead(hash, key, items).map(|at| items[at].entry.value)
    }

    /// "One branch cell for each branch on the new entry's path in the result, one cell for the entry, and one for each
    /// chain entry that stood before a replaced one."
    fn insert(&self, entry: Entry, names: &mut Names) -> (Paper, Cells) {
        let node = match &self.root {
            None => Node::Branch(names.fresh(), vec![(self.segment(0, entry.hash), Rc::new(single(entry, names)))]),
            Some(root) => self.insert_node(0, entry, root, names),
        };
        let result = self.with(Some(Rc::new(node)));
        let branches = result.path(entry.hash).1;
        (result, Cells { branches, entries: 1 + self.before(entry.hash, entry.key) })
    }

    /// "Change (`get_mut` followed by a write) is insert where the key is present, else answer 6."
    fn change(&self, entry: Entry, names: &mut Names) -> Option<(Paper, Cells)> {
        self.get(entry.hash, entry.key).map(|_| self.insert(entry, names))
    }

    /// "One branch cell for each branch left on the path in the result, and one entry cell for each chain entry that stood
    /// before the removed one; an empty result takes none."
    fn remove(&self, hash: u64, key: u64, names: &mut Names) -> Option<(Paper, Cells)> {
        self.get(hash, key)?;
        let left = self.remove_node(0, hash, key, self.root.as_ref()?, names);
        let result = self.with(if is_empty(&left) { None } else { Some(Rc::new(left)) });
        let branches = result.path(hash).1;
        Some((result, Cells { branches, entries: self.before(hash, key) }))
    }

    fn size(&self) -> u64 {
        self.listing().len() as u64
    }

    /// "Listing goes through children in ascending order, chains front first."
    fn listing(&self) -> Vec<Entry> {
        fn list(node: &Node, out: &mut Vec<Entry>) {
            match node {
                Node::Leaf(items) => out.extend(items.iter().map(|item| item.entry)),
                Node::Branch(_, kids) => kids.iter().for_each(|(_, kid)| list(kid, out)),
            }
        }
        let mut out = Vec::new();
        self.root.iter().for_each(|root| list(root, &mut out));
        out
    }

    /// "Two editions are equal when sizes agree and each entry of one is in the other with the same value."
    fn equal(&self, other: &Paper) -> bool {
        let listing = self.listing();
        listing.len() as u64 == other.size()
            && listing.iter().all(|entry| other.get(entry.hash, entry.key) == Some(entry.value))
    }

    fn root(&self) -> &Root {
        &self.root
    }
}
