//! An edition of the crate's side: a map, and what makes each of its entry cells one and the same in two editions.
//!
//! The addresses of the crate's nodes nearly say it. A branch cell is a branch's address, and an entry cell the address of the
//! entry that it was made with. But where a chain's entry is replaced or taken out, document 01 copies the cells in front of
//! it, while the crate shares their entries; and two editions made of the same one have each their own copies. So copies are
//! numbered.
use archery::RcK;
use oracle::rpds_trie::{Key, Map, empty_map};
use rpds::map::hash_trie_map::probe::{self, SeenEntry};
use std::collections::HashMap;
use std::rc::Rc;

/// A node of an edition's map.
pub type Place<'a> = probe::Place<'a, Key, u64, RcK>;

/// The entries of a leaf, the front first.
pub type Chain<'a> = Vec<SeenEntry<'a, Key, u64>>;

/// The name of an entry cell. All editions that are looked at are alive, so that no address stands for two entries.
#[derive(Clone, Copy, Debug, PartialEq, Eq, Hash)]
pub enum Name {
    /// A cell made with its entry, which stands at this address.
    Made(usize),
    /// A copy of a cell, by its number.
    Copied(u64),
}

/// An edition.
#[derive(Clone)]
pub struct Edition {
    /// The crate's map.
    pub map: Map,
    /// by their hash, the names of those chains that have a copy
    copies: Rc<HashMap<u64, Vec<Name>>>,
}

impl Edition {
    /// The edition without entries.
    pub fn empty(degree: u8) -> Edition {
        Edition { map: empty_map(degree), copies: Rc::default() }
    }

    /// The root, unless the map is empty, which takes no cell.
    pub fn root(&self) -> Option<Place<'_>> {
        (!self.map.is_empty()).then(|| probe::root(&self.map))
    }

    /// The names of a chain of this edition, in its order.
    pub fn names(&self, chain: &Chain<'_>) -> Vec<Name> {
        let copies = chain.first().and_then(|front| self.copies.get(&front.hash));
        copies.cloned().unwrap_or_else(|| chain.iter().map(|entry| Name::Made(entry.address)).collect())
    }

    /// What an update of a hash makes of this edition; `copied` counts the copies made so far. A cell is shared if entry and
    /// all that stands behind it are; else it is new, and a copy if the entry was there before.
    pub fn updated(&self, map: Map, hash: u64, copied: &mut u64) -> Edition {
        let made = Edition { map, copies: self.copies.clone() };
        let (old, new) = (self.chain_of(hash), made.chain_of(hash));
        let old_names = self.names(&old);
        let backs = new.iter().rev().zip(old.iter().rev());
        let shared = backs.take_while(|(new, old)| new.address == old.address).count();
        let name = |entry: &SeenEntry<'_, Key, u64>| {
            if old.iter().all(|old| old.address != entry.address) {
                return Name::Made(entry.address);
            }
            *copied += 1;
            Name::Copied(*copied)
        };
        let mut names: Vec<Name> = new[..new.len() - shared].iter().map(name).collect();
        names.extend(&old_names[old.len() - shared..]);
        made.with_names(hash, names)
    }

    fn with_names(mut self, hash: u64, names: Vec<Name>) -> Edition {
        if names.iter().any(|name| matches!(name, Name::Copied(_))) {
            Rc::make_mut(&mut self.copies).insert(hash, names);
        } else if self.copies.contains_key(&hash) {
            Rc::make_mut(&mut self.copies).remove(&hash);
        }
        self
    }

    /// The chain of a hash; no entry where there is none.
    fn chain_of(&self, hash: u64) -> Chain<'_> {
        let chain = self.root().map_or(Vec::new(), |root| chain_below(root, 0, hash));
        if chain.first().is_some_and(|front| front.hash == hash) { chain } else { Vec::new() }
    }
}

/// The chain that the path of a hash leads to from a node at a depth, whatever its own hash.
pub fn chain_below(node: Place<'_>, depth: usize, hash: u64) -> Chain<'_> {
    let mut at = Some((node, depth));
    while let Some((node, depth)) = at {
        if let Some(chain) = node.leaf() {
            return chain;
        }
        at = node.towards(hash, depth).map(|child| (child, depth + 1));
    }
    Vec::new()
}
