//! The crate's `HashTrieMap` over 64-bit hashes, keys and values, and the reading of its addresses as cells.
use crate::calls::{Cells, Entry};
use crate::trie::{Item, Name, Names, Node, Root, Trie};
use archery::RcK;
use rpds::HashTrieMap;
use rpds::map::hash_trie_map::probe::{self, Seen, SeenEntry};
use std::collections::HashMap;
use std::hash::{BuildHasher, Hash, Hasher};
use std::rc::Rc;

/// A key that carries its hash; equal where both are.
#[derive(Clone, Copy, Debug, PartialEq, Eq)]
pub struct Key {
    /// The hash.
    pub hash: u64,
    /// The key.
    pub key: u64,
}

impl Hash for Key {
    fn hash<H: Hasher>(&self, state: &mut H) {
        state.write_u64(self.hash);
    }
}

/// A hasher that returns the hash of a [`Key`] unchanged.
#[derive(Clone, Copy, Debug, Default)]
pub struct Unchanged(u64);

impl Hasher for Unchanged {
    fn write(&mut self, _bytes: &[u8]) {
        unreachable!("a key writes its hash and nothing else");
    }

    fn write_u64(&mut self, hash: u64) {
        self.0 = hash;
    }

    fn finish(&self) -> u64 {
        self.0
    }
}

impl BuildHasher for Unchanged {
    type Hasher = Unchanged;

    fn build_hasher(&self) -> Unchanged {
        Unchanged(0)
    }
}

/// The crate's map.
pub type Map = HashTrieMap<Key, u64, RcK, Unchanged>;

/// The crate's empty map of a degree; panics where the crate does.
pub fn empty_map(degree: u8) -> Map {
    HashTrieMap::new_with_hasher_and_degree_and_ptr_kind(Unchanged::default(), degree)
}

/// What makes a cell one and the same in two maps that are both alive: for a branch its address, for an entry its
/// address and those of all that stand behind it in the chain. The cell behind stands here by its name, which says the
/// same of it. No branch has the address of an entry: they are two allocations, and both are alive.
type Identity = (usize, Option<Name>);

/// A map with its cells named. A cell that the map it was made from has too keeps its name there; any other is new.
#[derive(Clone)]
pub struct RpdsTrie {
    map: Map,
    named: Rc<HashMap<Identity, Name>>,
    root: Root,
}

/// Names the cells of a map as it goes through them.
struct Naming<'a> {
    old: &'a HashMap<Identity, Name>,
    named: HashMap<Identity, Name>,
    names: &'a mut Names,
    taken: Cells,
}

impl Naming<'_> {
    fn name(&mut self, identity: Identity, taken: impl Fn(&mut Cells) -> &mut u64) -> Name {
        let name = self.old.get(&identity).copied().unwrap_or_else(|| {
            *taken(&mut self.taken) += 1;
            self.names.fresh()
        });
        assert!(self.named.insert(identity, name).is_none(), "a map reaches a cell twice");
        name
    }

    /// Names a chain from its back, so that the name of what stands behind is known.
    fn chain(&mut self, seen: &[SeenEntry<'_, Key, u64>]) -> Vec<Item> {
        let mut items = Vec::with_capacity(seen.len());
        let mut behind = None;
        for entry in seen.iter().rev() {
            assert_eq!(entry.hash, entry.key.hash, "the crate keeps the hash that it was given");
            let cell = self.name((entry.address, behind), |taken| &mut taken.entries);
            behind = Some(cell);
            items.push(Item { cell, entry: Entry { hash: entry.hash, key: entry.key.key, value: *entry.value } });
        }
        items.reverse();
        items
    }

    fn node(&mut self, seen: &Seen<'_, Key, u64>) -> Node {
        match seen {
            Seen::Single(entry) => Node::Leaf(self.chain(std::slice::from_ref(entry))),
            Seen::Collision(entries) => {
                assert!(entries.len() >= 2, "the crate's collisions have two entries or more");
                Node::Leaf(self.chain(entries))
            }
            Seen::Branch(address, children) => {
                let cell = self.name((*address, None), |taken| &mut taken.branches);
                let kid = |(segment, seen): &(usize, Seen<'_, Key, u64>)| (*segment as u64, Rc::new(self.node(seen)));
                Node::Branch(cell, children.iter().map(kid).collect())
            }
        }
    }
}

impl RpdsTrie {
    /// The map that an update made of this one, with its cells named, and how many of them are new. Both maps are alive,
    /// so no address stands for two nodes.
    fn updated(&self, map: Map, names: &mut Names) -> (RpdsTrie, Cells) {
        let named = HashMap::with_capacity(self.named.len() + 64);
        let mut naming = Naming { old: &self.named, named, names, taken: Cells::default() };
        let seen = probe::see(&map);
        // "The empty map is an empty root branch. Here it takes no cell."
        let root = match &seen {
            Seen::Branch(_, children) if children.is_empty() => None,
            _ => Some(Rc::new(naming.node(&seen))),
        };
        drop(seen);
        let (named, taken) = (Rc::new(naming.named), naming.taken);
        (RpdsTrie { map, named, root }, taken)
    }

    /// The crate's map.
    pub fn map(&self) -> &Map {
        &self.map
    }
}

impl Trie for RpdsTrie {
    fn empty(degree: u64) -> RpdsTrie {
        let degree = u8::try_from(degree).expect("a degree of the table");
        RpdsTrie { map: empty_map(degree), named: Rc::default(), root: None }
    }

    fn get(&self, hash: u64, key: u64) -> Option<u64> {
        self.map.get(&Key { hash, key }).copied()
    }

    fn insert(&self, entry: Entry, names: &mut Names) -> (RpdsTrie, Cells) {
        let map = self.map.insert(Key { hash: entry.hash, key: entry.key }, entry.value);
        self.updated(map, names)
    }

    fn change(&self, entry: Entry, names: &mut Names) -> Option<(RpdsTrie, Cells)> {
        let mut map = self.map.clone();
        *map.get_mut(&Key { hash: entry.hash, key: entry.key })? = entry.value;
        Some(self.updated(map, names))
    }

    fn remove(&self, hash: u64, key: u64, names: &mut Names) -> Option<(RpdsTrie, Cells)> {
        let map = self.map.remove(&Key { hash, key });
        // the crate answers an equal map where nothing was there
        (map.size() < self.map.size()).then(|| self.updated(map, names))
    }

    fn size(&self) -> u64 {
        self.map.size() as u64
    }

    fn listing(&self) -> Vec<Entry> {
        self.map.iter().map(|(key, value)| Entry { hash: key.hash, key: key.key, value: *value }).collect()
    }

    fn equal(&self, other: &RpdsTrie) -> bool {
        self.map == other.map
    }

    fn root(&self) -> &Root {
        &self.root
    }
}
