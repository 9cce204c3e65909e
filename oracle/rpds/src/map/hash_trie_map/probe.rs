//! What the crate keeps private, made visible: the nodes of a map as they stand, with the address of each, and the two
//! modules that the map is made of.
use super::*;

/// A node of a map.
#[derive(Debug)]
pub enum Seen<'a, K, V> {
    /// A branch: its address, and its children with their segments, in ascending order.
    Branch(usize, Vec<(usize, Seen<'a, K, V>)>),
    /// A leaf with one entry.
    Single(SeenEntry<'a, K, V>),
    /// A leaf with a collision, its front first.
    Collision(Vec<SeenEntry<'a, K, V>>),
}

/// An entry of a map.
#[derive(Debug)]
pub struct SeenEntry<'a, K, V> {
    /// The address of key and value. Copies of the list around an entry leave it where it is.
    pub address: usize,
    /// The address of what holds the entry: its node in the list of a collision, or the leaf.
    pub holder: usize,
    pub hash: u64,
    pub key: &'a K,
    pub value: &'a V,
}

fn see_entry<'a, K, V, P: SharedPointerKind>(entry: &'a EntryWithHash<K, V, P>, holder: usize) -> SeenEntry<'a, K, V> {
    let address = SharedPointer::as_ptr(&entry.entry) as usize;
    SeenEntry { address, holder, hash: entry.key_hash, key: &entry.entry.key, value: &entry.entry.value }
}

fn see_node<K, V, P: SharedPointerKind>(node: &SharedPointer<Node<K, V, P>, P>, degree: u8) -> Seen<'_, K, V> {
    let address = SharedPointer::as_ptr(node) as usize;
    match &**node {
        Node::Branch(subtrees) => {
            let child = |index| subtrees.get(index).map(|subtree| (index, see_node(subtree, degree)));
            let children: Vec<_> = (0..usize::from(degree)).filter_map(child).collect();
            assert_eq!(children.len(), subtrees.size(), "a branch has children beyond the degree");
            Seen::Branch(address, children)
        }
        Node::Leaf(Bucket::Single(entry)) => Seen::Single(see_entry(entry, address)),
        Node::Leaf(Bucket::Collision(entries)) => {
            // the list's nodes are private; the pointer that an iteration lends lies inside one
            let seen = entries.iter_ptr().map(|held| see_entry(&**held, core::ptr::from_ref(held) as usize));
            Seen::Collision(seen.collect())
        }
    }
}

/// The nodes of a map, from its root.
pub fn see<K, V, P: SharedPointerKind, H: BuildHasher>(map: &HashTrieMap<K, V, P, H>) -> Seen<'_, K, V> {
    see_node(&map.root, map.degree)
}

/// A node of a map where it stands, to go down from child by child: [`see`] shows a map as a whole, which takes too long
/// where maps are large and calls are many.
#[derive(Debug)]
pub struct Place<'a, K, V, P: SharedPointerKind> {
    node: &'a SharedPointer<Node<K, V, P>, P>,
    degree: u8,
}

impl<K, V, P: SharedPointerKind> Clone for Place<'_, K, V, P> {
    fn clone(&self) -> Self {
        *self
    }
}

impl<K, V, P: SharedPointerKind> Copy for Place<'_, K, V, P> {}

/// The root of a map.
pub fn root<K, V, P: SharedPointerKind, H: BuildHasher>(map: &HashTrieMap<K, V, P, H>) -> Place<'_, K, V, P> {
    Place { node: &map.root, degree: map.degree }
}

impl<'a, K, V, P: SharedPointerKind> Place<'a, K, V, P> {
    pub fn address(self) -> usize {
        SharedPointer::as_ptr(self.node) as usize
    }

    /// The child of a branch at a segment; a leaf has none.
    pub fn child(self, segment: usize) -> Option<Self> {
        let Node::Branch(subtrees) = &**self.node else { return None };
        subtrees.get(segment).map(|node| Place { node, ..self })
    }

    /// The children of a branch with their segments, in ascending order.
    pub fn children(self) -> impl Iterator<Item = (usize, Self)> {
        (0..usize::from(self.degree)).filter_map(move |segment| Some((segment, self.child(segment)?)))
    }

    /// The child of a branch on the way to a hash.
    pub fn towards(self, hash: u64, depth: usize) -> Option<Self> {
        self.child(index_from_hash(hash, depth, self.degree)?)
    }

    /// The entries of a leaf, the front first; a branch is no leaf.
    pub fn leaf(self) -> Option<Vec<SeenEntry<'a, K, V>>> {
        if matches!(&**self.node, Node::Branch(_)) {
            return None;
        }
        match see_node(self.node, self.degree) {
            Seen::Branch(..) => None,
            Seen::Single(entry) => Some(vec![entry]),
            Seen::Collision(entries) => Some(entries),
        }
    }
}

/// The crate's `index_from_hash`.
pub fn index_from_hash(hash: u64, depth: usize, degree: u8) -> Option<usize> {
    node_utils::index_from_hash(hash, depth, degree)
}

/// The crate's sparse array, of numbers.
#[derive(Debug)]
pub struct Sparse(SparseArrayUsize<u64>);

impl Sparse {
    #[allow(clippy::new_without_default)]
    pub fn new() -> Sparse {
        Sparse(SparseArrayUsize::new())
    }

    pub fn get(&self, index: usize) -> Option<u64> {
        self.0.get(index).copied()
    }

    pub fn first(&self) -> Option<u64> {
        self.0.first().copied()
    }

    pub fn pop(&mut self) -> Option<u64> {
        self.0.pop()
    }

    pub fn set(&mut self, index: usize, value: u64) {
        self.0.set(index, value);
    }

    pub fn remove(&mut self, index: usize) {
        self.0.remove(index);
    }

    pub fn size(&self) -> usize {
        self.0.size()
    }

    /// The words as they are packed.
    pub fn words(&self) -> Vec<u64> {
        self.0.iter().copied().collect()
    }
}
