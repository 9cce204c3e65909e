//! A trie as a picture, its cells named, and what the crate and document 01 both have to offer to be compared.
use crate::calls::{Cells, Entry};
use std::rc::Rc;

/// The name of a cell. Two tries share a cell if both show its name.
pub type Name = usize;

/// Gives every new cell a name of its own.
#[derive(Default)]
pub struct Names {
    next: Name,
}

impl Names {
    /// A name that no cell has had.
    pub fn fresh(&mut self) -> Name {
        self.next += 1;
        self.next - 1
    }
}

/// An entry cell.
#[derive(Clone, Copy, Debug)]
pub struct Item {
    /// Its name.
    pub cell: Name,
    /// What it holds.
    pub entry: Entry,
}

/// A node of a trie, as in `crates/trie/specs/Trie.antt`.
#[derive(Debug)]
pub enum Node {
    /// A single entry, or a chain with its front first.
    Leaf(Vec<Item>),
    /// A branch cell with its children in ascending segment order.
    Branch(Name, Vec<(u64, Rc<Node>)>),
}

/// A map: none is the empty one, which takes no cell.
pub type Root = Option<Rc<Node>>;

/// What stands at a place of a trie.
pub enum Cell<'a> {
    /// A branch cell.
    Branch(Name),
    /// An entry cell.
    Entry(&'a Item),
}

impl Node {
    /// Goes through the cells in listing order, each branch before its children.
    pub fn each_cell<'a>(&'a self, visit: &mut impl FnMut(Cell<'a>)) {
        match self {
            Node::Leaf(items) => items.iter().for_each(|item| visit(Cell::Entry(item))),
            Node::Branch(cell, kids) => {
                visit(Cell::Branch(*cell));
                kids.iter().for_each(|(_, kid)| kid.each_cell(visit));
            }
        }
    }
}

/// A map that a shelf can hold: the crate's, or document 01's.
pub trait Trie: Clone {
    /// The empty map.
    fn empty(degree: u64) -> Self;

    /// The value at this hash and key.
    fn get(&self, hash: u64, key: u64) -> Option<u64>;

    /// The map with the entry, and the cells that it takes.
    fn insert(&self, entry: Entry, names: &mut Names) -> (Self, Cells);

    /// The map with the entry's new value, if the key is there.
    fn change(&self, entry: Entry, names: &mut Names) -> Option<(Self, Cells)>;

    /// The map without this key, if it is there.
    fn remove(&self, hash: u64, key: u64, names: &mut Names) -> Option<(Self, Cells)>;

    /// How many entries there are.
    fn size(&self) -> u64;

    /// The entries in listing order.
    fn listing(&self) -> Vec<Entry>;

    /// Whether both maps have the same entries.
    fn equal(&self, other: &Self) -> bool;

    /// The nodes and cells.
    fn root(&self) -> &Root;
}
