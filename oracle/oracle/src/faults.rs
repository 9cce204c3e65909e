//! The comparison finds what it is there to find: each wrong trie of document 01's "How a false port would show", and some
//! more, differs from the crate within a short comparison at every degree.
use crate::DEGREES;
use crate::calls::{Cells, Entry};
use crate::compare::compare_with;
use crate::paper::Paper;
use crate::trie::{Item, Names, Node, Root, Trie};
use std::rc::Rc;

const NONE: u8 = 0;
const REPLACED_KEEPS_ITS_PLACE: u8 = 1;
const STOPS_BELOW_THE_ROOT: u8 = 2;
const COPIES_EVERYTHING: u8 = 3;
const COPIES_THE_CHAIN: u8 = 4;
const REPORTS_A_BRANCH_MORE: u8 = 5;
const FORGETS_THE_COPIES: u8 = 6;
const CHANGE_INSERTS: u8 = 7;
const LATER_INSERTS_PRETEND: u8 = 8;
const MATCHES_THE_KEY_ALONE: u8 = 9;
const EQUAL_IGNORES_VALUES: u8 = 10;
const LISTS_BACKWARDS: u8 = 11;
const DROPS_THE_CHILDREN_BEHIND: u8 = 12;

/// Document 01's trie with one fault.
#[derive(Clone)]
struct Wrong<const FAULT: u8>(Paper);

/// The trie with each leaf made anew.
fn with_leaves(root: &Root, make: &mut impl FnMut(&[Item]) -> Vec<Item>) -> Root {
    fn go(node: &Node, make: &mut impl FnMut(&[Item]) -> Vec<Item>) -> Node {
        match node {
            Node::Leaf(items) => Node::Leaf(make(items)),
            Node::Branch(cell, kids) => {
                Node::Branch(*cell, kids.iter().map(|(at, kid)| (*at, Rc::new(go(kid, make)))).collect())
            }
        }
    }
    root.as_ref().map(|root| Rc::new(go(root, make)))
}

/// The chain with its front put where it stood before, under another value.
fn back_in_place(items: &[Item], old: &[Entry], entry: Entry) -> Vec<Item> {
    let mut items = items.to_vec();
    if items.len() > 1 && items[0].entry == entry {
        let at = old.iter().filter(|e| e.hash == entry.hash).position(|e| e.key == entry.key).unwrap_or(0);
        let front = items.remove(0);
        items.insert(at.min(items.len()), front);
    }
    items
}

fn named_anew(items: &[Item], names: &mut Names) -> Vec<Item> {
    items.iter().map(|item| Item { cell: names.fresh(), entry: item.entry }).collect()
}

/// The root branch without the children behind the one that was replaced.
fn cut_behind(root: &Root, hash: u64, degree_mask: u64) -> Root {
    root.as_ref().map(|root| match &**root {
        Node::Branch(cell, kids) => {
            let kept = kids.iter().filter(|(at, _)| *at <= (hash & degree_mask)).cloned();
            Rc::new(Node::Branch(*cell, kept.collect()))
        }
        Node::Leaf(_) => root.clone(),
    })
}

impl<const FAULT: u8> Wrong<FAULT> {
    fn spoil(&self, made: Paper, mut taken: Cells, entry: Entry, names: &mut Names) -> (Self, Cells) {
        let was_there = self.0.get(entry.hash, entry.key).is_some();
        let root = match FAULT {
            REPLACED_KEEPS_ITS_PLACE => {
                let old = self.0.listing();
                with_leaves(made.root(), &mut |items| back_in_place(items, &old, entry))
            }
            COPIES_EVERYTHING => with_leaves(made.root(), &mut |items| named_anew(items, names)),
            COPIES_THE_CHAIN => with_leaves(made.root(), &mut |items| match items {
                [front, rest @ ..] if front.entry == entry => {
                    [*front].into_iter().chain(named_anew(rest, names)).collect()
                }
                _ => items.to_vec(),
            }),
            DROPS_THE_CHILDREN_BEHIND if was_there => cut_behind(made.root(), entry.hash, 1),
            LATER_INSERTS_PRETEND if self.0.size() > 0 => self.0.root().clone(),
            _ => made.root().clone(),
        };
        match FAULT {
            REPORTS_A_BRANCH_MORE => taken.branches += 1,
            FORGETS_THE_COPIES => taken.entries = 1,
            _ => (),
        }
        (Wrong(made.with(root)), taken)
    }
}

impl<const FAULT: u8> Trie for Wrong<FAULT> {
    fn empty(degree: u64) -> Self {
        Wrong(Paper::empty(degree))
    }

    fn get(&self, hash: u64, key: u64) -> Option<u64> {
        if FAULT == MATCHES_THE_KEY_ALONE {
            return self.0.listing().iter().find(|entry| entry.key == key).map(|entry| entry.value);
        }
        self.0.get(hash, key)
    }

    fn insert(&self, entry: Entry, names: &mut Names) -> (Self, Cells) {
        let (made, taken) = self.0.insert(entry, names);
        self.spoil(made, taken, entry, names)
    }

    fn change(&self, entry: Entry, names: &mut Names) -> Option<(Self, Cells)> {
        if FAULT == CHANGE_INSERTS {
            return Some(self.insert(entry, names));
        }
        let (made, taken) = self.0.change(entry, names)?;
        Some(self.spoil(made, taken, entry, names))
    }

    fn remove(&self, hash: u64, key: u64, names: &mut Names) -> Option<(Self, Cells)> {
        let (made, taken) = self.0.remove(hash, key, names)?;
        let root = match made.root() {
            Some(root) if FAULT == STOPS_BELOW_THE_ROOT && matches!(**root, Node::Leaf(_)) => {
                Some(Rc::new(Node::Branch(names.fresh(), vec![(hash & 1, root.clone())])))
            }
            root => root.clone(),
        };
        Some((Wrong(made.with(root)), taken))
    }

    fn size(&self) -> u64 {
        self.0.size()
    }

    fn listing(&self) -> Vec<Entry> {
        let mut listing = self.0.listing();
        if FAULT == LISTS_BACKWARDS {
            listing.reverse();
        }
        listing
    }

    fn equal(&self, other: &Self) -> bool {
        if FAULT == EQUAL_IGNORES_VALUES {
            let pairs = |trie: &Paper| trie.listing().iter().map(|entry| (entry.hash, entry.key)).collect::<Vec<_>>();
            return pairs(&self.0) == pairs(&other.0);
        }
        self.0.equal(&other.0)
    }

    fn root(&self) -> &Root {
        self.0.root()
    }
}

/// The fault is found at every degree, in a few calls.
fn is_found<const FAULT: u8>() {
    for degree in DEGREES {
        match compare_with::<Wrong<FAULT>>(degree, 5_000, 1) {
            Ok(_) => panic!("degree {degree}: no difference was found"),
            Err(difference) => assert!(difference.calls.len() <= 25, "degree {degree}: {difference}"),
        }
    }
}

#[test]
fn without_a_fault_there_is_no_difference() {
    for degree in DEGREES {
        assert!(compare_with::<Wrong<NONE>>(degree, 2_000, 1).is_ok());
    }
}

#[test]
fn each_fault_is_found() {
    is_found::<REPLACED_KEEPS_ITS_PLACE>();
    is_found::<STOPS_BELOW_THE_ROOT>();
    is_found::<COPIES_EVERYTHING>();
    is_found::<COPIES_THE_CHAIN>();
    is_found::<REPORTS_A_BRANCH_MORE>();
    is_found::<FORGETS_THE_COPIES>();
    is_found::<CHANGE_INSERTS>();
    is_found::<LATER_INSERTS_PRETEND>();
    is_found::<MATCHES_THE_KEY_ALONE>();
    is_found::<EQUAL_IGNORES_VALUES>();
    is_found::<LISTS_BACKWARDS>();
    is_found::<DROPS_THE_CHILDREN_BEHIND>();
}
