//! Tags: classes, keys and how they are written.
use shelf::{Class, Tag};

fn class(group: u16, element: u16) -> Class {
    Tag { group, element }.class()
}

#[test]
fn classes_part_where_the_standard_says() {
    assert_eq!(class(0x0010, 0x0010), Class::Public);
    assert_eq!(class(0xfffe, 0xffff), Class::Public);
    assert_eq!(class(0x3005, 0x000f), Class::Unassigned);
    assert_eq!(class(0x3005, 0x0010), Class::Creator { block: 0x10 });
    assert_eq!(class(0x3005, 0x00ff), Class::Creator { block: 0xff });
    assert_eq!(class(0x3005, 0x0100), Class::Unassigned);
    assert_eq!(class(0x3005, 0x0fff), Class::Unassigned);
    assert_eq!(class(0x3005, 0x1000), Class::Private { block: 0x10, low: 0 });
    assert_eq!(class(0x3005, 0xffff), Class::Private { block: 0xff, low: 0xff });
}

#[test]
fn keys_are_group_and_element() {
    assert_eq!(Tag { group: 0x7fe0, element: 0x0010 }.key(), 0x7fe0_0010);
    assert_eq!(Tag { group: 0xffff, element: 0xffff }.key(), 0xffff_ffff);
}

#[test]
fn classes_are_said_in_words() {
    assert_eq!(class(0x0010, 0x0010).to_string(), "public");
    assert_eq!(class(0x3005, 0x0011).to_string(), "creator of block 11");
    assert_eq!(class(0x3005, 0x1042).to_string(), "private element 42 of block 10");
    assert_eq!(class(0x3005, 0x0001).to_string(), "private, unassigned");
}
