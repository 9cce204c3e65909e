//! What docs/DIFFERENCES.md says of the crate, seen again.
use oracle::differences::shown;

#[test]
fn the_crate_does_what_is_said_of_it() {
    let checked = cfg!(debug_assertions);
    let said = [
        "other bad degrees: 0 panics: degree must be a power of two; 3 panics: degree must be a power of two; \
         65 panics: degree must be a power of two; 128 panics: degree is too big",
        "a missing key in a map of one: remove: equal true, same root true; remove_mut: false, same root false; \
         get_mut: false, same root false",
        "the drawing's last row: two keys under one hash at degree 16: the chain stands at depth 16",
        "get_mut in a chain: keys of a chain [2, 1], after get_mut of key 1 and no write [1, 2]",
        "a new key in a chain of two: of the 2 entries behind the new one 2 are shared, and 0 of the list nodes that hold \
         them",
        "the sparse array's pop: Some(7); then size 1, words []",
        if checked {
            "the sparse array's get at index 64: panics: assertion failed: index < 8 * size_of_val(&self.bitmap)"
        } else {
            "the sparse array's get at index 64: Some(7)"
        },
        if checked {
            "index_from_hash where depth or shift wraps: degree 2, depth 64: None; degree 2, depth 4294967296: Some(1); \
             degree 64, depth 11: None; degree 64, depth 715827883: panics: attempt to multiply with overflow"
        } else {
            "index_from_hash where depth or shift wraps: degree 2, depth 64: None; degree 2, depth 4294967296: Some(1); \
             degree 64, depth 11: None; degree 64, depth 715827883: Some(63)"
        },
    ];
    assert_eq!(shown(), said);
}
