//! Every sequence of up to four updates over four keys, on the crate and on document 01's trie.
use oracle::DEGREES;
use oracle::exhaust::exhaust;

#[test]
fn the_crate_and_document_01_agree() {
    for degree in DEGREES {
        let tally = exhaust(degree, 4).unwrap_or_else(|difference| panic!("degree {degree}: {difference}"));
        assert_eq!(tally.updates(), 1372, "degree {degree}");
    }
}
