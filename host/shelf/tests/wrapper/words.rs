//! Words that an arena owns.
use shelf::{Arena, Words};

#[test]
fn words_are_aligned_and_zero() {
    for len in [0, 1, 26, 262_144, 262_145] {
        let words = Words::new(len).expect("the system has the words");
        assert_eq!(words.len(), len);
        assert_eq!(words.as_ptr() as usize % Words::ALIGNMENT, 0);
        assert!(words.iter().all(|word| *word == 0));
    }
}

#[test]
fn words_are_written_from_end_to_end() {
    let mut words = Words::new(300_000).expect("the system has the words");
    for (at, word) in words.iter_mut().enumerate() {
        *word = at as u64;
    }
    assert!(words.iter().enumerate().all(|(at, word)| *word == at as u64));
    assert_eq!(format!("{words:?}"), "Words(300000)");
}

#[test]
fn more_words_than_there_are_are_refused() {
    for len in [usize::MAX, usize::MAX / 8, usize::MAX / 8 - 262_144, 1 << 60, 1 << 50] {
        assert!(Words::new(len).is_err(), "{len}");
    }
}

#[test]
fn words_can_go_to_another_thread() {
    fn goes<T: Send + Sync>() {}
    goes::<Words>();
    goes::<Arena<Words>>();
    let mut words = Words::new(10).expect("the system has the words");
    words[9] = 7;
    let there = std::thread::spawn(move || words[9]);
    assert_eq!(there.join().expect("the thread ends well"), 7);
}
