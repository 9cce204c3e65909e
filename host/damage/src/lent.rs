//! Words that are lent to a call, with canaries before and behind them.

/// Canaries on each side.
const MARGIN: usize = 16;

/// Words inside a larger buffer. The words around them are canaries, which no call may alter.
pub struct Lent {
    buffer: Vec<u64>,
}

/// No two neighbours are alike, so that a shifted copy shows.
fn canary(at: usize) -> u64 {
    0xca9a_7135_0000_0000 ^ (at as u64).wrapping_mul(0x9e37_79b9)
}

impl Default for Lent {
    fn default() -> Self {
        let mut lent = Lent { buffer: Vec::new() };
        lent.lay_out(&[]);
        lent
    }
}

impl Lent {
    /// Lays out other words, of any length, and new canaries around them.
    pub fn lay_out(&mut self, words: &[u64]) {
        self.buffer.clear();
        self.buffer.extend((0..MARGIN).map(canary));
        self.buffer.extend_from_slice(words);
        self.buffer.extend((0..MARGIN).map(canary));
    }

    /// The words without the canaries.
    pub fn words(&self) -> &[u64] {
        &self.buffer[MARGIN..self.buffer.len() - MARGIN]
    }

    /// The words without the canaries, to be written.
    pub fn words_mut(&mut self) -> &mut [u64] {
        let end = self.buffer.len() - MARGIN;
        &mut self.buffer[MARGIN..end]
    }

    /// Whether no canary is altered.
    pub fn do_canaries_stand(&self) -> bool {
        let (before, rest) = self.buffer.split_at(MARGIN);
        let behind = &rest[rest.len() - MARGIN..];
        [before, behind].iter().all(|side| side.iter().enumerate().all(|(at, word)| *word == canary(at)))
    }
}

#[cfg(test)]
mod tests {
    use super::*;

    #[test]
    fn each_canary_is_seen_to_fall() {
        let mut lent = Lent::default();
        for words in [&[][..], &[1, 2, 3]] {
            lent.lay_out(words);
            assert_eq!(lent.words(), words);
            assert!(lent.do_canaries_stand());
            for at in (0..MARGIN).chain(MARGIN + words.len()..lent.buffer.len()) {
                lent.buffer[at] ^= 1 << (at % 64);
                assert!(!lent.do_canaries_stand());
                lent.lay_out(words);
            }
            lent.words_mut().fill(9);
            assert!(lent.do_canaries_stand());
        }
    }
}
