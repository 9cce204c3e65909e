//! What stands behind the name of a program: `--name` and a number, any number of times, or `--help`.
use std::env;

/// Reads the words that a program was started with. `usual` names its options, each with the number that counts where none is
/// given. Answers the numbers in the same order, nothing where help is asked for, or a sentence on what cannot be read.
pub fn read<const N: usize>(usual: [(&str, u64); N]) -> Result<Option<[u64; N]>, String> {
    numbers(env::args_os().skip(1).map(|word| word.to_string_lossy().into_owned()), usual)
}

fn numbers<const N: usize>(
    mut words: impl Iterator<Item = String>,
    usual: [(&str, u64); N],
) -> Result<Option<[u64; N]>, String> {
    let mut numbers = usual.map(|(_, number)| number);
    while let Some(word) = words.next() {
        if matches!(word.as_str(), "--help" | "-h") {
            return Ok(None);
        }
        let Some(at) = usual.iter().position(|(name, _)| *name == word) else {
            return Err(format!("there is no option {word}; --help names those that there are"));
        };
        let number = words.next().ok_or_else(|| format!("{word} wants a number behind it"))?;
        numbers[at] = number.parse().map_err(|_| format!("{word} wants a number, and {number} is none"))?;
    }
    Ok(Some(numbers))
}

#[cfg(test)]
mod tests {
    use super::*;

    fn read_words(words: &[&str]) -> Result<Option<[u64; 2]>, String> {
        numbers(words.iter().map(ToString::to_string), [("--arenas", 100), ("--seed", 1)])
    }

    #[test]
    fn numbers_are_those_given_or_the_usual() {
        assert_eq!(read_words(&[]), Ok(Some([100, 1])));
        assert_eq!(read_words(&["--seed", "7"]), Ok(Some([100, 7])));
        assert_eq!(read_words(&["--seed", "7", "--arenas", "5", "--seed", "8"]), Ok(Some([5, 8])));
        assert_eq!(read_words(&["--seed", "7", "--help"]), Ok(None));
    }

    #[test]
    fn what_cannot_be_read_is_named() {
        assert!(read_words(&["--arena", "5"]).is_err_and(|why| why.contains("no option --arena")));
        assert!(read_words(&["--arenas"]).is_err_and(|why| why.contains("wants a number behind it")));
        assert!(read_words(&["--arenas", "-5"]).is_err_and(|why| why.contains("-5 is none")));
    }
}
