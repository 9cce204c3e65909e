//! What the command line is read as.
use bench::kinds::Kind;
use bench::once::{Once, Which};
use bench::options::{Command, Options, USAGE, parse};

fn read(line: &str) -> Result<Command, String> {
    parse(&line.split_whitespace().map(str::to_string).collect::<Vec<_>>())
}

fn options(line: &str) -> Options {
    match read(line) {
        Ok(Command::Measure(options)) => options,
        other => panic!("`{line}` is read as {other:?}"),
    }
}

#[test]
fn everything_is_measured_unless_a_part_is_named() {
    let all = options("");
    assert_eq!((all.sizes, all.degrees), (vec![300, 10_000, 1_000_000], vec![16, 64]));
    assert_eq!(all.plan.kinds, Kind::ALL);
    assert!(all.plan.rounds >= 9 && !all.markdown && all.svg.is_none());

    let part = options("--degrees 16 --only get,list --sizes 300,5000,300 --rounds 9 --markdown --svg plot.svg");
    assert_eq!((part.sizes, part.degrees, part.plan.rounds), (vec![300, 5000], vec![16], 9));
    assert_eq!(part.plan.kinds, [Kind::GetHit, Kind::GetMiss, Kind::List]);
    assert!(part.markdown && part.svg.is_some_and(|file| file.ends_with("plot.svg")));
}

#[test]
fn quick_is_less_wherever_it_stands() {
    let quick = options("--rounds 5 --quick");
    assert_eq!((quick.plan.rounds, quick.sizes), (5, vec![300, 10_000]));
    assert_eq!(options("--quick").plan.rounds, 3);
    assert!(quick.plan.least < options("").plan.least);
}

#[test]
fn once_names_a_kind_and_a_side() {
    let once = Once { kind: Kind::InsertKept, side: Which::Library, size: 300, degree: 64, count: 1000 };
    assert_eq!(read("once insert_kept library 300 64 1000"), Ok(Command::Once(once)));
}

#[test]
fn wrong_words_are_refused_by_a_sentence() {
    for (line, sentence) in [
        ("--size 300", "`--size` is not an option; --help says what there is"),
        ("--sizes 300,", "a size is a number, not ``"),
        ("--sizes 3", "a size is from 4 to 1000000, not 3"),
        ("--degrees 17", "there is no degree 17"),
        ("--rounds 0", "the number of rounds is from 1 to 1000, not 0"),
        ("--rounds", "something has to follow --rounds"),
        ("--only get,find", "no kind's name starts with `find`"),
        ("once get_hit library 300 16", "`once` takes a kind, a side, a size, a degree and a count"),
        ("once get_hit library 300 16 0", "a count is from 1 to 4294967295, not 0"),
        ("once get library 300 16 9", "there is no kind `get`"),
        ("once get_hit both 300 16 9", "a side is crate or library, not `both`"),
    ] {
        assert_eq!(read(line), Err(sentence.to_string()), "{line}");
    }
}

#[test]
fn help_names_every_kind() {
    assert_eq!(read("--quick --help"), Ok(Command::Help));
    assert!(Kind::ALL.iter().all(|kind| USAGE.contains(kind.name())));
}
