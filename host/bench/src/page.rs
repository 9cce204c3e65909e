//! Tables, plot and notes together: what is printed, and the page `PERFORMANCE.md`.
use crate::keys::BATCH;
use crate::options::Options;
use crate::ratios::Outcome;
use crate::table::{Form, tables};

/// Why the figures are what they are, which no measurement writes.
const LEARNED: &str = include_str!("learned.md");

/// How many of the targets are met.
fn summary(outcomes: &[Outcome]) -> String {
    let marks: Vec<bool> = outcomes.iter().filter_map(Outcome::met).collect();
    if marks.is_empty() {
        return "There is no target for any of these.\n".to_string();
    }
    format!("{} of {} targets are met.\n", marks.iter().filter(|met| **met).count(), marks.len())
}

/// What a reader has to know of the figures.
fn notes(rounds: usize) -> String {
    format!(
        "\
A ratio is the library's time divided by the crate's in the same round, so that below 1 the library is faster. Its \
column has the median of {rounds} rounds; the next has the quartiles, between which the middle half of the rounds \
lies; the one behind it the lowest and the highest. A target is the most that the ratio is to be, with two decimals. \
Times are medians per operation.

Both sides run in one process, on the same entries in the same order: random hashes, running numbers as keys, random \
values. Lookups and updates go through them at random. The order of the sides changes with every round. The arena is \
formatted once, and has room for the edition and {BATCH} more.

Kept editions are made of one another, {BATCH} at most before they are dropped, which is not timed. A listing is one \
call of the library into an output with room for the whole edition, which is then read; the crate's is its iterator. \
A check is of an arena that is full but for a few cells; the crate has none.

The crate is rpds 1.2.1 with pointers of the kind `Rc`. The stack of its iterator is a `Vec` here, where the \
published crate has room for the first few places without one: a listing allocates once or twice, which shows in the \
shortest.
"
    )
}

/// What is printed.
pub fn text(outcomes: &[Outcome], options: &Options) -> String {
    let form = if options.markdown { Form::Markdown } else { Form::Plain };
    format!("{}{}\n{}", tables(outcomes, &options.degrees, form), summary(outcomes), notes(options.plan.rounds))
}

/// The page, which shows the plot beside it.
pub fn document(outcomes: &[Outcome], options: &Options, plot: &str) -> String {
    let command =
        format!("cargo run --release --manifest-path host/Cargo.toml -p bench -- --docs docs{}", options.part());
    let (tables, notes) = (tables(outcomes, &options.degrees, Form::Markdown), notes(options.plan.rounds));
    format!(
        "\
# Performance

The proved library beside the crate rpds 1.2.1. {}
![The ratios]({plot})

{tables}## How it is measured

{notes}
This page and its plot are made by

    {command}

{LEARNED}",
        summary(outcomes)
    )
}
