//! Commands about editions as a whole: `new`, `share`, `drop`, `equal`.
use super::{Command, changed, edition, looked_at};
use crate::Streams;
use crate::answer::{Outcome, Said};
use crate::args::Call;
use crate::numbers;
use shelf::Edition;

pub const NEW: Command = Command {
    name: "new",
    operands: &["FILE"],
    options: &[],
    brief: "makes an edition without entries",
    help: "Makes an edition without entries, in the lowest free slot, and says its number. It takes no cell.",
    examples: &["day.arena"],
    run: new,
};

pub const SHARE: Command = Command {
    name: "share",
    operands: &["FILE", "EDITION"],
    options: &[],
    brief: "holds an edition once more",
    help: "Holds the same edition once more, in the lowest free slot, and says that number. It takes no cell,\n\
           and each of the two is dropped by itself.",
    examples: &["day.arena 3"],
    run: share,
};

pub const DROP: Command = Command {
    name: "drop",
    operands: &["FILE", "EDITION"],
    options: &[],
    brief: "lets an edition go",
    help: "Lets an edition go, and every cell that no other edition reaches; says how many cells are free\n\
           again.",
    examples: &["day.arena 3"],
    run: drop,
};

pub const EQUAL: Command = Command {
    name: "equal",
    operands: &["FILE", "FIRST", "SECOND"],
    options: &[],
    brief: "compares two editions",
    help: "Says `equal` if the two editions have the same entries, else `different`. The exit status is 0 for\n\
           both.",
    examples: &["day.arena 3 4", "day.arena 3 4 --json"],
    run: equal,
};

fn new(call: &Call<'_>, _: &mut Streams<'_>) -> Outcome {
    made(changed(call, |arena| Ok(arena.new_edition()?))?)
}

fn share(call: &Call<'_>, _: &mut Streams<'_>) -> Outcome {
    let of = edition(call)?;
    made(changed(call, |arena| Ok(arena.share(of)?))?)
}

fn made(edition: Edition) -> Outcome {
    Said::new(edition.to_string()).with("edition", edition.number()).done()
}

fn drop(call: &Call<'_>, _: &mut Streams<'_>) -> Outcome {
    let edition = edition(call)?;
    let freed = changed(call, |arena| Ok(arena.drop(edition)?))?;
    let text = format!("{edition} is dropped: {} freed", numbers::cells(freed));
    Said::new(text).with("branches", freed.branches).with("entries", freed.entries).done()
}

fn equal(call: &Call<'_>, _: &mut Streams<'_>) -> Outcome {
    let [first, second] = [call.number("FIRST")?, call.number("SECOND")?].map(Edition);
    let equal = looked_at(call)?.equal(first, second)?;
    Said::new(if equal { "equal" } else { "different" }).with("equal", equal).done()
}
