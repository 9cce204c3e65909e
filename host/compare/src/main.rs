//! The program `compare`.
use compare::comparison::compare;
use compare::library::Library;
use compare::tally::Table;
use damage::program;
use std::process::ExitCode;

const HELP: &str = "\
usage: compare [--operations N] [--seed S]

Makes the same random calls on the crate rpds 1.2.1 and on the library, at degrees 2 to 64 and with up to 100,000 entries,
and compares every answer: values, listings, equality, the cells that an update takes and a drop frees, and refusals. A
difference is printed with the call, as oracle/README.md writes calls, and both answers. The last line says how many
operations were compared and how many differences were seen, and so does the exit status.

  --operations N   how many calls, 10000000 if not given
  --seed S         another seed makes other calls; 1 if not given

For instance: compare --operations 200000 --seed 7";

fn main() -> ExitCode {
    program::start(HELP, [("--operations", 10_000_000), ("--seed", 1)], |[operations, seed]| {
        let report = compare(operations, seed, Library::default, program::say);
        let (operations, differences) = (report.operations(), report.differences);
        let table = Table(&report.tallies);
        (format!("{table}compare: {operations} operations, {differences} differences"), differences == 0)
    })
}
