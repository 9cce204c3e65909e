//! The program `damage`.
use damage::program;
use std::process::ExitCode;

const HELP: &str = "\
usage: damage [--arenas N] [--seed S]

Damages sound arenas, word by word and at random, and makes every call on them. Each call has to end, to answer with a
number of document 01's table, and to write only what was lent to it; check has to agree with a plain decision of
soundness. The last line says how many arenas were tried and how many faults were seen, and so does the exit status.

  --arenas N   how many arenas, 1000000 if not given
  --seed S     another seed makes other random damage; 1 if not given

For instance: damage --arenas 20000 --seed 7";

fn main() -> ExitCode {
    program::start(HELP, [("--arenas", 1_000_000), ("--seed", 1)], |[arenas, seed]| {
        match damage::run(arenas, seed, program::say) {
            Ok(report) => {
                let (arenas, faults) = (report.tally.arenas(), report.faults);
                (format!("{}\ndamage: {arenas} arenas, {faults} faults", report.tally), faults == 0)
            }
            Err(why) => (format!("no sound arena could be made: {why}"), false),
        }
    })
}
