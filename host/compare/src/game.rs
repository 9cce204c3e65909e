//! One run on both sides: the calls that its player chooses, and between them checks and counts of all cells.
use crate::both::Both;
use crate::library::Side;
use crate::player::Player;
use crate::runs::Run;
use crate::tally::Tally;
use oracle::calls::Call;

/// Calls between two checks: some, and one more for each of so many words of the arena.
const CALLS_BETWEEN_CHECKS: u64 = 100;
const WORDS_BY_CALL: u64 = 40;

/// Calls between two counts of all cells: some, and one more for each of so many cells in use, but no more than these.
const CALLS_BETWEEN_COUNTS: u64 = 4;
const CELLS_BY_CALL: u64 = 8;
const MOST_BETWEEN_COUNTS: u64 = 20_000;

/// A run under way.
struct Game<'a, S> {
    both: Both<'a, S>,
    player: Player,
    until_check: u64,
    until_count: u64,
}

/// Plays a run of so many calls, the first of which is its format. Says what differs.
pub fn play<S: Side>(run: &Run, calls: u64, seed: u64, side: S, tally: &mut Tally) -> Result<(), String> {
    let mut random = run.random(seed);
    let pool = run.pool(&mut random);
    let format = run.format(&mut random);
    let player = Player::new(pool, calls, random);
    let mut game = Game {
        both: Both::new(side, tally),
        player,
        until_check: CALLS_BETWEEN_CHECKS,
        until_count: CALLS_BETWEEN_COUNTS,
    };
    game.both.call(&format)?;
    for left in (1..calls).rev() {
        game.step(left)?;
    }
    game.both.count_cells().map(|_| ())
}

impl<S: Side> Game<'_, S> {
    /// The next of so many calls. The last are a listing of each held edition, the cells in use, and a check.
    fn step(&mut self, left: u64) -> Result<(), String> {
        self.until_check = self.until_check.saturating_sub(1);
        self.until_count = self.until_count.saturating_sub(1);
        if left == 1 || self.until_check == 0 {
            self.until_check = CALLS_BETWEEN_CHECKS + self.both.words() / WORDS_BY_CALL;
            return self.both.check();
        }
        if left == 2 || self.until_count == 0 {
            let cells = self.both.count_cells()?;
            self.until_count = (CALLS_BETWEEN_COUNTS + cells / CELLS_BY_CALL).min(MOST_BETWEEN_COUNTS);
            return self.both.call(&Call::InUse).map(|_| ());
        }
        let call = self.closing(left).unwrap_or_else(|| self.player.next(&self.both.expected));
        let answer = self.both.call(&call)?;
        self.player.saw(&call, &answer);
        Ok(())
    }

    /// A whole listing, if as many calls are left as it takes to list every held edition.
    fn closing(&self, left: u64) -> Option<Call> {
        let edition = self.both.expected.held().nth(left as usize - 3)?;
        Some(Call::List { edition, place: 0, room: 3 * self.both.expected.size(edition) })
    }
}
