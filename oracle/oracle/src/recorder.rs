//! Makes calls on the crate and on document 01's trie, and writes them down with their answers.
use crate::both::Both;
use crate::calls::{Answer, Call, Cells, Entry, number};
use crate::runs::Pair;
use crate::text::answered;

/// No arena of the stored answers has more words.
pub const MOST_WORDS: u64 = 8192;
/// No listing asks for more words of room.
const MOST_ROOM: u64 = 1024;

/// What was called so far, as text.
pub struct Recorder {
    /// The degree of every arena.
    pub degree: u64,
    /// The lines.
    pub text: String,
    /// How many calls they hold.
    pub calls: u64,
    /// The shelves that the calls are made on.
    pub both: Both,
    made: Vec<Call>,
    most_in_use: Cells,
}

/// The words of an arena: document 01, "The arena".
fn words(degree: u64, room: Cells, editions: u64) -> u64 {
    12 + 3 * editions + room.branches * (3 + degree) + 6 * room.entries
}

impl Recorder {
    /// Nothing called yet.
    pub fn new(degree: u64) -> Recorder {
        let (text, made, most_in_use) = (String::new(), Vec::new(), Cells::default());
        Recorder { degree, text, calls: 0, both: Both::default(), made, most_in_use }
    }

    /// Makes a call. A difference between the crate and document 01 ends the program.
    pub fn call(&mut self, call: Call) -> Answer {
        assert!(!matches!(call, Call::List { room, .. } if room > MOST_ROOM), "degree {}: {call:?}", self.degree);
        let answer = self.both.call(&call).unwrap_or_else(|what| panic!("degree {}: {call:?}: {what}", self.degree));
        self.text += &answered(&call, &answer);
        self.calls += 1;
        self.made.push(call);
        let in_use = self.both.rpds.in_use();
        self.most_in_use.branches = self.most_in_use.branches.max(in_use.branches);
        self.most_in_use.entries = self.most_in_use.entries.max(in_use.entries);
        answer
    }

    /// A call that has to be done; the first of its values.
    pub fn done(&mut self, call: Call) -> u64 {
        let answer = self.call(call);
        assert_eq!(answer.number, number::DONE, "degree {}: {call:?}", self.degree);
        answer.values[0]
    }

    /// A call that has to be refused with this number.
    pub fn refused(&mut self, call: Call, number: u64) {
        assert_eq!(self.call(call).number, number, "degree {}: {call:?}", self.degree);
    }

    /// Calls that need a room of their own, in an arena with so many cells.
    pub fn format(&mut self, room: Cells, editions: u64) {
        let Cells { branches, entries } = room;
        self.done(Call::Format { degree: self.degree, branches, entries, editions });
        self.made.clear();
        self.most_in_use = Cells::default();
    }

    /// The calls of a script that is not short of cells, and how many cells they need.
    pub fn rehearsed(degree: u64, editions: u64, script: impl Fn(&mut Recorder)) -> (Vec<Call>, Cells) {
        let mut first = Recorder::new(degree);
        first.format(Cells { branches: 1 << 20, entries: 1 << 22 }, editions);
        script(&mut first);
        let Cells { branches, entries } = first.most_in_use;
        (first.made, Cells { branches: branches.max(1), entries: entries.max(1) })
    }

    /// A run in an arena with exactly the cells that it needs: a first go on a large one finds how many those are.
    pub fn run(&mut self, title: &str, editions: u64, script: impl Fn(&mut Recorder)) -> Cells {
        let (_, room) = Recorder::rehearsed(self.degree, editions, &script);
        self.run_within(title, room, editions, script);
        room
    }

    /// A run in an arena with so many cells.
    pub fn run_within(&mut self, title: &str, room: Cells, editions: u64, script: impl Fn(&mut Recorder)) {
        let words = words(self.degree, room, editions);
        assert!(words <= MOST_WORDS, "degree {}: {title}: an arena of {words} words", self.degree);
        self.text += &format!("# {title}\n");
        self.format(room, editions);
        script(self);
    }

    /// An empty edition.
    pub fn new_edition(&mut self) -> u64 {
        self.done(Call::NewEdition)
    }

    /// The edition with an entry more, or with its value replaced.
    pub fn insert(&mut self, edition: u64, pair: Pair, value: u64) -> u64 {
        self.done(insert(edition, pair, value))
    }

    /// The edition with the value at a key changed.
    pub fn change(&mut self, edition: u64, pair: Pair, value: u64) -> u64 {
        self.done(change(edition, pair, value))
    }

    /// The edition without a key.
    pub fn remove(&mut self, edition: u64, pair: Pair) -> u64 {
        self.done(remove(edition, pair))
    }

    /// Drops some editions.
    pub fn drop_all(&mut self, editions: &[u64]) {
        for edition in editions {
            self.done(Call::Drop { edition: *edition });
        }
    }

    /// Makes an update and gives the old edition up.
    pub fn step(&mut self, old: u64, update: Call) -> u64 {
        let new = self.done(update);
        self.drop_all(&[old]);
        new
    }

    /// Looks a key up, there or not.
    pub fn get(&mut self, edition: u64, (hash, key): Pair) {
        self.call(Call::Get { edition, hash, key });
    }

    /// Whether two editions are equal, asked both ways.
    pub fn equal(&mut self, first: u64, second: u64) {
        self.done(Call::Equal { first, second });
        self.done(Call::Equal { first: second, second: first });
    }

    /// Lists an edition whole.
    pub fn list(&mut self, edition: u64) {
        let size = self.done(Call::Size { edition });
        self.done(Call::List { edition, place: 0, room: 3 * size });
    }
}

/// The call that inserts.
pub fn insert(edition: u64, (hash, key): Pair, value: u64) -> Call {
    Call::Insert { edition, entry: Entry { hash, key, value } }
}

/// The call that changes.
pub fn change(edition: u64, (hash, key): Pair, value: u64) -> Call {
    Call::Change { edition, entry: Entry { hash, key, value } }
}

/// The call that removes.
pub fn remove(edition: u64, (hash, key): Pair) -> Call {
    Call::Remove { edition, hash, key }
}
