//! The automaton of document 01, its limits, runs on lasso words, and refusals.

use std::fmt;

// "Reference: r states (1 to 16), s sets (0 to 4). Candidate: n states (1 to 8), m sets
// (0 to 4), start 0. Propositions k: 0 to 4"
pub const MAX_STATES: usize = 16;
pub const MAX_CANDIDATE_STATES: usize = 8;
pub const MAX_SETS: usize = 4;
pub const MAX_PROPOSITIONS: usize = 4;
// "Proposition names have 1 to 16 bytes"
pub const MAX_NAME: usize = 16;

/// What is turned down: the number and the two values of document 01's table.
#[derive(Clone, Copy, PartialEq, Eq, Debug)]
pub struct Refusal {
    pub number: u8,
    pub a: u64,
    pub b: u64,
}

impl Refusal {
    pub fn new(number: u8, a: u64, b: u64) -> Refusal {
        Refusal { number, a, b }
    }

    pub fn at(number: u8, offset: usize) -> Refusal {
        Refusal::new(number, offset as u64, 0)
    }
}

impl fmt::Display for Refusal {
    fn fmt(&self, f: &mut fmt::Formatter) -> fmt::Result {
        write!(f, "refused {} {} {}", self.number, self.a, self.b)
    }
}

/// "Each state and letter has one transition, with a destination and a set of marks."
/// Bit i of `marks` stands for set i.
#[derive(Clone, Copy, PartialEq, Eq, Debug)]
pub struct Transition {
    pub to: usize,
    pub marks: u8,
}

#[derive(Clone, PartialEq, Eq, Debug)]
pub struct Automaton {
    pub start: usize,
    pub sets: usize,
    /// "its acceptance as the yes or no for each set of marks (no past its sets ..)" (document 02,
    /// E3): bit M is the answer for the set of marks M.
    pub acceptance: u16,
    /// One name for each proposition.
    pub names: Vec<Vec<u8>>,
    /// `table[state][letter]`; bit i of a letter is proposition i.
    pub table: Vec<Vec<Transition>>,
}

impl Automaton {
    pub fn states(&self) -> usize {
        self.table.len()
    }

    pub fn propositions(&self) -> usize {
        self.names.len()
    }

    /// "letters L = 2^k"
    pub fn letters(&self) -> usize {
        1 << self.names.len()
    }

    /// The set of all marks of this automaton.
    pub fn all_marks(&self) -> u8 {
        all_marks(self.sets)
    }

    pub fn step(&self, state: usize, letter: usize) -> Transition {
        self.table[state][letter]
    }

    /// For each state the destinations of its transitions, by letter.
    pub fn destinations(&self) -> Vec<Vec<usize>> {
        self.table.iter().map(|row| row.iter().map(|edge| edge.to).collect()).collect()
    }

    /// Whether a run is accepting that meets just these sets infinitely often.
    pub fn takes(&self, met: u8) -> bool {
        says_yes(self.acceptance, met as usize)
    }

    /// "A run begins at the start and takes, letter by letter, the one transition there." It is
    /// accepting if the acceptance says yes to the set of those sets that are met infinitely often.
    /// The word is the prefix and then the loop for ever; the loop is not empty.
    pub fn accepts(&self, prefix: &[u8], cycle: &[u8]) -> bool {
        assert!(!cycle.is_empty());
        let (mut state, _) = self.read(self.start, prefix);
        let mut readings: Vec<(usize, u8)> = Vec::new();
        loop {
            // Once the loop begins again at a state where it began before, the readings
            // since then are the ones that happen infinitely often.
            if let Some(first) = readings.iter().position(|reading| reading.0 == state) {
                let met = readings[first..].iter().fold(0, |met, reading| met | reading.1);
                return self.takes(met);
            }
            let (next, met) = self.read(state, cycle);
            readings.push((state, met));
            state = next;
        }
    }

    /// The state after the letters, and the marks met on the way.
    fn read(&self, from: usize, letters: &[u8]) -> (usize, u8) {
        letters.iter().fold((from, 0), |(state, met), &letter| {
            let taken = self.step(state, letter as usize);
            (taken.to, met | taken.marks)
        })
    }
}

pub fn all_marks(sets: usize) -> u8 {
    (1u8 << sets) - 1
}

/// What an acceptance says to a set of marks.
pub fn says_yes(acceptance: u16, marks: usize) -> bool {
    acceptance >> marks & 1 == 1
}

/// "every set is met infinitely often": yes to the set of all marks only.
pub fn inf_of_all(sets: usize) -> u16 {
    1 << all_marks(sets)
}

/// What the caller names as the candidate's acceptance: Inf of all sets, or a number whose bit M is
/// the answer for the set of marks M.
#[derive(Clone, Copy, PartialEq, Eq, Debug)]
pub enum Named {
    InfOfAll,
    Number(u64),
}

impl Named {
    /// The argument that names it.
    pub fn word(self) -> String {
        match self {
            Named::InfOfAll => "all".to_string(),
            Named::Number(number) => number.to_string(),
        }
    }
}

/// The clause lists: that of document 01, and the one of document 02, E6, with fewer paths.
#[derive(Clone, Copy, PartialEq, Eq, Debug)]
pub enum List {
    First,
    Second,
}

impl List {
    /// "the caller names which (the clause program by a third argument 2, else the first)"
    pub fn of_argument(word: &str) -> List {
        match word {
            "2" => List::Second,
            _ => List::First,
        }
    }

    pub fn word(self) -> &'static str {
        match self {
            List::First => "1",
            List::Second => "2",
        }
    }
}

/// What the caller names for a clause file: the sizes of the candidates, their acceptance, and the list.
#[derive(Clone, Copy, PartialEq, Eq, Debug)]
pub struct Profile {
    pub n: u64,
    pub m: u64,
    pub acceptance: Named,
    pub list: List,
}

impl Profile {
    /// "n outside 1 to 8 or m outside 0 to 4": 8, n, m. "a yes past m: 4, 0, 0, after 8" (document
    /// 02, E3)
    pub fn judged(&self) -> Result<Candidates, Refusal> {
        if self.n < 1 || self.n > MAX_CANDIDATE_STATES as u64 || self.m > MAX_SETS as u64 {
            return Err(Refusal::new(8, self.n, self.m));
        }
        let (n, m) = (self.n as usize, self.m as usize);
        match self.acceptance {
            Named::InfOfAll => Ok(Candidates::with_inf_of_all(n, m)),
            Named::Number(number) if number >> (1 << m) == 0 => Ok(Candidates { n, m, acceptance: number as u16 }),
            Named::Number(_) => Err(Refusal::new(4, 0, 0)),
        }
    }

    pub fn with_inf_of_all(n: u64, m: u64, list: List) -> Profile {
        Profile { n, m, acceptance: Named::InfOfAll, list }
    }
}

/// The candidates of which a clause file speaks: n states, m sets, and the acceptance they carry.
#[derive(Clone, Copy, PartialEq, Eq, Debug)]
pub struct Candidates {
    pub n: usize,
    pub m: usize,
    pub acceptance: u16,
}

impl Candidates {
    pub fn with_inf_of_all(n: usize, m: usize) -> Candidates {
        Candidates { n, m, acceptance: inf_of_all(m) }
    }
}

#[cfg(test)]
mod tests {
    use super::*;

    /// "a and b both for ever": one state, s = 2, letters 1 {0}, 2 {1}, 3 {0 1}.
    pub fn both_for_ever() -> Automaton {
        let row = (0..4).map(|letter| Transition { to: 0, marks: letter }).collect();
        let names = vec![b"a".to_vec(), b"b".to_vec()];
        Automaton { start: 0, sets: 2, acceptance: inf_of_all(2), names, table: vec![row] }
    }

    #[test]
    fn two_rejecting_readings_accept_together() {
        let both = both_for_ever();
        assert!(!both.accepts(&[3, 3], &[1]));
        assert!(!both.accepts(&[], &[2, 0]));
        assert!(both.accepts(&[0], &[1, 2]));
    }

    #[test]
    fn zero_sets_accept_all_words() {
        let mut all = Automaton { sets: 0, acceptance: inf_of_all(0), ..both_for_ever() };
        all.table[0].iter_mut().for_each(|transition| transition.marks = 0);
        assert!(all.accepts(&[], &[0]));
    }

    #[test]
    fn marks_of_the_whole_period_count() {
        // Two states in turn; the mark is met on every second reading of the loop only.
        let there = Transition { to: 1, marks: 0 };
        let back = Transition { to: 0, marks: 1 };
        let table = vec![vec![there], vec![back]];
        let turn = Automaton { start: 0, sets: 1, acceptance: inf_of_all(1), names: vec![], table };
        assert!(turn.accepts(&[], &[0]));
        // Of two sets one is not met there, and Fin of it accepts.
        let other = Automaton { sets: 2, acceptance: 0b0010, ..turn };
        assert!(other.accepts(&[], &[0]));
    }

    #[test]
    fn the_answer_is_that_for_the_sets_met() {
        // Letters 0 to 3 carry just the marks 0 to 3, so a loop of one letter meets just those.
        for acceptance in 0..16 {
            let given = Automaton { acceptance, ..both_for_ever() };
            for met in 0..4 {
                assert_eq!(given.accepts(&[3], &[met]), acceptance >> met & 1 == 1);
            }
            assert_eq!(given.accepts(&[], &[1, 2]), acceptance >> 3 & 1 == 1);
        }
    }

    #[test]
    fn sizes_at_the_limits() {
        // "n = 8 passes, 9 and 0 give 8"
        let judged = |n: u64, m: u64| Profile::with_inf_of_all(n, m, List::First).judged();
        assert_eq!(judged(8, 0), Ok(Candidates { n: 8, m: 0, acceptance: 1 }));
        assert_eq!(judged(9, 0), Err(Refusal::new(8, 9, 0)));
        assert_eq!(judged(0, 0), Err(Refusal::new(8, 0, 0)));
        assert_eq!(judged(8, 4), Ok(Candidates { n: 8, m: 4, acceptance: 0x8000 }));
        assert_eq!(judged(1, 5), Err(Refusal::new(8, 1, 5)));
    }

    #[test]
    fn a_yes_past_the_sets() {
        let judged = |n: u64, m: u64, number: u64| {
            Profile { n, m, acceptance: Named::Number(number), list: List::First }.judged()
        };
        for (m, first_past) in [(0, 2), (1, 4), (2, 16), (3, 256), (4, 65_536)] {
            let acceptance = (first_past - 1) as u16;
            assert_eq!(judged(1, m, first_past - 1), Ok(Candidates { n: 1, m: m as usize, acceptance }));
            for past in [first_past, first_past + 1, u64::MAX, 1 << 63] {
                assert_eq!(judged(1, m, past), Err(Refusal::new(4, 0, 0)));
            }
        }
        // "after 8"
        assert_eq!(judged(9, 0, 2), Err(Refusal::new(8, 9, 0)));
        assert_eq!(judged(1, 5, u64::MAX), Err(Refusal::new(8, 1, 5)));
    }

    #[test]
    fn one_word_names_the_second_list() {
        assert_eq!(List::of_argument("2"), List::Second);
        for word in ["1", "", "0", "02", "+2", "2 ", " 2", "2.0", "22", "3", "x", "two", "18446744073709551618"] {
            assert_eq!(List::of_argument(word), List::First, "{word:?}");
        }
    }
}
