//! The search for fewer states, replayed over solver answers.

use crate::automaton::*;
use crate::decode::{decode, Decoded};

pub struct Search<'a> {
    reference: &'a Automaton,
    pub best: Automaton,
    pub n: usize,
    pub m: usize,
    pub finished: bool,
    pub open: bool,
}

impl<'a> Search<'a> {
    /// "It starts at m = s, n = the smaller of r - 1 and 8, best = the reference; with r = 1 it is
    /// finished at the start."
    pub fn new(reference: &'a Automaton) -> Search<'a> {
        let n = (reference.states() - 1).min(MAX_CANDIDATE_STATES);
        let (m, best) = (reference.sets, reference.clone());
        Search { reference, best, n, m, finished: n == 0, open: false }
    }

    /// One solver answer to the question that now stands. "A finished search .. says so and no
    /// longer changes"; "a refused one changes nothing".
    pub fn answer(&mut self, text: &[u8]) -> Result<(), Refusal> {
        if self.finished {
            return Ok(());
        }
        let profile = Profile::with_inf_of_all(self.n as u64, self.m as u64, List::First);
        match decode(self.reference, profile, text)? {
            Decoded::Table(table) => self.found(table),
            Decoded::None => self.none(),
            Decoded::Unknown => self.unknown(),
            Decoded::Differs(word) => return Err(word.refusal()),
        }
        Ok(())
    }

    /// "Found: best changes, n falls by one; at 0 it finishes." The table comes from the decoder,
    /// so it has n states, m sets and Inf of all of them, and was compared with the reference.
    fn found(&mut self, table: Automaton) {
        self.best = table;
        self.n -= 1;
        self.finished = self.n == 0;
    }

    /// E2: ""none" at m leads to m + 1, at one state below the best but at most 8, until m = 4 has
    /// been tried." Then it finishes, and the last question stays.
    fn none(&mut self) {
        if self.m == MAX_SETS {
            self.finished = true;
            return;
        }
        self.m += 1;
        self.n = (self.best.states() - 1).min(MAX_CANDIDATE_STATES);
    }

    /// "Unknown: it finishes, marked open."
    fn unknown(&mut self) {
        self.finished = true;
        self.open = true;
    }
}

#[cfg(test)]
mod tests {
    use super::*;

    const NONE: &[u8] = b"s UNSATISFIABLE\n";
    const UNKNOWN: &[u8] = b"s UNKNOWN\n";

    /// No propositions; the states go round, and every word is accepted.
    fn round(states: usize, sets: usize) -> Automaton {
        let marks = all_marks(sets);
        let table = (0..states).map(|q| vec![Transition { to: (q + 1) % states, marks }]).collect();
        Automaton { start: 0, sets, acceptance: inf_of_all(sets), names: vec![], table }
    }

    /// The answer that states `round(n, m)`, for L = 1.
    fn says_round(n: usize, m: usize) -> Vec<u8> {
        let mut text = b"s SATISFIABLE\nv".to_vec();
        for q in 0..n {
            let p = (q + 1) % n;
            text.extend(format!(" {}", 1 + q * n + p).bytes());
            for i in 0..m {
                text.extend(format!(" {}", n * n + 1 + (q * m + i) * n + p).bytes());
            }
        }
        text.extend(b" 0\n");
        text
    }

    fn asked(search: &Search) -> (usize, usize, bool, bool) {
        (search.n, search.m, search.finished, search.open)
    }

    #[test]
    fn starts_below_the_reference() {
        assert_eq!(asked(&Search::new(&round(1, 2))), (0, 2, true, false));
        assert_eq!(asked(&Search::new(&round(5, 1))), (4, 1, false, false));
        assert_eq!(asked(&Search::new(&round(9, 1))), (8, 1, false, false));
        assert_eq!(asked(&Search::new(&round(16, 0))), (8, 0, false, false));
    }

    #[test]
    fn found_falls_to_nothing() {
        let reference = round(3, 1);
        let mut search = Search::new(&reference);
        search.answer(&says_round(2, 1)).unwrap();
        assert_eq!(asked(&search), (1, 1, false, false));
        search.answer(&says_round(1, 1)).unwrap();
        assert_eq!(asked(&search), (0, 1, true, false));
        assert_eq!(search.best, round(1, 1));
        // A finished search no longer changes, whatever it is told.
        search.answer(UNKNOWN).unwrap();
        search.answer(b"x").unwrap();
        assert_eq!(asked(&search), (0, 1, true, false));
    }

    #[test]
    fn none_tries_every_count() {
        let reference = round(3, 1);
        let mut search = Search::new(&reference);
        for m in 2..=4 {
            search.answer(NONE).unwrap();
            assert_eq!(asked(&search), (2, m, false, false));
        }
        search.answer(NONE).unwrap();
        assert_eq!(asked(&search), (2, 4, true, false));
        assert_eq!(search.best, reference);
    }

    #[test]
    fn at_most_8_states_at_every_count() {
        let reference = round(12, 2);
        let mut search = Search::new(&reference);
        search.answer(NONE).unwrap();
        assert_eq!(asked(&search), (8, 3, false, false));
        search.answer(&says_round(8, 3)).unwrap();
        assert_eq!(asked(&search), (7, 3, false, false));
        search.answer(NONE).unwrap();
        assert_eq!(asked(&search), (7, 4, false, false));
    }

    #[test]
    fn none_with_4_sets_finishes_at_once() {
        let reference = round(3, 4);
        let mut search = Search::new(&reference);
        search.answer(NONE).unwrap();
        assert_eq!(asked(&search), (2, 4, true, false));
    }

    #[test]
    fn none_after_a_table_takes_more_sets() {
        let reference = round(5, 3);
        let mut search = Search::new(&reference);
        search.answer(&says_round(4, 3)).unwrap();
        search.answer(NONE).unwrap();
        assert_eq!(asked(&search), (3, 4, false, false));
        search.answer(&says_round(3, 4)).unwrap();
        assert_eq!(asked(&search), (2, 4, false, false));
        // Past 4 it finishes; m and n stay.
        search.answer(NONE).unwrap();
        assert_eq!(asked(&search), (2, 4, true, false));
        assert_eq!(search.best, round(3, 4));
    }

    #[test]
    fn none_twice_takes_two_more_sets() {
        let reference = round(5, 1);
        let mut search = Search::new(&reference);
        search.answer(&says_round(4, 1)).unwrap();
        search.answer(NONE).unwrap();
        search.answer(NONE).unwrap();
        assert_eq!(asked(&search), (3, 3, false, false));
        search.answer(&says_round(3, 3)).unwrap();
        assert_eq!(asked(&search), (2, 3, false, false));
    }

    /// "search and clause program use Inf of all" (document 02, E3), whatever the reference carries.
    #[test]
    fn a_reference_with_another_acceptance() {
        let reference = Automaton { acceptance: 0b11, ..round(3, 1) };
        let mut search = Search::new(&reference);
        assert_eq!(asked(&search), (2, 1, false, false));
        search.answer(&says_round(2, 1)).unwrap();
        assert_eq!(search.best, round(2, 1));
        let reference = Automaton { acceptance: 0b01, ..round(3, 1) };
        let mut search = Search::new(&reference);
        assert_eq!(search.answer(&says_round(2, 1)).unwrap_err().number, 12);
        // The steps alone: no set is met, and Inf of all accepts nothing either.
        search.answer(b"s SATISFIABLE\nv 2 3 0\n").unwrap();
        assert_eq!((search.best.states(), search.best.acceptance), (2, 0b10));
    }

    /// "Stored solver answers belong to the first list": its V counts, and an answer to the second list, which
    /// has the same steps and marks and a smaller V, is in form too.
    #[test]
    fn answers_to_either_list() {
        // State 0 leads to 1, which stays and meets the set. One state and one set: step 1, mark 2, and 16
        // paths in the first list, 8 in the second.
        let mut reference = round(2, 1);
        reference.table[1][0].to = 1;
        let told = |last: &str| {
            let mut search = Search::new(&reference);
            search.answer(format!("s SATISFIABLE\nv 1 2 {last} 0\n").as_bytes())?;
            assert_eq!((asked(&search), search.best), ((0, 1, true, false), round(1, 1)));
            Ok(())
        };
        assert_eq!(["10", "11", "-18"].map(told), [Ok(()); 3]);
        assert_eq!(told("19"), Err(Refusal::new(10, 20, 0)));
    }

    #[test]
    fn unknown_and_refused() {
        let reference = round(3, 1);
        let mut search = Search::new(&reference);
        assert_eq!(search.answer(b"x"), Err(Refusal::new(9, 0, 0)));
        assert_eq!(search.answer(b"s SATISFIABLE\nv 0\n"), Err(Refusal::new(11, 0, 0)));
        // The right steps without marks: the table accepts nothing.
        assert_eq!(search.answer(b"s SATISFIABLE\nv 2 3 0\n").unwrap_err().number, 12);
        assert_eq!(asked(&search), (2, 1, false, false));
        search.answer(UNKNOWN).unwrap();
        assert_eq!(asked(&search), (2, 1, true, true));
    }
}
