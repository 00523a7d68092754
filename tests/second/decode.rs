//! The decoder: from what a solver said to a table that agrees with the reference.

use crate::automaton::*;
use crate::compare::{compare, Comparison};
use crate::numbering::Numbering;
use crate::solver::{Answer, Reader, Verdict};
use crate::word::Word;
use std::io::Read;

#[derive(Clone, PartialEq, Eq, Debug)]
pub enum Decoded {
    Table(Automaton),
    None,
    Unknown,
    /// 12: the table differs from the reference, and this word shows it.
    Differs(Word),
}

/// Order: "8, then reading left to right, then 11, 14, 12", and 4 for the named acceptance after 8.
pub fn decode<R: Read>(reference: &Automaton, profile: Profile, text: R) -> Result<Decoded, Refusal> {
    let Candidates { n, m, acceptance } = profile.judged()?;
    let number = Numbering::new(reference, n, m, profile.list);
    let answer = read(text, Reader::new(number.variables(), number.steps_and_marks()))?;
    match answer.verdict {
        Verdict::Unsatisfiable => Ok(Decoded::None),
        Verdict::Unknown => Ok(Decoded::Unknown),
        Verdict::Satisfiable => judge(reference, table(reference, acceptance, &number, &answer)?),
    }
}

/// "Text may arrive cut anywhere; the answer is that of the whole text."
fn read<R: Read>(mut text: R, mut reader: Reader) -> Result<Answer, Refusal> {
    let mut piece = vec![0; 65_536];
    loop {
        let length = text.read(&mut piece).expect("the solver's text can be read");
        if length == 0 {
            return reader.end();
        }
        reader.piece(&piece[..length])?;
    }
}

/// "The table is then compared with the reference."
fn judge(reference: &Automaton, table: Automaton) -> Result<Decoded, Refusal> {
    match compare(&table, reference)? {
        Comparison::Same => Ok(Decoded::Table(table)),
        Comparison::Differ(word) => Ok(Decoded::Differs(word)),
    }
}

/// "Decoding takes for each state and letter the lowest p whose step is true, with its marks."
/// "proposition names are the reference's"; the acceptance is the one that the caller names.
fn table(
    reference: &Automaton,
    acceptance: u16,
    number: &Numbering,
    answer: &Answer,
) -> Result<Automaton, Refusal> {
    let mut table = Vec::new();
    for q in 0..number.n {
        let row: Result<Vec<Transition>, Refusal> =
            (0..number.letters).map(|l| transition(number, answer, q, l)).collect();
        table.push(row?);
    }
    Ok(Automaton { start: 0, sets: number.m, acceptance, names: reference.names.clone(), table })
}

/// 11: "no true step, lowest".
fn transition(number: &Numbering, answer: &Answer, q: usize, l: usize) -> Result<Transition, Refusal> {
    let lowest = (0..number.n).find(|&p| answer.values[number.step(q, l, p)]);
    let Some(to) = lowest else {
        return Err(Refusal::new(11, q as u64, l as u64));
    };
    let marked = |i: &usize| answer.values[number.mark(q, l, *i, to)];
    let marks = (0..number.m).filter(marked).fold(0, |marks, i| marks | 1 << i);
    Ok(Transition { to, marks })
}

#[cfg(test)]
mod tests {
    use super::*;
    use crate::clauses::tests::{both_for_ever, list, solve, LISTS};
    use crate::clauses::File;
    use crate::generate::{any_automaton, layered, Random};
    use crate::generate_acceptance::random_acceptance;
    use crate::hoa;

    /// For Inf of all sets and the first list.
    fn decode(reference: &Automaton, n: u64, m: u64, text: &[u8]) -> Result<Decoded, Refusal> {
        super::decode(reference, Profile::with_inf_of_all(n, m, List::First), text)
    }

    fn all_words() -> Automaton {
        let text = "HOA: v1 States: 1 Start: 0 Acceptance: 0 t --BODY-- State: 0 [t] 0 --END--";
        hoa::read(text.as_bytes()).unwrap()
    }

    #[test]
    fn second_known_deck() {
        // "Then `s SATISFIABLE`, LF, and `v 1 2 0` is accepted; `v -1 2 0`: 11,0,0; `v 1 3 0` and
        // `v 1 1 0`: 10,18,0."
        let decoded = |line: &str| decode(&all_words(), 1, 0, format!("s SATISFIABLE\n{line}").as_bytes());
        assert_eq!(decoded("v 1 2 0"), Ok(Decoded::Table(all_words())));
        assert_eq!(decoded("v -1 2 0"), Err(Refusal::new(11, 0, 0)));
        assert_eq!(decoded("v 1 3 0"), Err(Refusal::new(10, 18, 0)));
        assert_eq!(decoded("v 1 1 0"), Err(Refusal::new(10, 18, 0)));
    }

    #[test]
    fn sizes_come_before_the_text() {
        // "n = 8 passes, 9 and 0 give 8"
        assert_eq!(decode(&all_words(), 8, 0, &b"s UNKNOWN"[..]), Ok(Decoded::Unknown));
        assert_eq!(decode(&all_words(), 8, 0, &b"s UNSATISFIABLE"[..]), Ok(Decoded::None));
        assert_eq!(decode(&all_words(), 9, 0, &b"x"[..]), Err(Refusal::new(8, 9, 0)));
        assert_eq!(decode(&all_words(), 0, 0, &b"x"[..]), Err(Refusal::new(8, 0, 0)));
        assert_eq!(decode(&all_words(), 1, 5, &b"x"[..]), Err(Refusal::new(8, 1, 5)));
    }

    #[test]
    fn lowest_step_with_its_own_marks() {
        // n = 2, m = 1, L = 1: steps 1 to 4, marks 5 to 8. State 0 has both steps, and only the
        // higher one is marked: "Joining the marks of two chosen destinations" went wrong.
        let decoded = decode(&all_words(), 2, 1, &b"s SATISFIABLE\nv 1 2 6 4 8 0"[..]);
        let Ok(Decoded::Differs(word)) = decoded else { panic!("{decoded:?}") };
        assert_eq!(word, Word { prefix: vec![], cycle: vec![0] });
        let decoded = decode(&all_words(), 2, 1, &b"s SATISFIABLE\nv 1 2 5 4 8 0"[..]);
        assert!(matches!(decoded, Ok(Decoded::Table(_))));
    }

    fn stated(values: &[bool]) -> String {
        let literal = |v: usize| if values[v] { format!("{v}") } else { format!("-{v}") };
        let all: Vec<String> = (1..values.len()).map(literal).collect();
        format!("s SATISFIABLE\nv {} 0\n", all.join(" "))
    }

    #[test]
    fn satisfying_assignments_decode_to_tables_that_agree() {
        let mut random = Random::new(9);
        let mut found = [0, 0];
        for round in 0..60 {
            let any = any_automaton(&mut random, 2, 1, 1);
            let (reference, of) = match round {
                0 => (both_for_ever(), Candidates::with_inf_of_all(2, 1)),
                _ => {
                    let reference = if random.one_in(2) { layered(&mut random, &any) } else { any };
                    (reference, Candidates { n: 2, m: 1, acceptance: random_acceptance(&mut random, 1) })
                }
            };
            for list_named in LISTS {
                let file = File::new(&reference, of, list_named);
                let Some(values) = solve(file.variables(), &list(&file)) else { continue };
                let acceptance = Named::Number(of.acceptance as u64);
                let profile = Profile { n: 2, m: 1, acceptance, list: list_named };
                let decoded = super::decode(&reference, profile, stated(&values).as_bytes());
                let Ok(Decoded::Table(table)) = decoded else { panic!("{reference:?}: {decoded:?}") };
                assert_eq!(table.acceptance, of.acceptance);
                found[(list_named == List::Second) as usize] += 1;
            }
        }
        assert!(found[0] > 10 && found[0] == found[1], "{found:?}");
    }

    #[test]
    fn the_named_list_has_the_last_variable() {
        // State 0 leads to 1, which stays and meets the set: all words. With one state and no set V is 9 in the
        // first list and 5 in the second; the paths that state 1 needs are 8 and 9 in the first, 4 and 5 in
        // the second.
        let text = "HOA: v1 States: 2 Start: 0 Acceptance: 1 Inf(0) --BODY-- State: 0 1 State: 1 1 {0} --END--";
        let reference = hoa::read(text.as_bytes()).unwrap();
        let decoded = |named: List, line: &str| {
            let text = format!("s SATISFIABLE\nv {line} 0\n");
            super::decode(&reference, Profile::with_inf_of_all(1, 0, named), text.as_bytes())
        };
        let table = Ok(Decoded::Table(all_words()));
        assert_eq!(decoded(List::First, "1 2 5 8 9"), table);
        assert_eq!(decoded(List::Second, "1 2 4 5"), table);
        assert_eq!(decoded(List::First, "1 2 4 5"), table);
        assert_eq!(decoded(List::Second, "1 2 5 8 9"), Err(Refusal::new(10, 22, 0)));
        assert_eq!(decoded(List::Second, "1 -6"), Err(Refusal::new(10, 18, 0)));
        assert_eq!(decoded(List::First, "10 1"), Err(Refusal::new(10, 16, 0)));
        // A path may be named twice, a step not.
        assert_eq!(decoded(List::Second, "1 5 -5 5"), table);
        assert_eq!(decoded(List::Second, "1 5 1"), Err(Refusal::new(10, 20, 0)));
    }

    #[test]
    fn the_table_carries_the_named_acceptance() {
        // One state, k = 0, one set; the step is 1, its mark 2, V = 4.
        let text = "HOA: v1 States: 1 Start: 0 Acceptance: 1 Fin(0) --BODY-- State: 0 [t] 0 --END--";
        let reference = hoa::read(text.as_bytes()).unwrap();
        let profile = |n: u64, number: u64| {
            let acceptance = Named::Number(number);
            Profile { n, m: 1, acceptance, list: List::First }
        };
        let decoded = |acceptance: u64, line: &str| {
            let text = format!("s SATISFIABLE\nv {line} 0");
            super::decode(&reference, profile(1, acceptance), text.as_bytes())
        };
        assert_eq!(decoded(0b01, "1 -2"), Ok(Decoded::Table(reference.clone())));
        let word = Word { prefix: vec![], cycle: vec![0] };
        assert_eq!(decoded(0b01, "1 2"), Ok(Decoded::Differs(word.clone())));
        assert_eq!(decoded(0b10, "1 -2"), Ok(Decoded::Differs(word)));
        let marked = Transition { to: 0, marks: 1 };
        let table = Automaton { acceptance: 0b10, table: vec![vec![marked]], ..reference.clone() };
        assert_eq!(decoded(0b10, "1 2"), Ok(Decoded::Table(table)));
        // After 8 and before the text.
        assert_eq!(decoded(0b100, "x"), Err(Refusal::new(4, 0, 0)));
        assert_eq!(super::decode(&reference, profile(0, 4), &b"x"[..]), Err(Refusal::new(8, 0, 1)));
    }
}
