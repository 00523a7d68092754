//! Whether what was printed for an input is right, byte for byte.

use crate::automaton::{Profile, Refusal};
use crate::clauses::File;
use crate::compare::compare;
use crate::decode::decode;
use crate::hoa;
use crate::printed::*;
use crate::search::Search;

pub type Checked = Result<(), String>;

/// Where the answer due is a refusal, the printed one is that line.
fn unless_refused<T>(due: Result<T, Refusal>, printed: &[u8], check: impl FnOnce(T) -> Checked) -> Checked {
    match due {
        Ok(answer) => check(answer),
        Err(refusal) => equal(printed, &refusal_text(&refusal)),
    }
}

pub fn check_normalize(text: &[u8], printed: &[u8]) -> Checked {
    unless_refused(hoa::read(text), printed, |given| equal(printed, &hoa::write(&given)))
}

pub fn check_clauses(reference: &[u8], profile: Profile, printed: &[u8]) -> Checked {
    let due = hoa::read(reference).and_then(|reference| Ok((reference, profile.judged()?)));
    unless_refused(due, printed, |(reference, of)| {
        let mut file = Vec::new();
        File::new(&reference, of, profile.list).print(&mut file).map_err(|error| error.to_string())?;
        equal(printed, &file)
    })
}

pub fn check_compare(first: &[u8], second: &[u8], printed: &[u8]) -> Checked {
    let due = hoa::read(first).and_then(|first| compare(&first, &hoa::read(second)?));
    unless_refused(due, printed, |comparison| equal(printed, comparison_text(&comparison).as_bytes()))
}

pub fn check_decode(reference: &[u8], profile: Profile, text: &[u8], printed: &[u8]) -> Checked {
    let due = hoa::read(reference).and_then(|reference| decode(&reference, profile, text));
    unless_refused(due, printed, |decoded| equal(printed, &decoded_text(&decoded)))
}

pub fn check_search(reference: &[u8], answers: &[Vec<u8>], printed: &[u8]) -> Checked {
    unless_refused(hoa::read(reference), printed, |reference| {
        let mut search = Search::new(&reference);
        let told = answers.iter().try_for_each(|answer| search.answer(answer));
        unless_refused(told, printed, |()| equal(printed, &search_text(&search)))
    })
}

/// Whether the two texts are the same, byte for byte.
fn equal(printed: &[u8], due: &[u8]) -> Checked {
    if printed == due {
        return Ok(());
    }
    let shown = |text: &[u8]| String::from_utf8_lossy(&text[..text.len().min(300)]).into_owned();
    Err(format!("printed {:?}, due {:?}", shown(printed), shown(due)))
}

#[cfg(test)]
mod tests {
    use super::*;
    use crate::automaton::{inf_of_all, Automaton, List, Transition};

    fn one_state(sets: usize, names: &[&str], marks: &[u8]) -> Vec<u8> {
        let row = marks.iter().map(|&marks| Transition { to: 0, marks }).collect();
        let names = names.iter().map(|name| name.as_bytes().to_vec()).collect();
        hoa::write(&Automaton { start: 0, sets, acceptance: inf_of_all(sets), names, table: vec![row] })
    }

    #[test]
    fn one_word_is_right() {
        let (first, second) = (one_state(1, &["a"], &[0, 1]), one_state(1, &["a"], &[1, 1]));
        let checked = |printed: &str| check_compare(&first, &second, printed.as_bytes());
        assert_eq!(checked("differ 0 1\nprefix\nloop 0\n"), Ok(()));
        // Words that show the difference too, and words that do not.
        assert!(checked("differ 0 2\nprefix\nloop 0 0\n").is_err());
        assert!(checked("differ 1 1\nprefix 0\nloop 0\n").is_err());
        assert!(checked("differ 0 1\nprefix\nloop 1\n").is_err());
        assert!(checked("differ 0 1\nprefix\nloop 0").is_err());
        assert!(checked("refused 12 0 1\nprefix\nloop 0\n").is_err());
        assert!(checked("same\n").is_err());
    }

    #[test]
    fn same_and_refused() {
        let (given, other) = (one_state(1, &["a"], &[0, 1]), one_state(1, &[], &[0]));
        assert_eq!(check_compare(&given, &given, b"same\n"), Ok(()));
        assert!(check_compare(&given, &given, b"same").is_err());
        assert!(check_compare(&given, &given, b"differ 0 1\nprefix\nloop 0\n").is_err());
        assert_eq!(check_compare(&given, &other, b"refused 14 1 0\n"), Ok(()));
        assert!(check_compare(&given, &other, b"refused 14 0 1\n").is_err());
    }

    #[test]
    fn decoder_and_search_give_the_word() {
        // One state and no letter but 0; the answer states a table that never meets its set.
        let (reference, answer) = (one_state(1, &[], &[1]), b"s SATISFIABLE\nv 1 0\n");
        let profile = Profile::with_inf_of_all(1, 1, List::First);
        let decoded = |printed: &str| check_decode(&reference, profile, answer, printed.as_bytes());
        assert_eq!(decoded("refused 12 0 1\nprefix\nloop 0\n"), Ok(()));
        assert!(decoded("refused 12 0 2\nprefix\nloop 0 0\n").is_err());
        assert!(decoded("refused 12 0 1\n").is_err());
        let two_states = b"HOA: v1\nStates: 2\nStart: 0\nAP: 0\nAcceptance: 1 Inf(0)\n--BODY--\nState: 0\n[t] 1 {0}\nState: 1\n[t] 0 {0}\n--END--\n";
        let told = |printed: &str| check_search(two_states, &[answer.to_vec()], printed.as_bytes());
        assert_eq!(told("refused 12 0 2\n"), Ok(()));
        assert!(told("refused 12 0 1\n").is_err());
        assert!(told("ask 1 1\n").is_err());
    }

    #[test]
    fn each_list_has_its_own_file() {
        // 0 leads to 1, which stays; neither has sets. The step is 1; the paths are 2 to 5, or 2 and 3.
        let reference = b"HOA: v1 States: 2 Start: 0 Acceptance: 0 t --BODY-- State: 0 1 State: 1 1 --END--";
        let first = "p cnf 5 8\n1 0\n2 0\n-2 -1 5 0\n-5 -1 5 0\n-2 -1 3 0\n-3 -1 3 0\n-4 -1 5 0\n-5 -1 5 0\n";
        let second = "p cnf 3 5\n1 0\n2 0\n-2 -1 3 0\n-3 -1 3 0\n-3 -1 3 0\n";
        let checked = |list: List, printed: &str| {
            check_clauses(reference, Profile::with_inf_of_all(1, 0, list), printed.as_bytes())
        };
        assert_eq!(checked(List::First, first), Ok(()));
        assert_eq!(checked(List::Second, second), Ok(()));
        assert!(checked(List::First, second).is_err());
        assert!(checked(List::Second, first).is_err());
        let decoded = |list: List, printed: &str| {
            let text = b"s SATISFIABLE\nv 1 -4 0";
            check_decode(reference, Profile::with_inf_of_all(1, 0, list), text, printed.as_bytes())
        };
        let table = "HOA: v1\nStates: 1\nStart: 0\nAcceptance: 0 t\n--BODY--\nState: 0\n[t] 0\n--END--\n";
        assert_eq!(decoded(List::First, table), Ok(()));
        assert_eq!(decoded(List::Second, "refused 10 18 0\n"), Ok(()));
        assert!(decoded(List::First, "refused 10 18 0\n").is_err());
        assert!(decoded(List::Second, table).is_err());
    }
}
