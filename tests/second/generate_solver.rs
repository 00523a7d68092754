//! Generated solver texts for small references, and chains of answers for the search.

use crate::automaton::*;
use crate::generate::*;
use crate::generate_acceptance::random_acceptance;
use crate::numbering::Numbering;
use crate::search::Search;

pub struct SolverCase {
    pub reference: Automaton,
    pub profile: Profile,
    pub text: Vec<u8>,
}

/// A reference and a text for it, for Inf of all sets; now and then n or m is out of range.
pub fn solver_case(random: &mut Random) -> SolverCase {
    let plan = Plan::new(random);
    let (n, m) = plan.sizes(random);
    let wide = with_sets(random, &plan.core, m);
    case_of(random, plan, wide, n, Named::InfOfAll)
}

/// The same for a candidate's acceptance that is named; now and then it says yes past its sets.
pub fn profile_case(random: &mut Random) -> SolverCase {
    let plan = Plan::with_any_acceptance(random);
    let (n, m) = plan.sizes(random);
    let wide = in_other_words(random, &plan.core, m);
    let named = if wide.acceptance == inf_of_all(m) && random.one_in(2) {
        Named::InfOfAll
    } else if random.one_in(15) {
        Named::Number(past_the_sets(random, m))
    } else {
        Named::Number(wide.acceptance as u64)
    };
    case_of(random, plan, wide, n, named)
}

/// A number with a yes past m sets.
fn past_the_sets(random: &mut Random, m: usize) -> u64 {
    let first = 1 << (1 << m);
    let more = random.next() % first;
    random.pick(&[first, first + more, first + more, 1 << 16, (1 << 16) + more, u32::MAX as u64])
}

/// A text, mostly with a table that has the sets and the acceptance of `wide`.
fn case_of(random: &mut Random, plan: Plan, wide: Automaton, n: usize, acceptance: Named) -> SolverCase {
    let (m, list) = (wide.sets, any_list(random));
    let text = match random.below(8) {
        0 => verdict_only(random, "UNSATISFIABLE"),
        1 => verdict_only(random, "UNKNOWN"),
        2 => {
            // A text for the one list may be given to the other.
            let other = any_list(random);
            table_text(random, &plan, &wide, n, other)
        }
        _ => table_text(random, &plan, &wide, n, list),
    };
    let (n, m) = match random.below(60) {
        0 => (0, m),
        1 => (9, m),
        2 => (n, 5),
        _ => (n, m),
    };
    let profile = Profile { n: n as u64, m: m as u64, acceptance, list };
    SolverCase { reference: plan.reference, profile, text }
}

fn any_list(random: &mut Random) -> List {
    random.pick(&[List::First, List::Second])
}

/// A small reference with several states, and sizes and an acceptance for which there is a table, or mostly
/// none; the list is left to the caller.
pub fn lists_case(random: &mut Random) -> (Automaton, Profile) {
    let (states, n) = (random.within(2, 4), random.within(1, 2));
    let (reference, m, acceptance) = match random.below(3) {
        0 => with_a_table(random, states, n),
        _ => {
            let (k, s, m) = (random.within(1, 2), random.within(1, 2), random.within(0, 2));
            let any = any_automaton(random, states, k, s);
            (layered(random, &any), m, random_acceptance(random, m))
        }
    };
    let all = acceptance == inf_of_all(m);
    let acceptance = if all { Named::InfOfAll } else { Named::Number(acceptance as u64) };
    (reference, Profile { n: n as u64, m: m as u64, acceptance, list: List::First })
}

/// A reference for which n states are enough, with the sets and the acceptance for which they are.
fn with_a_table(random: &mut Random, states: usize, n: usize) -> (Automaton, usize, u16) {
    let (k, sets) = (random.within(0, 2), random.within(0, 1));
    let (s, m) = (sets + random.below(2), sets + random.below(2));
    let core = any_core(random, n, k, sets);
    let copied = with_layered_copies(random, &core, states);
    let reference = in_other_words(random, &copied, s);
    (reference, m, in_other_words(random, &core, m).acceptance)
}

/// Any automaton of this size, half of them with layers.
fn any_core(random: &mut Random, states: usize, k: usize, sets: usize) -> Automaton {
    let core = any_automaton(random, states, k, sets);
    if random.one_in(2) {
        return layered(random, &core);
    }
    core
}

/// A small automaton and a reference that agrees with it.
struct Plan {
    core: Automaton,
    reference: Automaton,
}

impl Plan {
    /// With Inf of all sets, for which the search and the clause program ask; the reference may say
    /// the same in other words.
    fn new(random: &mut Random) -> Plan {
        let core = Plan::core(random);
        let acceptance = inf_of_all(core.sets);
        Plan::of(random, Automaton { acceptance, ..core })
    }

    fn with_any_acceptance(random: &mut Random) -> Plan {
        let core = Plan::core(random);
        Plan::of(random, core)
    }

    /// At times three states, with few letters and sets, so that the clause file is not too long.
    fn core(random: &mut Random) -> Automaton {
        let (states, k, sets) = match random.below(8) {
            0 => (3, random.within(0, 1), random.within(0, 1)),
            _ => (random.within(1, 2), random.within(0, 2), random.within(0, 2)),
        };
        any_core(random, states, k, sets)
    }

    /// At times the reference has many states, where that does not make the clause file too long.
    fn of(random: &mut Random, core: Automaton) -> Plan {
        let further = if core.states() < 3 && core.sets == 0 && random.one_in(4) { 12 } else { 3 };
        let more = core.states() + random.below(further);
        let copied = with_layered_copies(random, &core, more);
        let sets = core.sets + random.below(2);
        let other_sets = if random.one_in(2) { with_sets } else { in_other_words };
        let reference = other_sets(random, &copied, sets);
        Plan { core, reference }
    }

    /// n and m for which there is a table.
    fn sizes(&self, random: &mut Random) -> (usize, usize) {
        (self.core.states() + random.below(3), self.core.sets + random.below(2))
    }

    /// What each step and mark variable is: a table that agrees, with further true steps to states
    /// that are copies of the same one. `wide` is the small automaton with as many sets as are asked for.
    fn values(&self, random: &mut Random, wide: &Automaton, n: usize, list: List) -> Vec<bool> {
        let (copied, mut origin) = with_copies(random, wide, n);
        origin.swap(0, copied.start);
        let table = starting_at_zero(&copied);
        let mut values = closure(&self.reference, &table, list);
        if random.one_in(2) {
            let number = Numbering::new(&self.reference, n, wide.sets, list);
            self.further_steps(random, &number, &table, &origin, &mut values);
            close(&self.reference, &number, &mut values);
        }
        values
    }

    fn further_steps(
        &self,
        random: &mut Random,
        number: &Numbering,
        table: &Automaton,
        origin: &[usize],
        values: &mut [bool],
    ) {
        values[number.steps_and_marks() + 1..].fill(false);
        for q in 0..number.n {
            for l in 0..number.letters {
                let edge = table.step(q, l);
                for to in (0..number.n).filter(|&to| origin[to] == origin[edge.to]) {
                    if random.one_in(2) {
                        state_step(number, values, q, l, Transition { to, ..edge });
                    }
                }
            }
        }
    }
}

fn verdict_only(random: &mut Random, verdict: &str) -> Vec<u8> {
    let mut lines = Lines::new(random, verdict, Vec::new());
    if random.one_in(3) {
        lines.damage(random, 8, 9);
    }
    lines.text(random)
}

fn table_text(random: &mut Random, plan: &Plan, wide: &Automaton, n: usize, list: List) -> Vec<u8> {
    let mut values = plan.values(random, wide, n, list);
    let number = Numbering::new(&plan.reference, n, wide.sets, list);
    if random.one_in(3) {
        another_table(random, &number, &mut values);
    }
    let literals = literals(random, &number, &values);
    let mut lines = Lines::new(random, "SATISFIABLE", literals);
    if random.below(100) < 45 {
        let (last, of_first) = (number.variables(), Numbering::new(&plan.reference, n, wide.sets, List::First));
        // Past V, and in the second list mostly not past that of the first.
        let past = random.within(last + 1, of_first.variables().max(last + 1));
        lines.damage(random, last, past);
    }
    let mut text = lines.text(random);
    if random.one_in(8) {
        damage_bytes(random, &mut text);
    }
    text
}

/// Steps and marks that are another table, or none.
fn another_table(random: &mut Random, number: &Numbering, values: &mut [bool]) {
    for _ in 0..random.within(1, 3) {
        let variable = random.within(1, number.steps_and_marks());
        values[variable] = !values[variable];
    }
}

/// All literals, or those without a minus, or those of steps and marks and some of paths.
fn literals(random: &mut Random, number: &Numbering, values: &[bool]) -> Vec<String> {
    let mode = random.below(4);
    let named = |variable: &usize| match mode {
        0 => true,
        1 => values[*variable],
        _ => *variable <= number.steps_and_marks() || random.one_in(40),
    };
    let variables: Vec<usize> = (1..values.len()).filter(named).collect();
    let literal = |&variable: &usize| if values[variable] { format!("{variable}") } else { format!("-{variable}") };
    let mut literals: Vec<String> = variables.iter().map(literal).collect();
    if random.one_in(3) {
        random.shuffle(&mut literals);
    }
    literals
}

// ---------------------------------------------------------------------------------------
// Lines

/// Lines as lists of tokens; a line without tokens is empty.
struct Lines {
    lines: Vec<Vec<String>>,
    ending: &'static str,
}

impl Lines {
    /// The `s` line before, after or between the `v` lines, with `c` lines and empty lines.
    fn new(random: &mut Random, verdict: &str, literals: Vec<String>) -> Lines {
        let mut lines = if verdict == "SATISFIABLE" { v_lines(random, literals) } else { Vec::new() };
        let between = random.below(lines.len() + 1);
        let at = random.pick(&[0, 0, lines.len(), between]);
        lines.insert(at, vec!["s".to_string(), verdict.to_string()]);
        for _ in 0..random.below(4) {
            let extra = match random.below(4) {
                0 => vec![],
                1 => vec!["c".to_string()],
                2 => vec!["c s SATISFIABLE\r".to_string()],
                _ => vec!["cv 1 2 0 \u{fc}\t".to_string()],
            };
            lines.insert(random.below(lines.len() + 1), extra);
        }
        Lines { lines, ending: "\n" }
    }

    fn text(&self, random: &mut Random) -> Vec<u8> {
        let wide = random.one_in(4);
        let mut text = String::new();
        for (at, line) in self.lines.iter().enumerate() {
            text += &one_line(random, line, wide);
            if at + 1 < self.lines.len() || random.below(4) > 0 {
                text += self.ending;
            }
        }
        text.into_bytes()
    }

    fn of(&self, kind: &str) -> Vec<usize> {
        (0..self.lines.len()).filter(|&at| self.lines[at].first().map(String::as_str) == Some(kind)).collect()
    }

    /// `last` is the last variable, and `past` is past it.
    fn damage(&mut self, random: &mut Random, last: usize, past: usize) {
        let v_lines = self.of("v");
        if v_lines.is_empty() || random.one_in(4) {
            return self.damage_lines(random);
        }
        let line = random.pick(&v_lines);
        let at = random.within(1, self.lines[line].len());
        let (next, huge) = ((last + 1).to_string(), "9".repeat(random.within(9, 25)));
        let (last, past) = (last.to_string(), past.to_string());
        let odd = [
            "0", "-0", "01", "-01", "+1", "--1", "-", "1-", "9x", "x", "1", "-1", "2", "0x1", "1.0", &last, &next,
            &past, &past, &huge,
        ];
        match random.below(5) {
            0 if at < self.lines[line].len() => drop(self.lines[line].remove(at)),
            1 if at < self.lines[line].len() => {
                let again = self.lines[line][at].clone();
                self.lines[random.pick(&v_lines)].push(again);
            }
            2 if at < self.lines[line].len() => self.lines[line][at] = random.pick(&odd).to_string(),
            _ => self.lines[line].insert(at, random.pick(&odd).to_string()),
        }
    }

    fn damage_lines(&mut self, random: &mut Random) {
        if self.lines.is_empty() {
            return;
        }
        let at = random.below(self.lines.len());
        match random.below(8) {
            0 => self.ending = "\r\n",
            1 => drop(self.lines.remove(at)),
            2 => self.lines.insert(at, self.lines[at].clone()),
            3 => self.lines.insert(at, vec![random.pick(&[" ", "\t", "\r", "x", "S", "p cnf 1 1"]).to_string()]),
            4 => self.lines.insert(at, vec!["v".to_string()]),
            5 => {
                let odd =
                    ["SATISFIABLE", "UNSATISFIABLE", "UNKNOWN", "SAT", "satisfiable", "UNSATISFIABLEX", "UN", "1"];
                let word = random.pick(&odd).to_string();
                let line = *self.of("s").first().unwrap_or(&at);
                self.lines[line] = vec!["s".to_string(), word];
            }
            6 => self.lines.swap(at, 0),
            _ => self.lines[at].insert(0, " ".to_string()),
        }
    }
}

/// "`v` lines hold literals, perhaps none .. the last of all being 0"
fn v_lines(random: &mut Random, mut literals: Vec<String>) -> Vec<Vec<String>> {
    literals.push("0".to_string());
    let longest = random.pick(&[1, 3, 10, 10, 1000]);
    let mut lines = vec![vec!["v".to_string()]];
    for literal in literals {
        if lines.last().unwrap().len() > random.within(0, longest) {
            lines.push(vec!["v".to_string()]);
        }
        lines.last_mut().unwrap().push(literal);
    }
    if random.one_in(5) {
        lines.push(vec!["v".to_string()]);
    }
    lines
}

fn one_line(random: &mut Random, tokens: &[String], wide: bool) -> String {
    let mut line = String::new();
    for (at, token) in tokens.iter().enumerate() {
        if at > 0 {
            line += if wide { random.pick(&[" ", "  ", "\t", " \t "]) } else { " " };
        }
        line += token;
    }
    let may_end = tokens.first().is_some_and(|first| first == "s" || first == "v");
    if may_end && random.one_in(if wide { 2 } else { 30 }) {
        line += random.pick(&[" ", "\t", "  "]);
    }
    line
}

fn damage_bytes(random: &mut Random, text: &mut Vec<u8>) {
    if text.is_empty() {
        return;
    }
    let at = random.below(text.len());
    let byte = random.pick(b" \t\n\r0123456789-svcSUA\x00\xff");
    match random.below(4) {
        0 => text[at] = byte,
        1 => drop(text.remove(at)),
        2 => text.insert(at, byte),
        _ => text.truncate(at),
    }
}

// ---------------------------------------------------------------------------------------
// Chains of answers

/// A reference and answers to the questions that the search puts one after the other; the last
/// may be refused, and a finished search may be told one more.
pub fn search_case(random: &mut Random) -> (Automaton, Vec<Vec<u8>>) {
    let mut plan = Plan::new(random);
    if random.one_in(2) {
        let further = random.pick(&[1, 2, 3, 4, 5, 12]);
        let more = (plan.reference.states() + further).min(MAX_STATES);
        plan.reference = with_layered_copies(random, &plan.reference, more);
    }
    let mut search = Search::new(&plan.reference);
    let mut answers = Vec::new();
    for _ in 0..random.within(0, 12) {
        if search.finished {
            break;
        }
        let answer = next_answer(random, &plan, search.n, search.m);
        let refused = search.answer(&answer).is_err();
        answers.push(answer);
        if refused {
            return (plan.reference.clone(), answers);
        }
    }
    if search.finished && random.one_in(5) {
        answers.push(verdict_text(random.pick(&["UNSATISFIABLE", "UNKNOWN"])));
    }
    (plan.reference.clone(), answers)
}

fn verdict_text(verdict: &str) -> Vec<u8> {
    format!("s {verdict}\n").into_bytes()
}

fn next_answer(random: &mut Random, plan: &Plan, n: usize, m: usize) -> Vec<u8> {
    let possible = n >= plan.core.states() && m >= plan.core.sets;
    match random.below(20) {
        0 => verdict_text("UNKNOWN"),
        1 if random.one_in(2) => b"s SATISFIABLE\nv 0\n".to_vec(),
        2 if possible => {
            let wide = with_sets(random, &plan.core, m);
            // An answer to either list is in form.
            let list = any_list(random);
            table_text(random, plan, &wide, n, list)
        }
        3..=15 if possible => stated(random, plan, n, m),
        _ => verdict_text("UNSATISFIABLE"),
    }
}

/// The steps and marks of a table that agrees, or now and then of another, on one line.
fn stated(random: &mut Random, plan: &Plan, n: usize, m: usize) -> Vec<u8> {
    let number = Numbering::new(&plan.reference, n, m, List::First);
    let wide = with_sets(random, &plan.core, m);
    let mut values = plan.values(random, &wide, n, List::First);
    if random.one_in(12) {
        another_table(random, &number, &mut values);
    }
    let literals: String = (1..=number.steps_and_marks()).filter(|&v| values[v]).map(|v| format!("{v} ")).collect();
    format!("s SATISFIABLE\nv {literals}0\n").into_bytes()
}

#[cfg(test)]
mod tests {
    use super::*;
    use crate::clauses::tests::{list, satisfies, LISTS};
    use crate::clauses::File;
    use crate::components::components;
    use crate::decode::{decode, Decoded};

    #[test]
    fn planned_values_satisfy_the_list() {
        let mut random = Random::new(6);
        for round in 0..80 {
            let plan = Plan::with_any_acceptance(&mut random);
            let (n, m) = (plan.core.states() + random.below(2), plan.core.sets);
            let wide = in_other_words(&mut random, &plan.core, m);
            let named = LISTS[round % 2];
            let values = plan.values(&mut random, &wide, n, named);
            let of = Candidates { n, m, acceptance: wide.acceptance };
            assert!(satisfies(&values, &list(&File::new(&plan.reference, of, named))));
        }
    }

    /// How often each answer of the decoder occurs for a list: table, none, unknown, and the refusals.
    fn answers(cases: fn(&mut Random) -> SolverCase, named: List) -> ([usize; 3], [usize; 13]) {
        let mut random = Random::new(7);
        let (mut said, mut refused) = ([0; 3], [0; 13]);
        for _ in 0..4000 {
            let case = cases(&mut random);
            if case.profile.list != named {
                continue;
            }
            match decode(&case.reference, case.profile, &case.text[..]) {
                Ok(Decoded::Table(_)) => said[0] += 1,
                Ok(Decoded::None) => said[1] += 1,
                Ok(Decoded::Unknown) => said[2] += 1,
                Ok(Decoded::Differs(word)) => refused[word.refusal().number as usize] += 1,
                Err(refusal) => refused[refusal.number as usize] += 1,
            }
        }
        (said, refused)
    }

    #[test]
    fn all_answers_of_the_decoder_occur() {
        for named in LISTS {
            let (said, refused) = answers(solver_case, named);
            assert!(said.iter().all(|&times| times > 50), "{said:?}");
            assert!(refused[8..].iter().all(|&times| times > 20), "{refused:?}");
            let (said, refused) = answers(profile_case, named);
            assert!(said[0] > 300 && said.iter().all(|&times| times > 50), "{said:?}");
            assert!(refused[8..].iter().chain([&refused[4]]).all(|&times| times > 20), "{refused:?}");
        }
    }

    /// Texts that are answered otherwise where the other list is named.
    #[test]
    fn the_list_matters() {
        let mut random = Random::new(12);
        let mut count = [0, 0];
        for _ in 0..2000 {
            let case = solver_case(&mut random);
            let read = |list: List| decode(&case.reference, Profile { list, ..case.profile }, &case.text[..]);
            let differs = read(List::First) != read(List::Second);
            count[(case.profile.list == List::Second) as usize] += differs as usize;
        }
        assert!(count.iter().all(|&times| times > 50), "{count:?}");
    }

    /// How many references have one component and several states, have several components, have a state outside
    /// any cycle, have a component whose states do not follow one another, and have a state that the start
    /// does not reach.
    fn shapes(references: &[Automaton]) -> [usize; 5] {
        let mut count = [0; 5];
        for reference in references {
            let component = components(&reference.destinations());
            let states = 0..reference.states();
            let one = states.clone().all(|u| component[u] == component[0]);
            let lone = |u: usize| states.clone().all(|v| v == u || component[v] != component[u]);
            let outside = states.clone().any(|u| lone(u) && reference.table[u].iter().all(|edge| edge.to != u));
            let parted =
                |u: usize, v: usize| component[u] == component[v] && (u..v).any(|w| component[w] != component[u]);
            let between = states.clone().any(|u| states.clone().any(|v| parted(u, v)));
            let mut reached = vec![false; reference.states()];
            let mut open = vec![reference.start];
            while let Some(u) = open.pop() {
                if !std::mem::replace(&mut reached[u], true) {
                    open.extend(reference.table[u].iter().map(|edge| edge.to));
                }
            }
            let told = [one && reference.states() > 1, !one, outside, between, reached.contains(&false)];
            (0..5).for_each(|shape| count[shape] += told[shape] as usize);
        }
        count
    }

    #[test]
    fn references_have_several_components() {
        let mut random = Random::new(14);
        let solver: Vec<Automaton> = (0..600).map(|_| solver_case(&mut random).reference).collect();
        let profile: Vec<Automaton> = (0..600).map(|_| profile_case(&mut random).reference).collect();
        let lists: Vec<Automaton> = (0..600).map(|_| lists_case(&mut random).0).collect();
        for references in [solver, profile, lists] {
            let [one, several, outside, between, unreached] = shapes(&references);
            let all = [one, several, outside, between, unreached];
            assert!(one > 60 && several > 300 && outside > 120 && between > 20 && unreached > 60, "{all:?}");
        }
    }

    #[test]
    fn both_lists_are_small() {
        let mut random = Random::new(15);
        for _ in 0..300 {
            let (reference, profile) = lists_case(&mut random);
            assert!((2..=4).contains(&reference.states()) && reference.propositions() < 3 && reference.sets < 3);
            let Candidates { n, m, .. } = profile.judged().unwrap();
            assert!((1..=2).contains(&n) && m < 3);
        }
    }

    #[test]
    fn many_acceptances_are_named() {
        let mut random = Random::new(10);
        let (mut all, mut others, mut references) = (0, std::collections::BTreeSet::new(), 0);
        for _ in 0..600 {
            let case = profile_case(&mut random);
            match case.profile.acceptance {
                Named::InfOfAll => all += 1,
                Named::Number(number) => drop(others.insert((case.profile.m, number))),
            }
            let case = solver_case(&mut random);
            references += (case.reference.acceptance != inf_of_all(case.reference.sets)) as usize;
        }
        assert!(all > 30 && others.len() > 100, "{all} and {others:?}");
        assert!(references > 100, "{references} of 600");
    }

    #[test]
    fn chains_reach_all_ends() {
        let mut random = Random::new(8);
        let mut count = [0; 4];
        for _ in 0..600 {
            let (reference, answers) = search_case(&mut random);
            let mut search = Search::new(&reference);
            let refused = answers.iter().any(|answer| search.answer(answer).is_err());
            let end = if refused { 0 } else { 1 + search.finished as usize + search.open as usize };
            count[end] += 1;
        }
        assert!(count.iter().all(|&times| times > 20), "{count:?}");
    }

    /// A table after two counts without one, "none" with 4 sets, and 8 states asked for again
    /// where the best has more than 9.
    #[test]
    fn chains_go_through_the_counts() {
        let mut random = Random::new(9);
        let (mut skipped, mut all, mut again) = (0, 0, 0);
        for _ in 0..1500 {
            let (reference, answers) = search_case(&mut random);
            let mut search = Search::new(&reference);
            let mut nones = 0;
            for answer in &answers {
                let (n, m, best) = (search.n, search.m, search.best.states());
                if search.answer(answer).is_err() {
                    break;
                }
                if search.best.states() < best {
                    skipped += (nones >= 2) as usize;
                    nones = 0;
                } else if search.m > m {
                    nones += 1;
                    again += (best > 9 && (n, search.n) == (8, 8)) as usize;
                }
            }
            all += (search.finished && !search.open && search.m == 4 && search.n > 0) as usize;
        }
        assert!([skipped, all, again].iter().all(|&times| times > 20), "{skipped} {all} {again}");
    }
}
