//! Generated inputs, from a fixed pseudo-random generator: the same seed gives the same files.

use crate::automaton::*;
use crate::generate_acceptance::random_acceptance;
use crate::generate_formula::full;
use crate::generate_hoa::hoa_text;
use crate::generate_solver::{lists_case, profile_case, search_case, solver_case, SolverCase};
use crate::hoa;
use crate::numbering::Numbering;
use std::path::Path;
use std::{fs, io};

// ---------------------------------------------------------------------------------------
// Chance

/// Splitmix64.
pub struct Random {
    state: u64,
}

impl Random {
    pub fn new(seed: u64) -> Random {
        Random { state: seed }
    }

    /// The numbers of one case: they depend on the seed and its own number only.
    pub fn of_case(seed: u64, case: usize) -> Random {
        let mut random = Random::new(Random::new(seed).next() ^ case as u64);
        random.next();
        random
    }

    pub fn next(&mut self) -> u64 {
        self.state = self.state.wrapping_add(0x9e37_79b9_7f4a_7c15);
        let mut mixed = self.state;
        mixed = (mixed ^ (mixed >> 30)).wrapping_mul(0xbf58_476d_1ce4_e5b9);
        mixed = (mixed ^ (mixed >> 27)).wrapping_mul(0x94d0_49bb_1331_11eb);
        mixed ^ (mixed >> 31)
    }

    /// A number from 0 to `bound` - 1.
    pub fn below(&mut self, bound: usize) -> usize {
        (self.next() % bound as u64) as usize
    }

    /// A number from `least` to `most`.
    pub fn within(&mut self, least: usize, most: usize) -> usize {
        least + self.below(most - least + 1)
    }

    pub fn one_in(&mut self, many: usize) -> bool {
        self.below(many) == 0
    }

    pub fn pick<T: Copy>(&mut self, choices: &[T]) -> T {
        choices[self.below(choices.len())]
    }

    pub fn shuffle<T>(&mut self, list: &mut [T]) {
        for end in (1..list.len()).rev() {
            list.swap(end, self.below(end + 1));
        }
    }
}

// ---------------------------------------------------------------------------------------
// Automata

/// Any automaton of this size with Inf of all its sets.
pub fn random_automaton(random: &mut Random, states: usize, k: usize, sets: usize) -> Automaton {
    let often = random.within(1, 3);
    let mut table = Vec::new();
    for _ in 0..states {
        let mut transition = |_| {
            let marks = (0..sets).filter(|_| random.below(4) < often).fold(0, |marks, set| marks | 1 << set);
            Transition { to: random.below(states), marks }
        };
        table.push((0..1 << k).map(&mut transition).collect());
    }
    let (start, names) = (random.below(states), names(random, k));
    Automaton { start, sets, acceptance: inf_of_all(sets), names, table }
}

/// Any automaton of this size.
pub fn any_automaton(random: &mut Random, states: usize, k: usize, sets: usize) -> Automaton {
    let acceptance = random_acceptance(random, sets);
    Automaton { acceptance, ..random_automaton(random, states, k, sets) }
}

/// The same with states in layers, and transitions to the same layer or a later one: mostly there are
/// several components then, and states outside any cycle.
pub fn layered(random: &mut Random, given: &Automaton) -> Automaton {
    let layers = Layers::new(random, given.states(), given.states());
    let mut other = given.clone();
    for (q, row) in other.table.iter_mut().enumerate() {
        let onward = layers.onward(q, (0..given.states()).collect());
        for edge in row {
            if !onward.contains(&edge.to) {
                edge.to = random.pick(&onward);
            }
        }
    }
    other
}

/// For each state its layer.
struct Layers {
    layer: Vec<usize>,
    /// For each layer whether its states lead to later ones only, if there are any.
    passing: Vec<bool>,
}

impl Layers {
    fn one(states: usize) -> Layers {
        Layers { layer: vec![0; states], passing: vec![false] }
    }

    /// At most so many.
    fn new(random: &mut Random, states: usize, most: usize) -> Layers {
        let layers = random.within(1, most);
        let layer = (0..states).map(|_| random.below(layers)).collect();
        Layers { layer, passing: (0..layers).map(|_| random.one_in(3)).collect() }
    }

    /// Of these states those to which a transition may lead from the named one; all where it may lead to none.
    fn onward(&self, from: usize, states: Vec<usize>) -> Vec<usize> {
        let here = self.layer[from];
        let later: Vec<usize> = states.iter().copied().filter(|&to| self.layer[to] > here).collect();
        if self.passing[here] && !later.is_empty() {
            return later;
        }
        let onward: Vec<usize> = states.iter().copied().filter(|&to| self.layer[to] >= here).collect();
        if onward.is_empty() {
            states
        } else {
            onward
        }
    }
}

/// States that letter 0 leads round, with each set on one transition only: words that tell such
/// automata from one another are long.
fn sparse_automaton(random: &mut Random) -> Automaton {
    let (states, k, sets) = (random.within(3, 9), random.within(0, 1), random.within(1, 4));
    let mut sparse = any_automaton(random, states, k, sets);
    sparse.table.iter_mut().flatten().for_each(|edge| edge.marks = 0);
    for q in 0..states {
        sparse.table[q][0].to = (q + 1) % states;
    }
    for set in 0..sets {
        let letter = random.below(1 << k);
        sparse.table[random.below(states)][letter].marks |= 1 << set;
    }
    sparse
}

/// Sizes that are mostly small: states, k, sets.
pub fn random_sizes(random: &mut Random) -> (usize, usize, usize) {
    match random.below(20) {
        0 => (random.within(1, 16), random.within(0, 4), random.within(0, 4)),
        1..=4 => (random.within(1, 6), random.within(0, 3), random.within(0, 3)),
        _ => (random.within(1, 3), random.within(0, 2), random.within(0, 2)),
    }
}

/// Different names; mostly `a`, `b`, .., and at times any that a name may be.
pub fn names(random: &mut Random, k: usize) -> Vec<Vec<u8>> {
    if !random.one_in(4) {
        return (0..k).map(|i| vec![b'a' + i as u8]).collect();
    }
    let mut names: Vec<Vec<u8>> = Vec::new();
    while names.len() < k {
        let length = random.pick(&[1, 2, 3, 8, 15, 16]);
        let mut byte = || loop {
            let byte = random.within(32, 126) as u8;
            if byte != b'"' && byte != b'\\' {
                return byte;
            }
        };
        let name: Vec<u8> = (0..length).map(|_| byte()).collect();
        if !names.contains(&name) {
            names.push(name);
        }
    }
    names
}

/// An automaton with copies of states, and for each of its states the one it is a copy of.
/// It agrees with the given one, whichever copy each transition leads to.
pub fn with_copies(random: &mut Random, given: &Automaton, states: usize) -> (Automaton, Vec<usize>) {
    copied(random, given, states, &Layers::one(states))
}

/// The same with copies in layers, so that those of one component mostly fall into several.
pub fn with_layered_copies(random: &mut Random, given: &Automaton, states: usize) -> Automaton {
    let layers = Layers::new(random, states, 3);
    copied(random, given, states, &layers).0
}

fn copied(random: &mut Random, given: &Automaton, states: usize, layers: &Layers) -> (Automaton, Vec<usize>) {
    let mut origin: Vec<usize> = (0..states)
        .map(|state| if state < given.states() { state } else { random.below(given.states()) })
        .collect();
    random.shuffle(&mut origin);
    let copies = |state: usize| (0..states).filter(|&copy| origin[copy] == state).collect();
    let mut table = Vec::new();
    for (copy, &of) in origin.iter().enumerate() {
        let copied = |edge: &Transition| {
            let to = random.pick(&layers.onward(copy, copies(edge.to)));
            Transition { to, ..*edge }
        };
        table.push(given.table[of].iter().map(copied).collect());
    }
    let start = random.pick::<usize>(&copies(given.start));
    (Automaton { start, table, ..given.clone() }, origin)
}

/// The same automaton with states 0 and `start` exchanged: the start is then 0.
pub fn starting_at_zero(given: &Automaton) -> Automaton {
    let exchanged = |state: usize| match state {
        0 => given.start,
        _ if state == given.start => 0,
        _ => state,
    };
    let row = |state: usize| {
        let moved = |edge: &Transition| Transition { to: exchanged(edge.to), ..*edge };
        given.table[exchanged(state)].iter().map(moved).collect()
    };
    Automaton { start: 0, table: (0..given.states()).map(row).collect(), ..given.clone() }
}

/// When a set of an automaton with other sets is met.
#[derive(Clone, Copy)]
enum Source {
    /// Just when this set of the given one is.
    Set(usize),
    Always,
    Never,
    /// By just those transitions that do not carry this set of the given one.
    Opposite(usize),
}

impl Source {
    fn carried(self, marks: u8) -> bool {
        match self {
            Source::Set(set) => marks >> set & 1 == 1,
            Source::Always => true,
            Source::Never => false,
            Source::Opposite(set) => marks >> set & 1 == 0,
        }
    }

    /// Whether it may be so that the set is met infinitely often, or is not, in a run that meets just
    /// these sets of the given one infinitely often.
    fn may_be(self, there: bool, given: u8) -> bool {
        match self {
            Source::Opposite(set) => there || given >> set & 1 == 1,
            _ => self.carried(given) == there,
        }
    }
}

/// The automaton with other sets. The acceptance is as before, and `free` where no run can be.
fn with_sources(given: &Automaton, sources: &[Source], free: u16) -> Automaton {
    let sets = sources.len();
    let mut other = Automaton { sets, acceptance: 0, ..given.clone() };
    for edge in other.table.iter_mut().flatten() {
        let old = edge.marks;
        edge.marks = (0..sets).filter(|&set| sources[set].carried(old)).fold(0, |marks, set| marks | 1 << set);
    }
    for marks in 0..1usize << sets {
        let fits = |old: &u8| (0..sets).all(|set| sources[set].may_be(marks >> set & 1 == 1, *old));
        let yes = match (0..=given.all_marks()).find(fits) {
            Some(old) => given.takes(old),
            None => says_yes(free, marks),
        };
        other.acceptance |= (yes as u16) << marks;
    }
    other
}

/// The automaton with `sets` sets, at least as many as before, in another order: further sets are
/// met always or just when an old one is. Inf of all sets stays Inf of all.
pub fn with_sets(random: &mut Random, given: &Automaton, sets: usize) -> Automaton {
    let mut sources: Vec<Source> = (0..given.sets).map(Source::Set).collect();
    while sources.len() < sets {
        let copied = given.sets > 0 && random.one_in(2);
        sources.push(if copied { Source::Set(random.below(given.sets)) } else { Source::Always });
    }
    random.shuffle(&mut sources);
    with_sources(given, &sources, 0)
}

/// The same with another acceptance: further sets may also be met never, or where an old one is not,
/// and the acceptance says anything where no run can be.
pub fn in_other_words(random: &mut Random, given: &Automaton, sets: usize) -> Automaton {
    let mut sources: Vec<Source> = (0..given.sets).map(Source::Set).collect();
    while sources.len() < sets {
        sources.push(match random.below(4) {
            0 if given.sets > 0 => Source::Set(random.below(given.sets)),
            1 if given.sets > 0 => Source::Opposite(random.below(given.sets)),
            2 => Source::Never,
            _ => Source::Always,
        });
    }
    random.shuffle(&mut sources);
    with_sources(given, &sources, random.next() as u16)
}

/// One destination, one mark or one answer of the acceptance is another.
pub fn nearly(random: &mut Random, given: &Automaton) -> Automaton {
    let mut other = given.clone();
    if random.one_in(6) {
        other.acceptance ^= 1 << random.below(1 << given.sets);
        return other;
    }
    let (state, letter) = (random.below(given.states()), random.below(given.letters()));
    let edge = &mut other.table[state][letter];
    if given.sets > 0 && random.one_in(2) {
        edge.marks ^= 1 << random.below(given.sets);
    } else {
        edge.to = random.below(given.states());
    }
    other
}

// ---------------------------------------------------------------------------------------
// Assignments

/// The assignment that states the table, and of the paths just those that there are: it
/// satisfies the clause file if the table agrees with the reference. Index 0 is not used.
pub fn closure(reference: &Automaton, table: &Automaton, list: List) -> Vec<bool> {
    let number = Numbering::new(reference, table.states(), table.sets, list);
    let mut values = vec![false; number.variables() + 1];
    for q in 0..number.n {
        for l in 0..number.letters {
            let edge = table.step(q, l);
            state_step(&number, &mut values, q, l, edge);
        }
    }
    close(reference, &number, &mut values);
    values
}

pub fn state_step(number: &Numbering, values: &mut [bool], q: usize, l: usize, edge: Transition) {
    values[number.step(q, l, edge.to)] = true;
    for i in 0..number.m {
        values[number.mark(q, l, i, edge.to)] = edge.marks >> i & 1 == 1;
    }
}

/// Makes just those paths true that the true steps ask for.
pub fn close(reference: &Automaton, number: &Numbering, values: &mut [bool]) {
    let mut starts = vec![(0, reference.start)];
    while let Some((q, u)) = starts.pop() {
        if values[number.path((q, u), (q, u), 0, 0)] {
            continue;
        }
        let mut ends = vec![((q, u), 0, 0)];
        while let Some((end, i, j)) = ends.pop() {
            let path = number.path((q, u), end, i, j);
            if std::mem::replace(&mut values[path], true) {
                continue;
            }
            for (next, candidate_marks, reference_marks) in product_steps(reference, number, values, end) {
                starts.push(next);
                if number.share(u, next.1) {
                    ends.push((next, i | candidate_marks, j | reference_marks));
                }
            }
        }
    }
}

type ProductStep = ((usize, usize), usize, usize);

fn product_steps(
    reference: &Automaton,
    number: &Numbering,
    values: &[bool],
    (p, v): (usize, usize),
) -> Vec<ProductStep> {
    let mut steps = Vec::new();
    for l in 0..number.letters {
        let step = reference.step(v, l);
        for t in (0..number.n).filter(|&t| values[number.step(p, l, t)]) {
            let marked = |i: &usize| values[number.mark(p, l, *i, t)];
            let marks = (0..number.m).filter(marked).fold(0, |marks, i| marks | 1 << i);
            steps.push(((t, step.to), marks, step.marks as usize));
        }
    }
    steps
}

// ---------------------------------------------------------------------------------------
// Files

/// Writes `count` inputs of a kind into the directory. Each input depends on the seed and its
/// own number only.
pub fn generate(kind: &str, seed: u64, count: usize, directory: &Path) -> io::Result<()> {
    let write = match kind {
        "hoa" => write_hoa,
        "pairs" => write_pair,
        "solver" => write_solver,
        "profile" => write_profile,
        "lists" => write_lists,
        "search" => write_search,
        _ => return Err(io::Error::new(io::ErrorKind::InvalidInput, KINDS)),
    };
    fs::create_dir_all(directory)?;
    for case in 0..count {
        write(&mut Random::of_case(seed, case), &|end: &str| directory.join(format!("{case:05}.{end}")))?;
    }
    Ok(())
}

const KINDS: &str = "kinds: hoa, pairs, solver, profile, lists, search";

type Names<'a> = &'a dyn Fn(&str) -> std::path::PathBuf;

fn write_hoa(random: &mut Random, name: Names) -> io::Result<()> {
    fs::write(name("hoa"), hoa_text(random))
}

fn write_pair(random: &mut Random, name: Names) -> io::Result<()> {
    let (first, second) = pair(random);
    fs::write(name("first.hoa"), hoa::write(&first))?;
    fs::write(name("second.hoa"), hoa::write(&second))
}

fn write_solver(random: &mut Random, name: Names) -> io::Result<()> {
    write_case(solver_case(random), name)
}

fn write_profile(random: &mut Random, name: Names) -> io::Result<()> {
    let case = profile_case(random);
    fs::write(name("acceptance"), format!("{}\n", case.profile.acceptance.word()))?;
    write_case(case, name)
}

fn write_case(case: SolverCase, name: Names) -> io::Result<()> {
    fs::write(name("list"), format!("{}\n", case.profile.list.word()))?;
    write_reference(&case.reference, &case.profile, name)?;
    fs::write(name("solver"), case.text)
}

fn write_reference(reference: &Automaton, profile: &Profile, name: Names) -> io::Result<()> {
    fs::write(name("reference.hoa"), hoa::write(reference))?;
    fs::write(name("sizes"), format!("{} {}\n", profile.n, profile.m))
}

/// For both lists.
fn write_lists(random: &mut Random, name: Names) -> io::Result<()> {
    let (reference, profile) = lists_case(random);
    fs::write(name("acceptance"), format!("{}\n", profile.acceptance.word()))?;
    write_reference(&reference, &profile, name)
}

fn write_search(random: &mut Random, name: Names) -> io::Result<()> {
    let (reference, answers) = search_case(random);
    fs::write(name("reference.hoa"), hoa::write(&reference))?;
    for (count, answer) in answers.iter().enumerate() {
        fs::write(name(&format!("answer.{:02}", count + 1)), answer)?;
    }
    Ok(())
}

/// Two automata: the same but for names, copies and sets; nearly that; the second accepts what the
/// first does not; or any two. Now and then they have not the same number of propositions.
pub fn pair(random: &mut Random) -> (Automaton, Automaton) {
    let (states, k, sets) = random_sizes(random);
    let any = any_automaton(random, states, k, sets);
    let first = if random.one_in(6) { sparse_automaton(random) } else { any };
    let (states, k, sets) = (first.states(), first.propositions(), first.sets);
    if random.one_in(40) {
        let other_k = random.within(0, 4);
        return (first, any_automaton(random, states, other_k, sets));
    }
    if random.one_in(5) {
        let (other_states, other_sets) = (random.within(1, 4), random.within(0, 3));
        return (first, any_automaton(random, other_states, k, other_sets));
    }
    let copies = (states + random.below(3)).min(MAX_STATES);
    let more = (sets + random.below(3)).min(MAX_SETS);
    let (copied, _) = with_copies(random, &first, copies);
    let mut second = in_other_words(random, &copied, more);
    if random.one_in(20) {
        second.acceptance ^= full(more);
    }
    for _ in 0..random.below(4) {
        second = nearly(random, &second);
    }
    if random.one_in(2) {
        (first, second)
    } else {
        (second, first)
    }
}

#[cfg(test)]
mod tests {
    use super::*;
    use crate::compare::{compare, Comparison};

    #[test]
    fn copies_and_sets_change_no_word() {
        let mut random = Random::new(1);
        for _ in 0..200 {
            let (states, k, sets) = (random.within(1, 4), random.within(0, 2), random.within(0, 2));
            let given = any_automaton(&mut random, states, k, sets);
            let (copied, _) = with_copies(&mut random, &given, states + 2);
            let layered = with_layered_copies(&mut random, &given, states + 2);
            assert_eq!(compare(&given, &layered), Ok(Comparison::Same));
            let other = starting_at_zero(&with_sets(&mut random, &copied, sets + 1));
            assert_eq!(other.start, 0);
            assert_eq!(compare(&given, &other), Ok(Comparison::Same));
            let is_inf_of_all = |given: &Automaton| given.acceptance == inf_of_all(given.sets);
            assert!(!is_inf_of_all(&given) || is_inf_of_all(&other));
            let other = in_other_words(&mut random, &copied, sets + 2);
            assert_eq!(compare(&given, &other), Ok(Comparison::Same));
        }
    }

    #[test]
    fn written_automata_read_back() {
        let mut random = Random::new(2);
        for _ in 0..200 {
            let (states, k, sets) = random_sizes(&mut random);
            let given = any_automaton(&mut random, states, k, sets);
            assert_eq!(hoa::read(&hoa::write(&given)), Ok(given));
        }
    }

    #[test]
    fn pairs_are_of_both_kinds() {
        let mut random = Random::new(3);
        let (mut same, mut long) = (0, 0);
        for _ in 0..400 {
            let (first, second) = pair(&mut random);
            match compare(&first, &second) {
                Ok(Comparison::Same) => same += 1,
                Ok(Comparison::Differ(word)) => long += (word.cycle.len() > 5) as usize,
                Err(_) => {}
            }
        }
        assert!((100..300).contains(&same) && long > 5, "{same} the same, {long} with long loops of 400");
    }
}
