//! The clause lists of documents 01 and 02: clauses in their order, the header, DIMACS lines.

use crate::automaton::*;
use crate::numbering::{pairs, Numbering};
use std::io::{self, Write};

/// The clause file of a reference and candidates. In the first list all reference states count as one
/// component, so that nothing is left out.
pub struct File<'a> {
    reference: &'a Automaton,
    number: Numbering,
    /// The acceptance of the candidates.
    acceptance: u16,
}

impl<'a> File<'a> {
    pub fn new(reference: &'a Automaton, of: Candidates, list: List) -> File<'a> {
        File { reference, number: Numbering::new(reference, of.n, of.m, list), acceptance: of.acceptance }
    }

    pub fn variables(&self) -> usize {
        self.number.variables()
    }

    /// "C counted beforehand: nL + (1 + nnrL) + n³rrL·2^m·2^s·2^m + the length of group 4." For the second
    /// list "C is counted anew" (document 02, E6), since group 3 is shorter too.
    pub fn clauses(&self) -> u64 {
        let Numbering { n, r, letters, .. } = self.number;
        let [n, r, letters] = [n, r, letters].map(|size| size as u64);
        n * letters + (1 + n * n * r * letters) + self.third_group() + self.fourth_group()
    }

    /// Whether group 3 keeps a clause depends on u, v and l only; the first list keeps all rrL of them.
    fn third_group(&self) -> u64 {
        let Numbering { n, m, r, s, letters, .. } = self.number;
        let of_each = |u: usize| pairs(r, letters).filter(|&(v, l)| self.extends(u, v, l)).count();
        let kept: usize = (0..r).map(of_each).sum();
        ((n.pow(3) * kept) as u64) << (m + s + m)
    }

    /// The conditions of group 4 name neither q nor p, so it is counted once for all of them.
    fn fourth_group(&self) -> u64 {
        let Numbering { n, m, r, s, letters, .. } = self.number;
        let mut kept = 0;
        for (v, l) in pairs(r, letters).filter(|&(v, l)| self.stays(v, l)) {
            for (i, j) in pairs(1 << m, 1 << s) {
                kept += (0..1 << m).filter(|&k| self.closes_wrongly(v, l, i, j, k)).count();
            }
        }
        (n * n * kept) as u64
    }

    /// "Group 3 keeps a clause only if u, v and w share a component" (document 02, E6)
    fn extends(&self, u: usize, v: usize, l: usize) -> bool {
        self.number.share(u, v) && self.stays(v, l)
    }

    /// "and group 4 only if v and w do"
    fn stays(&self, v: usize, l: usize) -> bool {
        self.number.share(v, self.reference.step(v, l).to)
    }

    /// "Group 4 keeps a clause where the two acceptances disagree on I∪K and J∪F" (document 02, E3)
    fn closes_wrongly(&self, v: usize, l: usize, i: usize, j: usize, k: usize) -> bool {
        let marks = self.reference.step(v, l).marks as usize;
        says_yes(self.acceptance, i | k) != says_yes(self.reference.acceptance, j | marks)
    }

    /// Hands out the clauses in order, until one is not taken.
    pub fn each<F: FnMut(&[i32]) -> io::Result<()>>(&self, mut taken: F) -> io::Result<()> {
        self.first(&mut taken)?;
        self.second(&mut taken)?;
        self.third(&mut taken)?;
        self.fourth(&mut taken)
    }

    /// "By q, l: the step(q,l,p), p ascending."
    fn first<F: FnMut(&[i32]) -> io::Result<()>>(&self, taken: &mut F) -> io::Result<()> {
        let Numbering { n, letters, .. } = self.number;
        for (q, l) in pairs(n, letters) {
            let clause: Vec<i32> = (0..n).map(|p| self.number.step(q, l, p) as i32).collect();
            taken(&clause)?;
        }
        Ok(())
    }

    /// "path(0,start,0,start,0,0) alone. Then by q, p, u, l: -path(q,u,q,u,0,0), -step(q,l,p),
    /// path(p,w,p,w,0,0)."
    fn second<F: FnMut(&[i32]) -> io::Result<()>>(&self, taken: &mut F) -> io::Result<()> {
        let Numbering { n, r, letters, .. } = self.number;
        let here = |pair| self.number.path(pair, pair, 0, 0) as i32;
        taken(&[here((0, self.reference.start))])?;
        for (q, p) in pairs(n, n) {
            for (u, l) in pairs(r, letters) {
                let w = self.reference.step(u, l).to;
                taken(&[-here((q, u)), -(self.number.step(q, l, p) as i32), here((p, w))])?;
            }
        }
        Ok(())
    }

    /// "By q, p, t, u, v, l, I, J, K: -path(q,u,p,v,I,J), -step(p,l,t), for each i ascending
    /// mark(p,l,i,t), negative if i is in K, then path(q,u,t,w,I∪K,J∪F), w from v."
    fn third<F: FnMut(&[i32]) -> io::Result<()>>(&self, taken: &mut F) -> io::Result<()> {
        let Numbering { n, m, r, s, letters, .. } = self.number;
        let mut clause = Vec::new();
        for (q, p) in pairs(n, n) {
            for (t, u) in pairs(n, r) {
                for (v, l) in pairs(r, letters).filter(|&(v, l)| self.extends(u, v, l)) {
                    let Transition { to: w, marks } = self.reference.step(v, l);
                    for (i, j) in pairs(1 << m, 1 << s) {
                        for k in 0..1 << m {
                            clause.clear();
                            clause.push(-(self.number.path((q, u), (p, v), i, j) as i32));
                            self.transition(p, l, t, k, &mut clause);
                            clause.push(self.number.path((q, u), (t, w), i | k, j | marks as usize) as i32);
                            taken(&clause)?;
                        }
                    }
                }
            }
        }
        Ok(())
    }

    /// "By q, p, v, l, I, J, K", only where the acceptances disagree: "-path(q,w,p,v,I,J),
    /// -step(p,l,q), the marks as in 3 with t = q."
    fn fourth<F: FnMut(&[i32]) -> io::Result<()>>(&self, taken: &mut F) -> io::Result<()> {
        let Numbering { n, m, r, s, letters, .. } = self.number;
        let mut clause = Vec::new();
        for (q, p) in pairs(n, n) {
            for (v, l) in pairs(r, letters).filter(|&(v, l)| self.stays(v, l)) {
                let w = self.reference.step(v, l).to;
                for (i, j) in pairs(1 << m, 1 << s) {
                    for k in (0..1 << m).filter(|&k| self.closes_wrongly(v, l, i, j, k)) {
                        clause.clear();
                        clause.push(-(self.number.path((q, w), (p, v), i, j) as i32));
                        self.transition(p, l, q, k, &mut clause);
                        taken(&clause)?;
                    }
                }
            }
        }
        Ok(())
    }

    /// The literals that say that the candidate has not this transition with just these marks.
    fn transition(&self, p: usize, l: usize, t: usize, marks: usize, clause: &mut Vec<i32>) {
        clause.push(-(self.number.step(p, l, t) as i32));
        for i in 0..self.number.m {
            let mark = self.number.mark(p, l, i, t) as i32;
            clause.push(if marks >> i & 1 == 1 { -mark } else { mark });
        }
    }

    /// "The header is `p cnf V C`"; "After the header each line is literals and a closing 0."
    pub fn print<W: Write>(&self, out: &mut W) -> io::Result<()> {
        writeln!(out, "p cnf {} {}", self.variables(), self.clauses())?;
        self.each(|clause| {
            for literal in clause {
                write!(out, "{literal} ")?;
            }
            out.write_all(b"0\n")
        })
    }
}

#[cfg(test)]
pub mod tests {
    use super::*;
    use crate::compare::{compare, Comparison};
    use crate::components::tests::reaches;
    use crate::generate::{any_automaton, closure, layered, with_layered_copies, Random};
    use crate::generate_acceptance::random_acceptance;
    use crate::hoa;

    pub const LISTS: [List; 2] = [List::First, List::Second];

    pub fn list(file: &File) -> Vec<Vec<i32>> {
        let mut all = Vec::new();
        file.each(|clause| Ok(all.push(clause.to_vec()))).unwrap();
        all
    }

    pub fn both_for_ever() -> Automaton {
        let text = "HOA: v1 States: 1 Start: 0 AP: 2 \"a\" \"b\" Acceptance: 2 Inf(0)&Inf(1) --BODY-- \
                    State: 0 [!0&!1] 0 [0&!1] 0 {0} [!0&1] 0 {1} [0&1] 0 {0 1} --END--";
        hoa::read(text.as_bytes()).unwrap()
    }

    /// A satisfying assignment, found by trying values and following clauses with one literal.
    /// Index 0 is not used.
    pub fn solve(variables: usize, clauses: &[Vec<i32>]) -> Option<Vec<bool>> {
        let mut values = vec![None; variables + 1];
        if !solve_from(clauses, &mut values) {
            return None;
        }
        Some(values.into_iter().map(|value| value == Some(true)).collect())
    }

    fn solve_from(clauses: &[Vec<i32>], values: &mut Vec<Option<bool>>) -> bool {
        let before = values.clone();
        if !follow(clauses, values) {
            *values = before;
            return false;
        }
        let Some(open) = (1..values.len()).find(|&variable| values[variable].is_none()) else {
            return true;
        };
        for choice in [true, false] {
            values[open] = Some(choice);
            if solve_from(clauses, values) {
                return true;
            }
        }
        *values = before;
        false
    }

    /// Sets what clauses force; false where a clause fails.
    fn follow(clauses: &[Vec<i32>], values: &mut [Option<bool>]) -> bool {
        loop {
            let mut changed = false;
            for clause in clauses {
                let holds = |&&literal: &&i32| values[literal.unsigned_abs() as usize] == Some(literal > 0);
                if clause.iter().any(|literal| holds(&literal)) {
                    continue;
                }
                let mut open = clause.iter().filter(|literal| values[literal.unsigned_abs() as usize].is_none());
                match (open.next(), open.next()) {
                    (None, _) => return false,
                    (Some(&forced), None) => {
                        values[forced.unsigned_abs() as usize] = Some(forced > 0);
                        changed = true;
                    }
                    _ => {}
                }
            }
            if !changed {
                return true;
            }
        }
    }

    pub fn satisfies(values: &[bool], clauses: &[Vec<i32>]) -> bool {
        clauses
            .iter()
            .all(|clause| clause.iter().any(|literal| values[literal.unsigned_abs() as usize] == (*literal > 0)))
    }

    /// The counts of the header, which the list has, and whether it can be satisfied. Where the reference
    /// is one component both lists are the same.
    fn deck(reference: &Automaton, n: usize, m: usize) -> (usize, u64, bool) {
        let of = Candidates::with_inf_of_all(n, m);
        assert_eq!(printed(reference, of, List::Second), printed(reference, of, List::First));
        deck_of(reference, of, List::Second)
    }

    fn deck_of(reference: &Automaton, of: Candidates, named: List) -> (usize, u64, bool) {
        let file = File::new(reference, of, named);
        let clauses = list(&file);
        assert_eq!(clauses.len() as u64, file.clauses());
        (file.variables(), file.clauses(), solve(file.variables(), &clauses).is_some())
    }

    fn printed(reference: &Automaton, of: Candidates, named: List) -> String {
        let mut printed = Vec::new();
        File::new(reference, of, named).print(&mut printed).unwrap();
        String::from_utf8(printed).unwrap()
    }

    #[test]
    fn first_known_deck() {
        let text = "HOA: v1 States: 1 Start: 0 Acceptance: 1 Inf(0) --BODY-- State: 0 [t] 0 --END--";
        let reference = hoa::read(text.as_bytes()).unwrap();
        let lines = "p cnf 3 6\n1 0\n2 0\n-2 -1 2 0\n-2 -1 2 0\n-3 -1 3 0\n-2 -1 0\n";
        assert_eq!(printed(&reference, Candidates::with_inf_of_all(1, 0), List::First), lines);
        // "Unsatisfiable."
        assert_eq!(deck(&reference, 1, 0), (3, 6, false));
    }

    #[test]
    fn second_known_deck() {
        // "Acceptance `0 t`, one state, k = 0, n = 1, m = 0: 2 variables, 4 clauses, satisfiable."
        let text = "HOA: v1 States: 1 Start: 0 Acceptance: 0 t --BODY-- State: 0 [t] 0 --END--";
        let reference = hoa::read(text.as_bytes()).unwrap();
        assert_eq!(deck(&reference, 1, 0), (2, 4, true));
    }

    #[test]
    fn both_for_ever_at_three_sizes() {
        // "(1,1): 16 variables, 103 clauses, none. (2,1): 64, 657, some. (1,2): 28, 391, some."
        assert_eq!(deck(&both_for_ever(), 1, 1), (16, 103, false));
        assert_eq!(deck(&both_for_ever(), 2, 1), (64, 657, true));
        assert_eq!(deck(&both_for_ever(), 1, 2), (28, 391, true));
    }

    #[test]
    fn largest_sizes() {
        // Most clauses where every transition of the reference carries all its sets.
        let row = vec![Transition { to: 0, marks: 15 }; 16];
        let names = (b'a'..b'e').map(|name| vec![name]).collect();
        let reference = Automaton { start: 0, sets: 4, acceptance: inf_of_all(4), names, table: vec![row; 16] };
        let of = Candidates::with_inf_of_all(8, 4);
        assert_eq!(File::new(&reference, of, List::First).clauses(), 8_635_826_305);
        // All states are lone, and only state 0 has transitions to its own component: 512·16·4,096 clauses of
        // group 3, and 64·16·16·175 of group 4, since 175 of the 256 unions of two sets are not all four.
        let second = 128 + 16_385 + 33_554_432 + 2_867_200;
        assert_eq!(File::new(&reference, of, List::Second).clauses(), second);
        // And more where the two acceptances agree on nothing: then group 4 has all of its
        // nnrL·2^m·2^s·2^m clauses. 128 + 16,385 + 8,589,934,592 + 67,108,864.
        let never = Automaton { acceptance: 0, ..reference };
        let of = Candidates { acceptance: u16::MAX, ..of };
        assert_eq!(File::new(&never, of, List::First).clauses(), 8_657_059_969);
    }

    /// Components, some of them lone states, or one that is the whole.
    fn any_reference(random: &mut Random, states: usize, k: usize, sets: usize) -> Automaton {
        let any = any_automaton(random, states, k, sets);
        match random.below(4) {
            0 => any,
            1 => with_layered_copies(random, &any, states + 1),
            _ => layered(random, &any),
        }
    }

    /// For each two states whether both lie in one component, by ways from each to the other; in the first
    /// list any two do.
    fn sharing(reference: &Automaton, named: List) -> Vec<Vec<bool>> {
        let reaches = reaches(&reference.destinations());
        let states = 0..reference.states();
        let share = |u: usize, v: usize| named == List::First || (reaches[u][v] && reaches[v][u]);
        states.clone().map(|u| states.clone().map(|v| share(u, v)).collect()).collect()
    }

    /// Group 3 counted in another way: for each state the transitions within its component, as often as
    /// this has states.
    fn third_by_sizes(reference: &Automaton, of: Candidates, named: List) -> u64 {
        let share = sharing(reference, named);
        let size = |v: usize| share[v].iter().filter(|&&there| there).count();
        let within = |v: usize| reference.table[v].iter().filter(|edge| share[v][edge.to]).count();
        let kept: usize = (0..reference.states()).map(|v| size(v) * within(v)).sum();
        ((of.n * of.n * of.n * kept) as u64) * 4u64.pow(of.m as u32) * (1 << reference.sets)
    }

    /// Group 4 counted in another way: of all pairs of sets I, K there are 3^x with I∪K = X, where X
    /// has x sets.
    fn fourth_by_unions(reference: &Automaton, of: Candidates, named: List) -> u64 {
        let share = sharing(reference, named);
        let mut kept = 0;
        for (v, row) in reference.table.iter().enumerate() {
            for edge in row.iter().filter(|edge| share[v][edge.to]) {
                for union in 0..1usize << of.m {
                    let taken = of.acceptance >> union & 1 == 1;
                    let joined = (0..1u8 << reference.sets).map(|j| j | edge.marks);
                    let disagree = joined.filter(|&marks| reference.takes(marks) != taken).count() as u64;
                    kept += 3u64.pow(union.count_ones()) * disagree;
                }
            }
        }
        (of.n * of.n) as u64 * kept
    }

    #[test]
    fn groups_counted_in_another_way() {
        let mut random = Random::new(19);
        let mut fewer = 0;
        for round in 0..300 {
            let (states, k, sets) = (random.within(1, 3), random.within(0, 2), random.within(0, 4));
            let reference = any_reference(&mut random, states, k, sets);
            let (n, m) = (random.within(1, 2), random.within(0, 2));
            let of = Candidates { n, m, acceptance: random_acceptance(&mut random, m) };
            let named = LISTS[round % 2];
            let file = File::new(&reference, of, named);
            let fourth = fourth_by_unions(&reference, of, named);
            let last = |clauses: Vec<Vec<i32>>| clauses[clauses.len() - fourth as usize..].to_vec();
            assert_eq!(file.third_group(), third_by_sizes(&reference, of, named));
            assert_eq!(file.fourth_group(), fourth);
            fewer += (file.clauses() < File::new(&reference, of, List::First).clauses()) as usize;
            if sets + m < 5 {
                // The list ends with just so many clauses without a positive path.
                let clauses = list(&file);
                assert_eq!(clauses.len() as u64, file.clauses());
                assert!(last(clauses).iter().all(|clause| clause.len() == 2 + m));
            }
        }
        assert!((50..150).contains(&fewer), "{fewer} of 150");
    }

    #[test]
    fn fourth_group_by_hand() {
        // "a infinitely often", one state and one set, F = {0} by letter 1 only. Of the four I, K three have
        // the union {0}. J∪F is {} once and {0} three times, so Fin(0) disagrees on 1 + 3 + 3 + 3 and Inf(0)
        // on 3 + 1 + 1 + 1.
        let text = "HOA: v1 States: 1 Start: 0 AP: 1 \"a\" Acceptance: 1 Inf(0) --BODY-- State: 0 0 0 {0} --END--";
        let reference = hoa::read(text.as_bytes()).unwrap();
        let of = |acceptance: u16| Candidates { n: 1, m: 1, acceptance };
        let groups = |acceptance: u16| File::new(&reference, of(acceptance), List::First).fourth_group();
        assert_eq!([0b01, 0b10, 0b11, 0b00].map(groups), [10, 6, 4, 12]);
        // V = 2 steps, 2 marks, 4 paths. C = 2 + (1 + 2) + 2·2·2·2 + the fourth.
        let deck = |acceptance: u16| deck_of(&reference, of(acceptance), List::First);
        assert_eq!(deck(0b01), (8, 31, false));
        assert_eq!(deck(0b10), (8, 27, true));
        // "finitely often a" the other way round.
        let finitely = Automaton { acceptance: 0b01, ..reference.clone() };
        assert_eq!(deck_of(&finitely, of(0b01), List::First), (8, 27, true));
        assert_eq!(deck_of(&finitely, of(0b10), List::First), (8, 31, false));
    }

    /// What is printed, its lines joined.
    fn joined(reference: &Automaton, of: Candidates, named: List) -> String {
        printed(reference, of, named).lines().collect::<Vec<&str>>().join(", ")
    }

    #[test]
    fn one_way_by_hand() {
        // State 0 leads to 1, and 1 to itself; the set is never met. With one state and no set the step is 1,
        // and the paths are (0,0,{}), (0,0,{0}), (1,1,{}), (1,1,{0}), numbered 2 to 5.
        let text = "HOA: v1 States: 2 Start: 0 Acceptance: 1 Inf(0) --BODY-- State: 0 1 State: 1 1 --END--";
        let reference = hoa::read(text.as_bytes()).unwrap();
        let of = Candidates::with_inf_of_all(1, 0);
        // Groups 1 and 2; of group 3 only u = v = 1, J first {} and then {0}; of group 4 only v = 1, J = {}.
        let second = "p cnf 5 7, 1 0, 2 0, -2 -1 4 0, -4 -1 4 0, -4 -1 4 0, -5 -1 5 0, -4 -1 0";
        assert_eq!(joined(&reference, of, List::Second), second);
        // The first list has the paths from 0 to 1 and from 1 to 0 too: 2 and 3, 4 and 5, 6 and 7, 8 and 9.
        let first = "p cnf 9 14, 1 0, 2 0, -2 -1 8 0, -8 -1 8 0, \
                     -2 -1 4 0, -3 -1 5 0, -4 -1 4 0, -5 -1 5 0, -6 -1 8 0, -7 -1 9 0, -8 -1 8 0, -9 -1 9 0, \
                     -6 -1 0, -8 -1 0";
        assert_eq!(joined(&reference, of, List::First), first);
    }

    #[test]
    fn two_states_and_a_lone_one_by_hand() {
        // 0 leads to 1 by letter 0 and leaves for 2 by letter 1; 1 leads to 0, meeting the set, and to itself; 2
        // stays. One state and no set: steps 1 and 2, then for J = {} and {0} the paths from 0 to 0 and 1 (3 to
        // 6), from 1 to 0 and 1 (7 to 10), from 2 to 2 (11 and 12).
        let text = "HOA: v1 States: 3 Start: 0 AP: 1 \"a\" Acceptance: 1 Inf(0) --BODY-- \
                    State: 0 1 2 State: 1 0 {0} 1 State: 2 2 2 --END--";
        let reference = hoa::read(text.as_bytes()).unwrap();
        // Group 3 by u: 0 with v = 0 and letter 0, with v = 1 and both letters; 1 the same; 2 with v = 2. Group 4
        // where J and the marks are {} together: v = 0 by letter 0 only, v = 1 by letter 1, v = 2.
        let second = "p cnf 12 29, 1 0, 2 0, \
                      3 0, -3 -1 9 0, -3 -2 11 0, -9 -1 3 0, -9 -2 9 0, -11 -1 11 0, -11 -2 11 0, \
                      -3 -1 5 0, -4 -1 6 0, -5 -1 4 0, -6 -1 4 0, -5 -2 5 0, -6 -2 6 0, \
                      -7 -1 9 0, -8 -1 10 0, -9 -1 8 0, -10 -1 8 0, -9 -2 9 0, -10 -2 10 0, \
                      -11 -1 11 0, -12 -1 12 0, -11 -2 11 0, -12 -2 12 0, \
                      -7 -1 0, -9 -2 0, -11 -1 0, -11 -2 0";
        let of = Candidates::with_inf_of_all(1, 0);
        assert_eq!(joined(&reference, of, List::Second), second);
        // Nine pairs of states: 2 + 9·2 variables, and 2 + 7 + 9·2·2 + 5 clauses.
        assert!(joined(&reference, of, List::First).starts_with("p cnf 20 50, "));
    }

    /// The second list from the first: the clauses that name a path between states that share no component are
    /// dropped, and the numbers close up. V, and the clauses.
    fn by_dropping(reference: &Automaton, of: Candidates) -> (usize, Vec<Vec<i32>>) {
        let first = File::new(reference, of, List::First);
        let share = sharing(reference, List::Second);
        let (r, before) = (reference.states(), of.n * of.n * reference.letters() * (1 + of.m));
        let there = |variable: usize| {
            let ends = variable.saturating_sub(before + 1) >> (of.m + reference.sets);
            variable <= before || share[ends / r / of.n % r][ends % r]
        };
        let mut closed_up = vec![0; first.variables() + 1];
        let mut last = 0;
        for variable in (1..=first.variables()).filter(|&variable| there(variable)) {
            last += 1;
            closed_up[variable] = last;
        }
        let mut clauses = list(&first);
        clauses.retain(|clause| clause.iter().all(|literal| there(literal.unsigned_abs() as usize)));
        for literal in clauses.iter_mut().flatten() {
            *literal = literal.signum() * closed_up[literal.unsigned_abs() as usize];
        }
        (last as usize, clauses)
    }

    #[test]
    fn second_list_from_the_first() {
        let mut random = Random::new(43);
        let mut dropped = 0;
        for _ in 0..200 {
            let (states, k, sets) = (random.within(1, 5), random.within(0, 2), random.within(0, 2));
            let reference = any_reference(&mut random, states, k, sets);
            let (n, m) = (random.within(1, 2), random.within(0, 1));
            let of = Candidates { n, m, acceptance: random_acceptance(&mut random, m) };
            let file = File::new(&reference, of, List::Second);
            let due = by_dropping(&reference, of);
            assert_eq!((file.variables(), list(&file)), due, "{reference:?}");
            dropped += (file.clauses() < File::new(&reference, of, List::First).clauses()) as usize;
        }
        assert!((80..180).contains(&dropped), "{dropped} of 200");
    }

    #[test]
    fn lists_can_be_satisfied_just_where_a_table_agrees() {
        let mut random = Random::new(3);
        let mut count = [[0, 0]; 4];
        for round in 0..240 {
            let states = random.within(2, 3);
            let reference = any_reference(&mut random, states, 1, 1);
            let acceptance = round % 4;
            let some = one_state_tables(&reference, acceptance).iter().any(|table| same(table, &reference));
            for named in LISTS {
                assert_eq!(deck_of(&reference, Candidates { n: 1, m: 1, acceptance }, named).2, some);
            }
            count[acceptance as usize][some as usize] += 1;
        }
        assert!(count.iter().flatten().all(|&times| times > 3), "{count:?}");
    }

    /// All tables with one state, one set and this acceptance, for one proposition.
    fn one_state_tables(reference: &Automaton, acceptance: u16) -> Vec<Automaton> {
        let table = |marks: u8| {
            let row = (0..2).map(|l| Transition { to: 0, marks: marks >> l & 1 }).collect();
            Automaton { start: 0, sets: 1, acceptance, names: reference.names.clone(), table: vec![row] }
        };
        (0..4).map(table).collect()
    }

    fn same(first: &Automaton, second: &Automaton) -> bool {
        compare(first, second) == Ok(Comparison::Same)
    }

    #[test]
    fn closure_of_a_table_satisfies_just_where_it_agrees() {
        let mut random = Random::new(7);
        let mut count = [0, 0];
        for _ in 0..200 {
            let (sets, own) = (random.within(0, 2), random.within(0, 2));
            let reference = any_reference(&mut random, 2, 1, sets);
            let table = any_automaton(&mut random, 2, 1, own);
            let table = Automaton { start: 0, ..table };
            let agrees = same(&table, &reference);
            for named in LISTS {
                let values = closure(&reference, &table, named);
                let of = Candidates { n: 2, m: own, acceptance: table.acceptance };
                assert_eq!(satisfies(&values, &list(&File::new(&reference, of, named))), agrees);
            }
            count[agrees as usize] += 1;
        }
        assert!(count[0] > 20 && count[1] > 20, "{count:?}");
    }
}
