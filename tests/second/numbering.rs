//! The variables of a clause file, and their numbers.

use crate::automaton::*;
use crate::components::components;

/// The sizes that number the variables: n, m of the candidate, r, s of the reference, L; and which
/// paths there are.
#[derive(Clone, Debug)]
pub struct Numbering {
    pub n: usize,
    pub m: usize,
    pub r: usize,
    pub s: usize,
    pub letters: usize,
    /// For each reference state its component. In the first list all states count as one.
    component: Vec<usize>,
    /// For each q, u, p, v, the last fastest, how many of those before it have paths; none where it has
    /// none itself.
    ends: Vec<Option<usize>>,
    /// How many q, u, p, v have paths.
    kept: usize,
}

impl Numbering {
    pub fn new(reference: &Automaton, n: usize, m: usize, list: List) -> Numbering {
        let r = reference.states();
        let component = match list {
            List::First => vec![0; r],
            List::Second => components(&reference.destinations()),
        };
        let (s, letters) = (reference.sets, reference.letters());
        let mut number = Numbering { n, m, r, s, letters, component, ends: Vec::new(), kept: 0 };
        number.count_ends();
        number
    }

    /// "Absent path variables are skipped and the numbers close up." (document 02, E6)
    fn count_ends(&mut self) {
        for (_, u) in pairs(self.n, self.r) {
            for (_, v) in pairs(self.n, self.r) {
                let there = self.share(u, v);
                self.ends.push(there.then_some(self.kept));
                self.kept += there as usize;
            }
        }
    }

    /// "path variables only where both reference states lie in one strongly connected component": whether
    /// the two do.
    pub fn share(&self, u: usize, v: usize) -> bool {
        self.component[u] == self.component[v]
    }

    /// "step(q,l,p): 1 + (qL + l)n + p."
    pub fn step(&self, q: usize, l: usize, p: usize) -> usize {
        1 + (q * self.letters + l) * self.n + p
    }

    pub fn steps(&self) -> usize {
        self.n * self.n * self.letters
    }

    /// "mark(q,l,i,p): after the nnL steps, 1 + ((qL + l)m + i)n + p."
    pub fn mark(&self, q: usize, l: usize, i: usize, p: usize) -> usize {
        self.steps() + 1 + ((q * self.letters + l) * self.m + i) * self.n + p
    }

    /// The last variable that is a step or a mark.
    pub fn steps_and_marks(&self) -> usize {
        self.steps() + self.steps() * self.m
    }

    /// "path(q,u,p,v,I,J): after those nnLm marks, 1 + ((((qr + u)n + p)r + v)2^m + I)2^s + J.", where of
    /// the (q,u,p,v) only those count that have paths.
    pub fn path(&self, (q, u): (usize, usize), (p, v): (usize, usize), i: usize, j: usize) -> usize {
        let ends = self.ends[((q * self.r + u) * self.n + p) * self.r + v];
        let ends = ends.expect("a path's two reference states share a component");
        self.steps_and_marks() + 1 + ((((ends << self.m) + i) << self.s) + j)
    }

    /// V, the last variable.
    pub fn variables(&self) -> usize {
        self.steps_and_marks() + (self.kept << (self.m + self.s))
    }
}

/// All (a, b) with a below `first` and b below `second`, b faster.
pub fn pairs(first: usize, second: usize) -> impl Iterator<Item = (usize, usize)> {
    (0..first).flat_map(move |a| (0..second).map(move |b| (a, b)))
}

#[cfg(test)]
pub mod tests {
    use super::*;
    use crate::components::tests::reaches;
    use crate::generate::{any_automaton, layered, Random};

    /// A reference with these destinations, and so many sets.
    pub fn leading(destinations: &[&[usize]], sets: usize) -> Automaton {
        let row = |to: &&[usize]| to.iter().map(|&to| Transition { to, marks: 0 }).collect();
        let names = (0..destinations[0].len().ilog2()).map(|i| vec![b'a' + i as u8]).collect();
        let table = destinations.iter().map(row).collect();
        Automaton { start: 0, sets, acceptance: inf_of_all(sets), names, table }
    }

    #[test]
    fn largest_sizes() {
        // "Largest sizes: V = 4,199,424."
        let ring: Vec<Vec<usize>> = (0..16).map(|u| vec![(u + 1) % 16; 16]).collect();
        let ring: Vec<&[usize]> = ring.iter().map(Vec::as_slice).collect();
        for list in [List::First, List::Second] {
            let largest = Numbering::new(&leading(&ring, 4), 8, 4, list);
            assert_eq!(largest.variables(), 4_199_424);
            assert_eq!(largest.path((7, 15), (7, 15), 15, 15), 4_199_424);
        }
        // Where no state leads back there are 8·8·16 q, u, p, v with u = v: 1,024 steps, 4,096 marks and
        // 1,024·256 paths.
        let chain: Vec<Vec<usize>> = (0..16).map(|u| vec![15.min(u + 1); 16]).collect();
        let chain: Vec<&[usize]> = chain.iter().map(Vec::as_slice).collect();
        let largest = Numbering::new(&leading(&chain, 4), 8, 4, List::Second);
        assert_eq!(largest.variables(), 267_264);
        assert_eq!(largest.path((7, 15), (7, 15), 15, 15), 267_264);
        assert_eq!(Numbering::new(&leading(&chain, 4), 8, 4, List::First).variables(), 4_199_424);
    }

    /// The first list's numbers as document 01 has them.
    #[test]
    fn first_list_by_its_formula() {
        let mut random = Random::new(17);
        for _ in 0..100 {
            let (r, k, s) = (random.within(1, 5), random.within(0, 2), random.within(0, 3));
            let (n, m) = (random.within(1, 4), random.within(0, 3));
            let number = Numbering::new(&any_automaton(&mut random, r, k, s), n, m, List::First);
            let before = n * n * (1 << k) * (1 + m);
            for (q, u) in pairs(n, r) {
                for (p, v) in pairs(n, r) {
                    let (i, j) = (random.below(1 << m), random.below(1 << s));
                    let path = before + 1 + ((((q * r + u) * n + p) * r + v) * (1 << m) + i) * (1 << s) + j;
                    assert_eq!(number.path((q, u), (p, v), i, j), path);
                }
            }
            assert_eq!(number.variables(), before + n * r * n * r * (1 << m) * (1 << s));
        }
    }

    #[test]
    fn second_list_by_hand() {
        // Components {0, 2} and {1, 3}, and a way from the one to the other. One state, no sets, so steps
        // 1 and 2, and then the paths from 0 to 0 and 2, from 1 to 1 and 3, from 2 to 0 and 2, from 3.
        let reference = leading(&[&[2, 1], &[3, 3], &[0, 0], &[1, 1]], 0);
        let number = Numbering::new(&reference, 1, 0, List::Second);
        let path = |u: usize, v: usize| number.path((0, u), (0, v), 0, 0);
        let there = [(0, 0), (0, 2), (1, 1), (1, 3), (2, 0), (2, 2), (3, 1), (3, 3)];
        assert_eq!(there.map(|(u, v)| path(u, v)), [3, 4, 5, 6, 7, 8, 9, 10]);
        assert_eq!(number.variables(), 10);
        // Two states: steps 1 to 8; from (0,0) to (0,0), (0,2), (1,0), (1,2), then from (0,1) to (0,1), ..
        let number = Numbering::new(&reference, 2, 0, List::Second);
        let first = [((0, 0), (0, 0)), ((0, 0), (0, 2)), ((0, 0), (1, 0)), ((0, 0), (1, 2)), ((0, 1), (0, 1))];
        assert_eq!(first.map(|(from, to)| number.path(from, to, 0, 0)), [9, 10, 11, 12, 13]);
        assert_eq!(number.path((0, 3), (1, 3), 0, 0), 24);
        assert_eq!(number.path((1, 0), (0, 0), 0, 0), 25);
        assert_eq!(number.path((1, 3), (1, 3), 0, 0), 40);
        assert_eq!(number.variables(), 40);
    }

    #[test]
    fn a_lone_state_has_its_own_paths() {
        // 0 leads to 1 only, and nothing leads to 2. One step, one mark, and four paths for each state.
        let reference = leading(&[&[1], &[1], &[0]], 1);
        let number = Numbering::new(&reference, 1, 1, List::Second);
        let own = |u: usize, i: usize, j: usize| number.path((0, u), (0, u), i, j);
        assert_eq!([own(0, 0, 0), own(0, 0, 1), own(0, 1, 0), own(0, 1, 1)], [3, 4, 5, 6]);
        assert_eq!([own(1, 0, 0), own(1, 1, 1), own(2, 0, 0), own(2, 1, 1)], [7, 10, 11, 14]);
        assert_eq!(number.variables(), 14);
        assert!(!number.share(0, 1) && !number.share(2, 0));
    }

    /// The numbers are those from 1 to V, in the order in which the document names the variables.
    #[test]
    fn numbers_follow_one_another() {
        let mut random = Random::new(18);
        let mut fewer = 0;
        for round in 0..40 {
            let reference = any_automaton(&mut random, 3, 1, 1);
            let reference = layered(&mut random, &reference);
            let list = [List::First, List::Second][round % 2];
            let number = Numbering::new(&reference, 2, 1, list);
            let reaches = reaches(&reference.destinations());
            let there = |u: usize, v: usize| list == List::First || (reaches[u][v] && reaches[v][u]);
            let mut numbers = Vec::new();
            for (q, l) in pairs(2, 2) {
                numbers.extend((0..2).map(|p| number.step(q, l, p)));
            }
            for (q, l) in pairs(2, 2) {
                numbers.extend((0..2).map(|p| number.mark(q, l, 0, p)));
            }
            for (first, last) in pairs(6, 6).filter(|(first, last)| there(first % 3, last % 3)) {
                for (i, j) in pairs(2, 2) {
                    numbers.push(number.path((first / 3, first % 3), (last / 3, last % 3), i, j));
                }
            }
            assert_eq!(numbers, (1..=number.variables()).collect::<Vec<usize>>());
            fewer += (number.variables() < 16 + 144) as usize;
        }
        assert!((5..20).contains(&fewer), "{fewer} of 20");
    }
}
