//! The comparison of two automata, by strongly connected components of their product.
//!
//! Two automata differ if and only if there are a set of marks of the one and a set of marks of the
//! other, of which exactly one is taken, such that the product with only those transitions that
//! carry no other marks has a strongly connected component, reachable in the whole product, whose
//! transitions carry just these marks together: a run that stays there and takes all its
//! transitions again and again meets just these sets infinitely often.

use crate::automaton::*;
use crate::components::components;
use crate::product::{Edge, Product};
use crate::word::{first_word, Word};

#[derive(Clone, PartialEq, Eq, Debug)]
pub enum Comparison {
    Same,
    Differ(Word),
}

/// "Two automata agree on a word if both accept it or neither does." 14 if they have not the
/// same number of propositions. Whether they differ is told by components; the word is looked
/// for by itself.
pub fn compare(first: &Automaton, second: &Automaton) -> Result<Comparison, Refusal> {
    if first.propositions() != second.propositions() {
        return Err(Refusal::new(14, first.propositions() as u64, second.propositions() as u64));
    }
    let product = Product::new(first, second);
    let reached = product.reached();
    if !product.differing.iter().any(|&marks| some_loop_meets(&product, &reached, marks)) {
        return Ok(Comparison::Same);
    }
    let word = first_word(&product).expect("two automata that differ have a word that shows it");
    assert_ne!(first.accepts(&word.prefix, &word.cycle), second.accepts(&word.prefix, &word.cycle));
    Ok(Comparison::Differ(word))
}

/// Whether a reached component has transitions that carry just these marks together.
fn some_loop_meets(product: &Product, reached: &[bool], marks: [u8; 2]) -> bool {
    let allowed = |edge: &Edge| edge.marks[0] & !marks[0] == 0 && edge.marks[1] & !marks[1] == 0;
    let destinations = |edges: &Vec<Edge>| edges.iter().filter(|edge| allowed(edge)).map(|edge| edge.to).collect();
    let component = components(&product.edges.iter().map(destinations).collect::<Vec<_>>());
    // The marks that each component carries; none where it has no transition.
    let mut carried: Vec<Option<[u8; 2]>> = vec![None; product.edges.len()];
    for (pair, edges) in product.edges.iter().enumerate().filter(|(pair, _)| reached[*pair]) {
        let here = component[pair];
        for edge in edges.iter().filter(|edge| allowed(edge) && component[edge.to] == here) {
            let before = carried[here].unwrap_or([0, 0]);
            carried[here] = Some([before[0] | edge.marks[0], before[1] | edge.marks[1]]);
        }
    }
    carried.contains(&Some(marks))
}

#[cfg(test)]
mod tests {
    use super::*;
    use crate::generate::{any_automaton, in_other_words, nearly, with_copies, Random};
    use crate::generate_formula::full;

    fn automaton(sets: usize, k: usize, rows: &[&[(usize, u8)]]) -> Automaton {
        let names = (0..k).map(|i| vec![b'a' + i as u8]).collect();
        let row = |row: &&[(usize, u8)]| row.iter().map(|&(to, marks)| Transition { to, marks }).collect();
        Automaton { start: 0, sets, acceptance: inf_of_all(sets), names, table: rows.iter().map(row).collect() }
    }

    /// What is wrong with a word, if anything: "With N the product of the two state counts, prefix
    /// <= N - 1", "The loop bound becomes (the sum of both set counts + 1)N" (document 02, E3), and
    /// exactly one of the two accepts it.
    fn fault(first: &Automaton, second: &Automaton, word: &Word) -> Option<String> {
        let (pairs, sets) = (first.states() * second.states(), first.sets + second.sets);
        let (prefix, cycle) = (word.prefix.len(), word.cycle.len());
        if prefix > pairs - 1 || cycle < 1 || cycle > (sets + 1) * pairs {
            return Some(format!("the prefix has {prefix} letters, the loop {cycle}"));
        }
        let accepted = first.accepts(&word.prefix, &word.cycle);
        if accepted == second.accepts(&word.prefix, &word.cycle) {
            return Some(format!("{} accept the word", if accepted { "both" } else { "none of the two" }));
        }
        None
    }

    fn differ(first: &Automaton, second: &Automaton) -> bool {
        match compare(first, second).unwrap() {
            Comparison::Same => false,
            Comparison::Differ(word) => {
                assert_eq!(fault(first, second, &word), None);
                true
            }
        }
    }

    #[test]
    fn two_rejecting_loops_can_accept_together() {
        // "Comparing simple cycles only: two rejecting loops through one state can accept together."
        let both = automaton(2, 1, &[&[(0, 1), (0, 2)]]);
        let never = automaton(1, 1, &[&[(0, 0), (0, 0)]]);
        assert!(differ(&both, &never));
        assert!(differ(&never, &both));
        assert!(!differ(&both, &both));
    }

    #[test]
    fn zero_sets_are_all_words() {
        let all = automaton(0, 0, &[&[(0, 0)]]);
        let always = automaton(1, 0, &[&[(1, 0)], &[(1, 1)]]);
        let never = automaton(1, 0, &[&[(1, 1)], &[(1, 0)]]);
        assert!(!differ(&all, &always));
        assert!(differ(&all, &never));
    }

    #[test]
    fn different_letters_are_refused() {
        let none = automaton(0, 0, &[&[(0, 0)]]);
        let one = automaton(0, 1, &[&[(0, 0), (0, 0)]]);
        assert_eq!(compare(&none, &one), Err(Refusal::new(14, 0, 1)));
        assert_eq!(compare(&one, &none), Err(Refusal::new(14, 1, 0)));
    }

    /// All lasso words with the two lengths at most `most`.
    fn some_short_word_differs(first: &Automaton, second: &Automaton, most: usize) -> bool {
        let words = |most: usize| {
            let mut all: Vec<Vec<u8>> = vec![vec![]];
            for length in 0..most {
                let longest: Vec<Vec<u8>> = all.iter().filter(|word| word.len() == length).cloned().collect();
                for word in longest {
                    all.extend((0..first.letters() as u8).map(|letter| [&word[..], &[letter]].concat()));
                }
            }
            all
        };
        let all = words(most);
        all.iter().any(|prefix| {
            all.iter()
                .filter(|cycle| !cycle.is_empty())
                .any(|cycle| first.accepts(prefix, cycle) != second.accepts(prefix, cycle))
        })
    }

    /// Two automata that are the same or nearly so, or any two.
    fn two(random: &mut Random, states: usize, k: usize, sets: usize) -> (Automaton, Automaton) {
        let first = any_automaton(random, states, k, sets);
        if random.one_in(4) {
            let other = any_automaton(random, states, k, sets);
            return (first, other);
        }
        let (copied, _) = with_copies(random, &first, states + 1);
        let other_sets = in_other_words(random, &copied, sets + 1);
        let second = nearly(random, &other_sets);
        (first, second)
    }

    #[test]
    fn agrees_with_all_short_words() {
        // Two states and one state, at most one set: prefix at most 1, loop at most 6.
        let mut random = Random::new(11);
        let mut count = [0, 0];
        for _ in 0..300 {
            let first = any_automaton(&mut random, 2, 1, 1);
            let second = any_automaton(&mut random, 1, 1, 1);
            let expected = some_short_word_differs(&first, &second, 6);
            assert_eq!(differ(&first, &second), expected, "{first:?} {second:?}");
            count[expected as usize] += 1;
        }
        assert!(count[0] > 20 && count[1] > 20, "{count:?}");
    }

    /// Another way to decide it: whether some closed walk from a reached pair is accepted by just
    /// one of the two, over triples of pair and marks met in each.
    fn some_closed_walk_differs(first: &Automaton, second: &Automaton) -> bool {
        let product = Product::new(first, second);
        let reached = product.reached();
        (0..reached.len()).filter(|&start| reached[start]).any(|start| {
            let mut seen = std::collections::HashSet::new();
            let mut open = vec![(start, [0, 0])];
            while let Some((state, met)) = open.pop() {
                for edge in &product.edges[state] {
                    let met = [met[0] | edge.marks[0], met[1] | edge.marks[1]];
                    if edge.to == start && first.takes(met[0]) != second.takes(met[1]) {
                        return true;
                    }
                    if seen.insert((edge.to, met)) {
                        open.push((edge.to, met));
                    }
                }
            }
            false
        })
    }

    #[test]
    fn agrees_with_closed_walks() {
        let mut random = Random::new(13);
        let mut count = [0, 0];
        for _ in 0..800 {
            let (k, sets, states) = (random.within(0, 2), random.within(0, 3), random.within(1, 4));
            let (first, second) = two(&mut random, states, k, sets);
            let expected = some_closed_walk_differs(&first, &second);
            assert_eq!(differ(&first, &second), expected, "{first:?} {second:?}");
            count[expected as usize] += 1;
        }
        assert!(count[0] > 100 && count[1] > 100, "{count:?}");
    }

    #[test]
    fn words_of_large_products_stay_within_the_bounds() {
        let mut random = Random::new(5);
        for _ in 0..40 {
            let first = any_automaton(&mut random, 16, 2, 4);
            let second = any_automaton(&mut random, 16, 2, 4);
            differ(&first, &second);
        }
    }

    fn with(acceptance: u16, given: &Automaton) -> Automaton {
        Automaton { acceptance, ..given.clone() }
    }

    fn shown(first: &Automaton, second: &Automaton) -> (Vec<u8>, Vec<u8>) {
        match compare(first, second) {
            Ok(Comparison::Differ(word)) => (word.prefix, word.cycle),
            other => panic!("{other:?}"),
        }
    }

    #[test]
    fn complements_differ_on_every_word() {
        let mut random = Random::new(23);
        for _ in 0..100 {
            let sets = random.within(0, 4);
            let first = any_automaton(&mut random, 3, 1, sets);
            let second = with(first.acceptance ^ full(sets), &first);
            assert!(differ(&first, &second));
            let word: Vec<u8> = (0..8).map(|_| random.below(2) as u8).collect();
            assert_ne!(first.accepts(&word[..4], &word[4..]), second.accepts(&word[..4], &word[4..]));
        }
    }

    #[test]
    fn fin_beside_inf() {
        // "always a": the first state is left for ever without a. Inf of its loop, and Fin of all else.
        let inf = automaton(1, 1, &[&[(1, 0), (0, 1)], &[(1, 0), (1, 0)]]);
        let fin = with(0b01, &automaton(1, 1, &[&[(1, 1), (0, 0)], &[(1, 1), (1, 1)]]));
        assert!(!differ(&inf, &fin));
        // "a from some time on" is more than that, and Inf of its set is the opposite.
        let some_time = with(0b01, &automaton(1, 1, &[&[(0, 1), (0, 0)]]));
        assert_eq!(shown(&some_time, &inf), (vec![0], vec![1]));
        assert_eq!(shown(&some_time, &with(0b10, &some_time)), (vec![], vec![0]));
    }

    #[test]
    fn two_streett_pairs_need_two_loops_joined() {
        // One state; the letters carry sets 0, 1, 2, 3. One automaton has the pairs
        // (Fin(0)|Inf(1))&(Fin(2)|Inf(3)), the other asks that 0 and 2 be not both met besides. Where
        // they differ all four are met.
        let table = automaton(4, 2, &[&[(0, 1), (0, 2), (0, 4), (0, 8)]]);
        let streett = with(0b1101_1101_0000_1101, &table);
        let other = with(0b0101_1101_0000_1101, &table);
        assert_eq!(shown(&streett, &other), (vec![], vec![0, 1, 2, 3]));
        // Two states, each with one pair; the way between them has both first sets.
        let two = automaton(4, 1, &[&[(0, 2), (1, 5)], &[(1, 8), (0, 5)]]);
        assert_eq!(
            shown(&with(0b1101_1101_0000_1101, &two), &with(0b0101_1101_0000_1101, &two)),
            (vec![], vec![0, 1, 0, 1])
        );
    }

    #[test]
    fn a_loop_that_must_keep_off_a_set() {
        // Set 1 on the short way round: with Inf(0)&Fin(1) the loop goes the long way.
        let table = automaton(2, 1, &[&[(1, 2), (1, 0)], &[(2, 0), (0, 3)], &[(0, 1), (2, 2)]]);
        let rabin = with(0b0010, &table);
        let never = with(0, &table);
        assert_eq!(shown(&rabin, &never), (vec![], vec![1, 0, 0]));
        assert_eq!(shown(&with(0b1000, &table), &never), (vec![], vec![0, 1]));
    }
}
