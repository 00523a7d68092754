//! 12's word, as document 02 chooses it: by layers backward from where a loop must end.
//!
//! A closed walk of the product shows a difference if exactly one automaton takes the marks it has
//! met. From a pair with such marks the walk is followed backward, layer by layer: each layer has,
//! for every pair, the sets of marks met with which so many letters are left. Then the word is read
//! off letter by letter, the smallest letter that leads into the next layer.

use crate::automaton::Refusal;
use crate::product::{Edge, Product};

/// A lasso word: the prefix, then the loop for ever.
#[derive(Clone, PartialEq, Eq, Debug)]
pub struct Word {
    pub prefix: Vec<u8>,
    pub cycle: Vec<u8>,
}

impl Word {
    /// 12, prefix length, loop length.
    pub fn refusal(&self) -> Refusal {
        Refusal::new(12, self.prefix.len() as u64, self.cycle.len() as u64)
    }

    /// `prefix` and `loop`, each followed by its letters, on a line each.
    pub fn lines(&self) -> String {
        format!("prefix{}\nloop{}\n", spaced(&self.prefix), spaced(&self.cycle))
    }

    /// What words are chosen by: the smallest key is the first.
    fn key(&self) -> (usize, usize, Vec<u8>) {
        let letters = [&self.prefix[..], &self.cycle[..]].concat();
        (letters.len(), self.prefix.len(), letters)
    }
}

fn spaced(letters: &[u8]) -> String {
    letters.iter().map(|letter| format!(" {letter}")).collect()
}

/// The word with "the least prefix plus loop length of all that differ and whose loop, read once,
/// brings both automata back to where it began. Between equals the shorter prefix is given, then
/// the one whose letters, prefix first, are smaller at the first difference."
pub fn first_word(product: &Product) -> Option<Word> {
    let steps = Steps::new(product);
    let mut best: Option<Word> = None;
    for (depth, pair) in steps.pairs_by_depth() {
        let most = best.as_ref().map_or(usize::MAX, |word| word.prefix.len() + word.cycle.len());
        if depth >= most {
            break;
        }
        if let Some(cycle) = steps.first_loop(pair, most - depth) {
            let found = Word { prefix: steps.first_prefix(pair), cycle };
            if best.as_ref().map_or(true, |best| found.key() < best.key()) {
                best = Some(found);
            }
        }
    }
    best
}

/// A set of sets of marks met in both automata: one bit for each of the 256, the upper half for
/// those with set 3 of the second.
#[derive(Clone, Copy, PartialEq, Default)]
struct Met([u128; 2]);

/// Of the 128 sets of marks in one half, those that have a set.
const HAVING: [u128; 7] = having();

const fn having() -> [u128; 7] {
    let mut having = [0; 7];
    let mut place = 0;
    while place < 7 * 128 {
        let (set, marks) = (place / 128, place % 128);
        having[set] |= ((marks >> set & 1) as u128) << marks;
        place += 1;
    }
    having
}

/// The marks of both automata as one number.
fn joined(marks: [u8; 2]) -> u8 {
    marks[0] | marks[1] << 4
}

impl Met {
    fn insert(&mut self, marks: u8) {
        self.0[marks as usize >> 7] |= 1 << (marks & 127);
    }

    fn has(&self, marks: u8) -> bool {
        self.0[marks as usize >> 7] >> (marks & 127) & 1 == 1
    }

    /// Those that with these marks besides are in here.
    fn before(self, marks: u8) -> Met {
        let mut halves = self.0;
        for (set, having) in HAVING.iter().enumerate().filter(|(set, _)| marks >> set & 1 == 1) {
            halves = halves.map(|half| half & having).map(|half| half | half >> (1 << set));
        }
        if marks >> 7 & 1 == 1 {
            halves[0] = halves[1];
        }
        Met(halves)
    }

    fn joined(self, other: Met) -> Met {
        Met([self.0[0] | other.0[0], self.0[1] | other.0[1]])
    }

    fn without(self, other: Met) -> Met {
        Met([self.0[0] & !other.0[0], self.0[1] & !other.0[1]])
    }
}

/// For each pair, the marks met with which just so many letters are left: first 0, then 1, ..
type Layers = Vec<Vec<Met>>;

/// A product, and the transitions that lead to each pair.
struct Steps<'a> {
    product: &'a Product,
    before: Vec<Vec<(usize, Edge)>>,
}

impl Steps<'_> {
    fn new(product: &Product) -> Steps<'_> {
        let mut before = vec![Vec::new(); product.edges.len()];
        for (pair, edges) in product.edges.iter().enumerate() {
            for edge in edges {
                before[edge.to].push((pair, *edge));
            }
        }
        Steps { product, before }
    }

    /// The letters from each pair to this one, at least.
    fn distances(&self, pair: usize) -> Vec<Option<usize>> {
        let mut distance = vec![None; self.before.len()];
        let mut layer = vec![pair];
        for count in 0.. {
            layer.retain(|&pair| distance[pair].is_none());
            if layer.is_empty() {
                break;
            }
            layer.iter().for_each(|&pair| distance[pair] = Some(count));
            layer = layer.iter().flat_map(|&pair| self.before[pair].iter().map(|step| step.0)).collect();
        }
        distance
    }

    /// The reached pairs, each with the letters that lead there from the start, at least.
    fn pairs_by_depth(&self) -> Vec<(usize, usize)> {
        let depth = |pair: usize| self.distances(pair)[self.product.start].map(|depth| (depth, pair));
        let mut pairs: Vec<(usize, usize)> = (0..self.before.len()).filter_map(depth).collect();
        pairs.sort();
        pairs
    }

    /// The smallest of the shortest words to a pair.
    fn first_prefix(&self, pair: usize) -> Vec<u8> {
        let distance = self.distances(pair);
        let mut here = self.product.start;
        let mut word = Vec::new();
        for left in (0..distance[here].unwrap()).rev() {
            let edge = self.product.edges[here].iter().find(|edge| distance[edge.to] == Some(left)).unwrap();
            word.push(edge.letter);
            here = edge.to;
        }
        word
    }

    /// The smallest of the shortest loops at a pair that show a difference, if they have at most
    /// this many letters.
    fn first_loop(&self, pair: usize, most: usize) -> Option<Vec<u8>> {
        let layers = self.layers(pair, most);
        let first = |left: &usize| self.into_layer(&layers[*left], pair, 0).is_some();
        let least = (0..layers.len()).find(first)? + 1;
        let (mut here, mut met) = (pair, 0);
        let mut word = Vec::new();
        for left in (0..least).rev() {
            let edge = self.into_layer(&layers[left], here, met).expect("a letter leads on");
            word.push(edge.letter);
            here = edge.to;
            met |= joined(edge.marks);
        }
        Some(word)
    }

    /// The transition by the smallest letter that leads into the layer.
    fn into_layer(&self, layer: &[Met], from: usize, met: u8) -> Option<&Edge> {
        self.product.edges[from].iter().find(|edge| layer[edge.to].has(met | joined(edge.marks)))
    }

    /// Backward from the pair with marks that show a difference, for less than this many letters.
    fn layers(&self, pair: usize, most: usize) -> Layers {
        let mut first = vec![Met::default(); self.before.len()];
        self.product.differing.iter().for_each(|&marks| first[pair].insert(joined(marks)));
        let mut seen = first.clone();
        let mut layers = vec![first];
        while layers.len() < most {
            let next = self.earlier(layers.last().unwrap(), &mut seen);
            if next.iter().all(|met| *met == Met::default()) {
                break;
            }
            layers.push(next);
        }
        layers
    }

    /// What leads into the layer by one letter and was not seen before; it is then seen.
    fn earlier(&self, layer: &[Met], seen: &mut [Met]) -> Vec<Met> {
        let mut earlier = vec![Met::default(); layer.len()];
        for (to, met) in layer.iter().enumerate().filter(|(_, met)| **met != Met::default()) {
            for (from, edge) in &self.before[to] {
                earlier[*from] = earlier[*from].joined(met.before(joined(edge.marks)));
            }
        }
        for (earlier, seen) in earlier.iter_mut().zip(seen) {
            *earlier = earlier.without(*seen);
            *seen = seen.joined(*earlier);
        }
        earlier
    }
}

#[cfg(test)]
mod tests {
    use super::*;
    use crate::automaton::Automaton;
    use crate::generate::{any_automaton, in_other_words, nearly, with_copies, Random};

    /// Whether the word differs and its loop, read once, brings both automata back to where it began.
    fn shows(first: &Automaton, second: &Automaton, prefix: &[u8], cycle: &[u8]) -> bool {
        let back = |given: &Automaton| {
            let after = |state: usize, word: &[u8]| word.iter().fold(state, |q, &l| given.step(q, l as usize).to);
            let begun = after(given.start, prefix);
            after(begun, cycle) == begun
        };
        back(first) && back(second) && first.accepts(prefix, cycle) != second.accepts(prefix, cycle)
    }

    /// All words of at most `most` letters in the order of the request: by total, then by the prefix,
    /// then by letters. The first that shows the difference.
    fn by_trying_all(first: &Automaton, second: &Automaton, most: usize) -> Option<Word> {
        let letters = first.letters();
        (1..=most).find_map(|total| {
            (0..total).find_map(|prefix| {
                (0..letters.pow(total as u32)).find_map(|number| {
                    let digit = |place: usize| (number / letters.pow((total - 1 - place) as u32) % letters) as u8;
                    let word: Vec<u8> = (0..total).map(digit).collect();
                    let (prefix, cycle) = word.split_at(prefix);
                    let found = Word { prefix: prefix.to_vec(), cycle: cycle.to_vec() };
                    shows(first, second, prefix, cycle).then_some(found)
                })
            })
        })
    }

    #[test]
    fn first_of_all_words() {
        let mut random = Random::new(17);
        let mut lengths = std::collections::BTreeMap::new();
        for _ in 0..6_000 {
            let (k, sets, states) = (random.within(0, 1), random.within(0, 2), random.within(1, 3));
            let first = any_automaton(&mut random, states, k, sets);
            let (copied, _) = with_copies(&mut random, &first, states + 1);
            let more = sets + random.below(2);
            let mut second = in_other_words(&mut random, &copied, more);
            for _ in 0..random.within(1, 3) {
                second = nearly(&mut random, &second);
            }
            let found = first_word(&Product::new(&first, &second));
            let most = found.as_ref().map_or(6, |word| word.prefix.len() + word.cycle.len());
            if most > 12 {
                continue;
            }
            assert_eq!(found, by_trying_all(&first, &second, most), "{first:?} {second:?}");
            let lengths_of = |word: Word| (word.prefix.len().min(3), word.cycle.len().min(3));
            *lengths.entry(found.map(lengths_of)).or_insert(0) += 1;
        }
        // The same, and words with a prefix of 0, 1, 2 and more letters and a loop of 1, 2 and more.
        assert_eq!(lengths.len(), 13, "{lengths:?}");
    }
}
