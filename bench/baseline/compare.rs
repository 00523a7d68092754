// The comparison of two automata by plain breadth-first searches, for comparing seconds: `compare FIRST SECOND`. For each pair of states that is
// reached it looks for the shortest loop that exactly one of the two accepts, over the pair and the marks met on the way.
// rustc -O compare.rs
#![allow(dead_code)]
#[path = "../../tests/second/automaton.rs"]
mod automaton;
#[path = "../../tests/second/formula.rs"]
mod formula;
#[path = "../../tests/second/hoa.rs"]
mod hoa;

use automaton::Automaton;

const PAIRS: usize = 256;
const NODES: usize = PAIRS * 256;
/// The longest loop that a comparison may have to give.
const LOOP: usize = 2304;

struct Product {
    letters: usize,
    /// By pair and letter: the next pair, and the marks of both, the first's in the upper four bits.
    next: Vec<(usize, usize)>,
    /// By the marks of both: whether exactly one of the two accepts them.
    hits: [bool; 256],
}

fn product(a: &Automaton, b: &Automaton) -> Product {
    let letters = a.letters();
    let mut next = vec![(0, 0); PAIRS * letters];
    for p in 0..a.states() {
        for q in 0..b.states() {
            for l in 0..letters {
                let (x, y) = (a.step(p, l), b.step(q, l));
                next[(p * 16 + q) * letters + l] = (x.to * 16 + y.to, (x.marks as usize) << 4 | y.marks as usize);
            }
        }
    }
    let hits = std::array::from_fn(|m| a.takes((m >> 4) as u8) != b.takes((m & 15) as u8));
    Product { letters, next, hits }
}

/// The pairs that are reached, each with its distance.
fn reached(product: &Product, start: usize) -> Vec<(usize, usize)> {
    let mut seen = [false; PAIRS];
    let mut queue = vec![(start, 0)];
    seen[start] = true;
    let mut at = 0;
    while at < queue.len() {
        let (pair, distance) = queue[at];
        at += 1;
        for l in 0..product.letters {
            let (to, _) = product.next[pair * product.letters + l];
            if !seen[to] {
                seen[to] = true;
                queue.push((to, distance + 1));
            }
        }
    }
    queue
}

/// The length of the shortest loop at the pair that shows a difference, if it is at most `bound`.
fn loop_length(product: &Product, pair: usize, bound: usize, seen: &mut [bool], queue: &mut Vec<(usize, usize)>) -> Option<usize> {
    queue.clear();
    queue.push((pair * 256, 0));
    let mut at = 0;
    let mut found = None;
    'search: while at < queue.len() {
        let (node, distance) = queue[at];
        at += 1;
        if distance >= bound {
            break;
        }
        for l in 0..product.letters {
            let (to, marks) = product.next[node / 256 * product.letters + l];
            let next = to * 256 + (node % 256 | marks);
            if !seen[next] {
                seen[next] = true;
                queue.push((next, distance + 1));
                if to == pair && product.hits[next % 256] {
                    found = Some(distance + 1);
                    break 'search;
                }
            }
        }
    }
    for &(node, _) in queue.iter() {
        seen[node] = false;
    }
    found
}

fn main() {
    let read = |i: usize| hoa::read(&std::fs::read(std::env::args().nth(i).unwrap()).unwrap()).unwrap();
    let (a, b) = (read(1), read(2));
    let product = product(&a, &b);
    let mut seen = vec![false; NODES];
    let mut queue = Vec::with_capacity(NODES);
    let mut best: Option<(usize, usize)> = None;
    for (pair, distance) in reached(&product, a.start * 16 + b.start) {
        let bound = best.map_or(LOOP, |(p, l)| (p + l).saturating_sub(distance + 1));
        if let Some(length) = loop_length(&product, pair, bound, &mut seen, &mut queue) {
            best = Some((distance, length));
        }
    }
    match best {
        None => println!("same"),
        Some((prefix, cycle)) => println!("differ {prefix} {cycle}"),
    }
}
