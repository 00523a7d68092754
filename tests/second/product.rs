//! The product of two automata: the pairs of their states, and the transitions that both take by one letter.

use crate::automaton::*;

/// A transition of the product, with the marks it has in each of the two.
#[derive(Clone, Copy)]
pub struct Edge {
    pub letter: u8,
    pub to: usize,
    pub marks: [u8; 2],
}

pub struct Product {
    pub start: usize,
    pub edges: Vec<Vec<Edge>>,
    /// The sets of marks, one of each automaton, of which exactly one automaton takes its own.
    pub differing: Vec<[u8; 2]>,
}

impl Product {
    pub fn new(first: &Automaton, second: &Automaton) -> Product {
        let pair = |a: usize, b: usize| a * second.states() + b;
        let mut edges = Vec::new();
        for a in 0..first.states() {
            for b in 0..second.states() {
                let edge = |letter: usize| {
                    let (one, other) = (first.step(a, letter), second.step(b, letter));
                    Edge { letter: letter as u8, to: pair(one.to, other.to), marks: [one.marks, other.marks] }
                };
                edges.push((0..first.letters()).map(edge).collect());
            }
        }
        Product { start: pair(first.start, second.start), edges, differing: differing(first, second) }
    }

    pub fn reached(&self) -> Vec<bool> {
        let mut reached = vec![false; self.edges.len()];
        let mut open = vec![self.start];
        while let Some(state) = open.pop() {
            if !std::mem::replace(&mut reached[state], true) {
                open.extend(self.edges[state].iter().map(|edge| edge.to));
            }
        }
        reached
    }
}

fn differing(first: &Automaton, second: &Automaton) -> Vec<[u8; 2]> {
    let both = (0..=first.all_marks()).flat_map(|one| (0..=second.all_marks()).map(move |other| [one, other]));
    both.filter(|&[one, other]| first.takes(one) != second.takes(other)).collect()
}
