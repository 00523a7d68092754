//! Generated acceptances: those that tools have names for, and any others; and texts for them.

use crate::automaton::*;
use crate::generate::Random;
use crate::generate_formula::{formula, full, having, words, About, Token};

/// Of six, two are Inf of all sets, two have a name, and two are any.
pub fn random_acceptance(random: &mut Random, sets: usize) -> u16 {
    let any = random.next() as u16 & full(sets);
    match random.below(6) {
        0 | 1 => inf_of_all(sets),
        2 | 3 => named_condition(random, sets).holds,
        4 => any,
        _ => any & random.next() as u16,
    }
}

/// The tokens of a condition for this acceptance: at times as tools write it, else in any form, with
/// brackets where none are needed, the same part twice, or `t` and `f` within.
pub fn condition(random: &mut Random, acceptance: u16, sets: usize) -> Vec<Token> {
    for _ in 0..4 {
        let named = named_condition(random, sets);
        if named.holds == acceptance {
            return named.tokens;
        }
    }
    let depth = random.pick(if sets < 3 { &[0, 0, 1, 2, 3, 5] } else { &[0, 0, 0, 1, 2, 3] });
    formula(random, About::Sets, sets, acceptance, depth).tokens
}

/// The tokens of a condition, and the sets of marks for which it holds.
struct Condition {
    tokens: Vec<Token>,
    holds: u16,
}

impl Condition {
    fn new(text: &str, holds: u16) -> Condition {
        Condition { tokens: words(text), holds }
    }

    /// In brackets, if it has more than one part.
    fn bracketed(&self) -> Vec<Token> {
        if self.tokens.len() <= 4 {
            return self.tokens.clone();
        }
        [words("("), self.tokens.clone(), words(")")].concat()
    }

    fn joined(sign: &str, mut parts: Vec<Condition>, holds: u16) -> Condition {
        if parts.len() == 1 {
            return parts.remove(0);
        }
        let parts: Vec<Vec<Token>> = parts.iter().map(Condition::bracketed).collect();
        Condition { tokens: parts.join(&sign.as_bytes().to_vec()), holds }
    }
}

/// How many sets there are to speak of.
#[derive(Clone, Copy)]
struct Sets(usize);

impl Sets {
    fn inf(self, set: usize) -> Condition {
        Condition::new(&format!("Inf ( {set} )"), having(self.0, set))
    }

    fn fin(self, set: usize) -> Condition {
        Condition::new(&format!("Fin ( {set} )"), full(self.0) & !having(self.0, set))
    }

    fn all(self, parts: Vec<Condition>) -> Condition {
        let holds = parts.iter().fold(full(self.0), |holds, part| holds & part.holds);
        Condition::joined("&", parts, holds)
    }

    fn any(self, parts: Vec<Condition>) -> Condition {
        let holds = parts.iter().fold(0, |holds, part| holds | part.holds);
        Condition::joined("|", parts, holds)
    }

    /// One of the two for each set.
    fn each(self, of: fn(Sets, usize) -> Condition) -> Vec<Condition> {
        (0..self.0).map(|set| of(self, set)).collect()
    }

    /// `Fin ( 2i )` and `Inf ( 2i + 1 )`, joined for each pair.
    fn pairs(self, joined: fn(Sets, Vec<Condition>) -> Condition) -> Vec<Condition> {
        let pair = |i: usize| joined(self, vec![self.fin(2 * i), self.inf(2 * i + 1)]);
        (0..self.0 / 2).map(pair).collect()
    }

    /// The first set in the order that is met has to be even or odd.
    fn parity(self, order: &[usize], even: bool) -> Condition {
        let accepted = (order[0] % 2 == 0) == even;
        let here = if accepted { self.inf(order[0]) } else { self.fin(order[0]) };
        match &order[1..] {
            [] => here,
            rest if accepted => self.any(vec![here, self.parity(rest, even)]),
            rest => self.all(vec![here, self.parity(rest, even)]),
        }
    }
}

/// Generalized Büchi and co-Büchi, Rabin and Streett, generalized Rabin with one pair, parity of four
/// kinds, all and none.
fn named_condition(random: &mut Random, sets: usize) -> Condition {
    let of = Sets(sets);
    let mut order: Vec<usize> = (0..sets).collect();
    if random.one_in(2) {
        order.reverse();
    }
    match random.below(12) {
        0 => Condition::new("t", full(sets)),
        1 => Condition::new("f", 0),
        _ if sets == 0 => Condition::new("t", 1),
        2 => of.all(of.each(Sets::inf)),
        3 => of.any(of.each(Sets::fin)),
        4 => of.any(of.each(Sets::inf)),
        5 => of.all(of.each(Sets::fin)),
        6 | 7 if sets % 2 == 0 => of.any(of.pairs(Sets::all)),
        8 | 9 if sets % 2 == 0 => of.all(of.pairs(Sets::any)),
        6 | 8 => {
            let mut parts = of.each(Sets::inf);
            parts[0] = of.fin(0);
            of.all(parts)
        }
        _ => of.parity(&order, random.one_in(2)),
    }
}

#[cfg(test)]
mod tests {
    use super::*;
    use std::collections::BTreeSet;

    fn named(sets: usize) -> BTreeSet<(String, u16)> {
        let mut random = Random::new(21);
        let text = |condition: &Condition| String::from_utf8(condition.tokens.concat()).unwrap();
        let one = |_| named_condition(&mut random, sets);
        (0..400).map(one).map(|condition| (text(&condition), condition.holds)).collect()
    }

    #[test]
    fn names_are_written_as_tools_do() {
        let four = named(4);
        for due in [
            ("Inf(0)&Inf(1)&Inf(2)&Inf(3)", 0x8000),
            ("(Fin(0)&Inf(1))|(Fin(2)&Inf(3))", 0b0100_1111_0100_0100),
            ("(Fin(0)|Inf(1))&(Fin(2)|Inf(3))", 0b1101_1101_0000_1101),
            ("Inf(0)|(Fin(1)&(Inf(2)|Fin(3)))", 0b1011_1010_1011_1011),
        ] {
            assert!(four.contains(&(due.0.to_string(), due.1)), "{due:?}: {four:?}");
        }
        let three = named(3);
        for due in [("Fin(0)&Inf(1)&Inf(2)", 0b0100_0000), ("Inf(2)|(Fin(1)&Inf(0))", 0b1111_0010)] {
            assert!(three.contains(&(due.0.to_string(), due.1)), "{due:?}: {three:?}");
        }
    }
}
