//! Generated formulas: labels over propositions, conditions over sets.
//!
//! A formula has to hold for just some of the 2^k sets of propositions or marks, bit l for the set l,
//! and is put together from such that hold for more or fewer of them.

use crate::generate::Random;

pub type Token = Vec<u8>;

pub fn words(text: &str) -> Vec<Token> {
    text.split_whitespace().map(|word| word.as_bytes().to_vec()).collect()
}

/// All sets of k.
pub fn full(k: usize) -> u16 {
    if k == 4 {
        u16::MAX
    } else {
        (1 << (1 << k)) - 1
    }
}

/// Those that have the one.
pub fn having(k: usize, one: usize) -> u16 {
    (0..1u16 << k).filter(|set| set >> one & 1 == 1).fold(0, |all, set| all | 1 << set)
}

/// What formulas are about: a label has `0` and `! 0`, a condition `Inf ( 0 )` and `Fin ( 0 )`, and
/// no other `!`.
#[derive(Clone, Copy, PartialEq)]
pub enum About {
    Propositions,
    Sets,
}

impl About {
    fn literal(self, one: usize, there: bool) -> String {
        match (self, there) {
            (About::Propositions, true) => one.to_string(),
            (About::Propositions, false) => format!("! {one}"),
            (About::Sets, true) => format!("Inf ( {one} )"),
            (About::Sets, false) => format!("Fin ( {one} )"),
        }
    }
}

/// How tightly a formula's outermost sign binds.
#[derive(Clone, Copy, PartialEq, PartialOrd)]
enum Binds {
    Or,
    And,
    Tight,
}

pub struct Formula {
    binds: Binds,
    pub tokens: Vec<Token>,
}

impl Formula {
    fn new(binds: Binds, tokens: Vec<Token>) -> Formula {
        Formula { binds, tokens }
    }

    /// In brackets where it binds too loosely.
    fn at_least(self, binds: Binds) -> Vec<Token> {
        if self.binds >= binds {
            return self.tokens;
        }
        [words("("), self.tokens, words(")")].concat()
    }
}

/// A label that just these letters satisfy; with many letters not deep, or the text is too long.
pub fn label(random: &mut Random, k: usize, letters: u16) -> Vec<Token> {
    let depth = random.pick(if k < 3 { &[0, 0, 1, 2, 3, 5] } else { &[0, 0, 0, 0, 0, 1] });
    formula(random, About::Propositions, k, letters, depth).tokens
}

/// A formula that holds for just these sets of k.
pub fn formula(random: &mut Random, about: About, k: usize, holds: u16, depth: usize) -> Formula {
    if depth == 0 {
        return flat_formula(random, about, k, holds);
    }
    let full = full(k);
    let (some, more) = (random.next() as u16 & full, random.next() as u16 & full);
    match random.below(5) {
        0 => {
            let first = formula(random, about, k, holds & some, depth - 1).at_least(Binds::And);
            let second = formula(random, about, k, holds & !(some & more), depth - 1);
            Formula::new(Binds::Or, [first, words("|"), second.at_least(Binds::And)].concat())
        }
        1 => {
            let first = formula(random, about, k, holds | some, depth - 1).at_least(Binds::Tight);
            let second = formula(random, about, k, holds | (more & !some), depth - 1);
            Formula::new(Binds::And, [first, words("&"), second.at_least(Binds::Tight)].concat())
        }
        2 if about == About::Propositions => {
            let opposite = formula(random, about, k, full & !holds, depth - 1).at_least(Binds::Tight);
            Formula::new(Binds::Tight, [words("!"), opposite].concat())
        }
        3 => {
            let inner = formula(random, about, k, holds, depth - 1).tokens;
            Formula::new(Binds::Tight, [words("("), inner, words(")")].concat())
        }
        _ => formula(random, about, k, holds, depth - 1),
    }
}

fn flat_formula(random: &mut Random, about: About, k: usize, holds: u16) -> Formula {
    if holds == full(k) && !random.one_in(4) {
        return Formula::new(Binds::Tight, words("t"));
    }
    if holds == 0 {
        return Formula::new(Binds::Tight, words("f"));
    }
    for one in 0..k {
        for there in [true, false] {
            if holds == if there { having(k, one) } else { full(k) & !having(k, one) } {
                return Formula::new(Binds::Tight, words(&about.literal(one, there)));
            }
        }
    }
    let mut cubes: Vec<String> =
        (0..1 << k).filter(|set| holds >> set & 1 == 1).map(|set| cube(random, about, k, set)).collect();
    random.shuffle(&mut cubes);
    let binds = if cubes.len() > 1 { Binds::Or } else { Binds::And };
    Formula::new(binds, words(&cubes.join(" | ")))
}

/// The formula of one set, its literals in any order.
fn cube(random: &mut Random, about: About, k: usize, set: usize) -> String {
    if k == 0 {
        return "t".to_string();
    }
    let mut literals: Vec<String> = (0..k).map(|one| about.literal(one, set >> one & 1 == 1)).collect();
    random.shuffle(&mut literals);
    literals.join(" & ")
}
