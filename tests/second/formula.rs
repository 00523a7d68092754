//! Acceptance conditions: the parts of one while it is read, its truth table, and its written form.

use crate::automaton::says_yes;

#[derive(Clone, PartialEq, Eq, Debug)]
pub enum Formula {
    /// `t` or `f`.
    Always(bool),
    Inf(usize),
    Fin(usize),
    /// Joined by `&`.
    All(Vec<Formula>),
    /// Joined by `|`.
    Any(Vec<Formula>),
}

impl Formula {
    /// Whether it holds for a run that meets just these sets infinitely often.
    fn holds(&self, marks: usize) -> bool {
        match self {
            Formula::Always(always) => *always,
            Formula::Inf(set) => marks >> set & 1 == 1,
            Formula::Fin(set) => marks >> set & 1 == 0,
            Formula::All(parts) => parts.iter().all(|part| part.holds(marks)),
            Formula::Any(parts) => parts.iter().any(|part| part.holds(marks)),
        }
    }

    /// "the yes or no for each set of marks (no past its sets ..)" (document 02, E3)
    pub fn table(&self, sets: usize) -> u16 {
        (0..1 << sets).filter(|&marks| self.holds(marks)).fold(0, |table, marks| table | 1 << marks)
    }
}

/// What was read of the text inside one bracket, or of the whole: lists of factors, joined by `|`.
pub struct Level {
    products: Vec<Vec<Formula>>,
}

impl Level {
    pub fn new() -> Level {
        Level { products: vec![Vec::new()] }
    }

    pub fn factor(&mut self, factor: Formula) {
        self.products.last_mut().expect("a product is begun").push(factor);
    }

    /// After a `|`.
    pub fn next_product(&mut self) {
        self.products.push(Vec::new());
    }

    pub fn whole(self) -> Formula {
        Formula::Any(self.products.into_iter().map(Formula::All).collect())
    }
}

/// "Written out, Inf of all sets keeps its form, otherwise all-true is t, all-false is f, else the
/// accepted sets of marks ascending, joined by |" (document 02, E3). Inf of all sets is one such set,
/// whose product has that form; with 0 sets it is all-true.
pub fn written(acceptance: u16, sets: usize) -> String {
    let all = 1 << sets;
    let accepted: Vec<usize> = (0..all).filter(|&marks| says_yes(acceptance, marks)).collect();
    if accepted.len() == all {
        return "t".to_string();
    }
    if accepted.is_empty() {
        return "f".to_string();
    }
    accepted.iter().map(|&marks| product(marks, sets)).collect::<Vec<String>>().join("|")
}

/// "each naming every set, ascending, by Inf or Fin joined by &" (document 02, E3)
fn product(marks: usize, sets: usize) -> String {
    let named = |set: usize| format!("{}({set})", if marks >> set & 1 == 1 { "Inf" } else { "Fin" });
    (0..sets).map(named).collect::<Vec<String>>().join("&")
}

#[cfg(test)]
mod tests {
    use super::*;

    #[test]
    fn truth_tables() {
        use Formula::*;
        assert_eq!(Inf(0).table(2), 0b1010);
        assert_eq!(Inf(1).table(2), 0b1100);
        assert_eq!(Fin(0).table(2), 0b0101);
        assert_eq!(Fin(1).table(2), 0b0011);
        assert_eq!(Always(true).table(2), 0b1111);
        assert_eq!(Always(false).table(2), 0);
        assert_eq!(All(vec![Fin(0), Inf(1)]).table(2), 0b0100);
        assert_eq!(Any(vec![Fin(0), Inf(1)]).table(2), 0b1101);
        assert_eq!(Always(true).table(0), 1);
        assert_eq!(Fin(3).table(4), 0x00ff);
    }

    #[test]
    fn forms() {
        // With 0 sets Inf of all and all-true are one.
        assert_eq!([0, 1].map(|table| written(table, 0)), ["f", "t"]);
        assert_eq!([0, 1, 2, 3].map(|table| written(table, 1)), ["f", "Fin(0)", "Inf(0)", "t"]);
        assert_eq!(written(0b1000, 2), "Inf(0)&Inf(1)");
        assert_eq!(written(0b0001, 2), "Fin(0)&Fin(1)");
        assert_eq!(written(0b1010, 2), "Inf(0)&Fin(1)|Inf(0)&Inf(1)");
        assert_eq!(written(0b0111, 2), "Fin(0)&Fin(1)|Inf(0)&Fin(1)|Fin(0)&Inf(1)");
        assert_eq!(written(0b1111, 2), "t");
        assert_eq!(written(0x8000, 4), "Inf(0)&Inf(1)&Inf(2)&Inf(3)");
        assert_eq!(written(0x8001, 4), "Fin(0)&Fin(1)&Fin(2)&Fin(3)|Inf(0)&Inf(1)&Inf(2)&Inf(3)");
        assert_eq!(written(0x4000, 4), "Fin(0)&Inf(1)&Inf(2)&Inf(3)");
        // The longest line: 15 products of 4 factors of 6 bytes, joined by `&` and `|`.
        assert_eq!(written(0xfffe, 4).len(), 15 * 27 + 14);
    }
}
