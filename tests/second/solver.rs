//! The reader of solver text: one step for each byte, so that text may come in any pieces.

use crate::automaton::Refusal;

/// "Byte 4,294,967,295, counted from 0, is refused with 9."
const FIRST_BYTE_TOO_FAR: u64 = 4_294_967_295;

#[derive(Clone, Copy, PartialEq, Eq, Debug)]
pub enum Verdict {
    Satisfiable,
    Unsatisfiable,
    Unknown,
}

/// "One `s` line: SATISFIABLE, UNSATISFIABLE or UNKNOWN."
const VERDICTS: [(&[u8], Verdict); 3] = [
    (b"SATISFIABLE", Verdict::Satisfiable),
    (b"UNSATISFIABLE", Verdict::Unsatisfiable),
    (b"UNKNOWN", Verdict::Unknown),
];

/// What a whole text says: the verdict, and for each step and mark variable (from 1) whether
/// it is true. "An unnamed variable is false."
#[derive(Clone, PartialEq, Eq, Debug)]
pub struct Answer {
    pub verdict: Verdict,
    pub values: Vec<bool>,
}

/// Where in its line the next byte stands.
#[derive(Clone, PartialEq, Eq, Debug)]
enum Place {
    LineStart,
    Comment,
    /// Directly after the `s`.
    AfterS,
    /// After the `s` and blanks.
    BeforeVerdict,
    /// In the word of the verdict, with its bytes so far.
    Verdict(Vec<u8>),
    AfterVerdict,
    /// Directly after the `v`.
    AfterV,
    /// After a blank of a `v` line.
    BetweenLiterals,
    /// Directly after a minus.
    Minus(Literal),
    /// In a literal's digits, at least one of which was read.
    Digits(Literal),
    /// Directly after the closing 0.
    Zero,
}

#[derive(Clone, Copy, PartialEq, Eq, Debug)]
struct Literal {
    /// The offset of its first byte.
    at: u64,
    negative: bool,
    /// Saturating.
    variable: u64,
}

impl Literal {
    fn digit(self, byte: u8) -> Literal {
        let variable = self.variable.saturating_mul(10).saturating_add((byte - b'0') as u64);
        Literal { variable, ..self }
    }
}

pub struct Reader {
    /// V, the last variable.
    last: u64,
    /// For each step and mark variable, from 1, what was said of it.
    named: Vec<Option<bool>>,
    offset: u64,
    place: Place,
    verdict: Option<Verdict>,
    some_v_line: bool,
    zero: bool,
}

impl Reader {
    pub fn new(variables: usize, steps_and_marks: usize) -> Reader {
        Reader {
            last: variables as u64,
            named: vec![None; steps_and_marks + 1],
            offset: 0,
            place: Place::LineStart,
            verdict: None,
            some_v_line: false,
            zero: false,
        }
    }

    pub fn piece(&mut self, bytes: &[u8]) -> Result<(), Refusal> {
        bytes.iter().try_for_each(|&byte| self.byte(byte))
    }

    /// The text is over.
    pub fn end(mut self) -> Result<Answer, Refusal> {
        let form = Err(Refusal::new(9, self.offset, 0));
        match self.place.clone() {
            Place::AfterS | Place::BeforeVerdict | Place::Minus(_) => return form,
            Place::Verdict(word) => self.verdict = Some(self.verdict_of(&word)?),
            Place::Digits(literal) => self.ended(literal)?,
            _ => {}
        }
        // "at the end of the text (offset: length) no `s` line, SATISFIABLE without 0, or
        // another verdict with a `v` line"
        match self.verdict {
            None => return form,
            Some(Verdict::Satisfiable) if !self.zero => return form,
            Some(Verdict::Unsatisfiable | Verdict::Unknown) if self.some_v_line => return form,
            _ => {}
        }
        let values = self.named.iter().map(|value| *value == Some(true)).collect();
        Ok(Answer { verdict: self.verdict.unwrap(), values })
    }

    fn byte(&mut self, byte: u8) -> Result<(), Refusal> {
        if self.offset >= FIRST_BYTE_TOO_FAR {
            return self.out_of_form();
        }
        self.place = self.after(byte)?;
        self.offset += 1;
        Ok(())
    }

    /// "the first byte that its line cannot have there"
    fn out_of_form<T>(&self) -> Result<T, Refusal> {
        Err(Refusal::new(9, self.offset, 0))
    }

    fn after(&mut self, byte: u8) -> Result<Place, Refusal> {
        match (self.place.clone(), byte) {
            (Place::LineStart, _) => self.line_start(byte),
            // "`c` lines and empty lines are skipped."
            (Place::Comment, b'\n') => Ok(Place::LineStart),
            (Place::Comment, _) => Ok(Place::Comment),
            (Place::AfterS | Place::BeforeVerdict, b' ' | b'\t') => Ok(Place::BeforeVerdict),
            (Place::AfterS, _) => self.out_of_form(),
            (Place::BeforeVerdict, _) => self.verdict_byte(Vec::new(), byte),
            (Place::Verdict(word), b' ' | b'\t' | b'\n') => {
                self.verdict = Some(self.verdict_of(&word)?);
                Ok(if byte == b'\n' { Place::LineStart } else { Place::AfterVerdict })
            }
            (Place::Verdict(word), _) => self.verdict_byte(word, byte),
            (Place::AfterVerdict, b' ' | b'\t') => Ok(Place::AfterVerdict),
            (Place::AfterVerdict, b'\n') => Ok(Place::LineStart),
            (Place::AfterVerdict, _) => self.out_of_form(),
            (place, _) => self.in_v_line(place, byte),
        }
    }

    fn line_start(&mut self, byte: u8) -> Result<Place, Refusal> {
        match byte {
            b'\n' => Ok(Place::LineStart),
            b'c' => Ok(Place::Comment),
            // "a second `s` line .. at its first byte"
            b's' if self.verdict.is_none() => Ok(Place::AfterS),
            b'v' => {
                self.some_v_line = true;
                Ok(Place::AfterV)
            }
            _ => self.out_of_form(),
        }
    }

    fn verdict_byte(&self, mut word: Vec<u8>, byte: u8) -> Result<Place, Refusal> {
        word.push(byte);
        if !VERDICTS.iter().any(|(whole, _)| whole.starts_with(&word)) {
            return self.out_of_form();
        }
        Ok(Place::Verdict(word))
    }

    /// The verdict of a word that ends here; one that is not whole cannot end here.
    fn verdict_of(&self, word: &[u8]) -> Result<Verdict, Refusal> {
        match VERDICTS.iter().find(|(whole, _)| *whole == word) {
            Some((_, verdict)) => Ok(*verdict),
            None => self.out_of_form(),
        }
    }

    /// "Blanks are spaces or tabs, one or more between tokens, and may end an `s` or `v` line."
    fn in_v_line(&mut self, place: Place, byte: u8) -> Result<Place, Refusal> {
        match (place, byte) {
            (Place::Minus(literal), b'1'..=b'9') => Ok(Place::Digits(literal.digit(byte))),
            (Place::Digits(literal), b'0'..=b'9') => Ok(Place::Digits(literal.digit(byte))),
            // "no leading zero, no -0"
            (Place::Minus(_), _) => self.out_of_form(),
            (Place::BetweenLiterals, b'-' | b'0'..=b'9') => self.literal_start(byte),
            (place, b' ' | b'\t' | b'\n') => {
                if let Place::Digits(literal) = place {
                    self.ended(literal)?;
                }
                Ok(if byte == b'\n' { Place::LineStart } else { Place::BetweenLiterals })
            }
            _ => self.out_of_form(),
        }
    }

    fn literal_start(&mut self, byte: u8) -> Result<Place, Refusal> {
        // "a literal after the 0, at its first byte"
        if self.zero {
            return self.out_of_form();
        }
        let literal = Literal { at: self.offset, negative: byte == b'-', variable: 0 };
        match byte {
            b'-' => Ok(Place::Minus(literal)),
            b'0' => {
                self.zero = true;
                Ok(Place::Zero)
            }
            _ => Ok(Place::Digits(literal.digit(byte))),
        }
    }

    /// 10: "literal past V, or step or mark variable given twice, judged once the literal has
    /// ended, at its first byte".
    fn ended(&mut self, literal: Literal) -> Result<(), Refusal> {
        let twice = Err(Refusal::new(10, literal.at, 0));
        if literal.variable > self.last {
            return twice;
        }
        // "Path values are ignored"
        if let Some(value) = self.named.get_mut(literal.variable as usize) {
            if value.is_some() {
                return twice;
            }
            *value = Some(!literal.negative);
        }
        Ok(())
    }
}

#[cfg(test)]
mod tests {
    use super::*;

    /// V = 4, of which 1 and 2 are steps or marks; in two pieces, cut everywhere.
    fn read(text: &str) -> Result<Answer, Refusal> {
        let whole = read_cut(text.as_bytes(), 0);
        for cut in 1..=text.len() {
            assert_eq!(read_cut(text.as_bytes(), cut), whole, "{text:?} cut at {cut}");
        }
        whole
    }

    fn read_cut(text: &[u8], cut: usize) -> Result<Answer, Refusal> {
        let mut reader = Reader::new(4, 2);
        reader.piece(&text[..cut])?;
        reader.piece(&text[cut..])?;
        reader.end()
    }

    fn refused(text: &str) -> (u8, u64, u64) {
        let refusal = read(text).expect_err("the text should be turned down");
        (refusal.number, refusal.a, refusal.b)
    }

    fn true_variables(text: &str) -> Vec<usize> {
        let answer = read(text).unwrap();
        assert_eq!(answer.verdict, Verdict::Satisfiable);
        (0..answer.values.len()).filter(|&variable| answer.values[variable]).collect()
    }

    #[test]
    fn accepted_texts() {
        assert_eq!(true_variables("s SATISFIABLE\nv 1 -2 3 -4 0"), [1]);
        assert_eq!(true_variables("c x\r\n\nv\nv 2\t \nv  0 \nv\nv \t\ns \t SATISFIABLE \t\n\n"), [2]);
        assert_eq!(true_variables("s SATISFIABLE\nv 3 -3 3 0"), []);
        assert_eq!(true_variables("cs\ns SATISFIABLE\nv 0"), []);
        assert_eq!(read("s UNSATISFIABLE").unwrap().verdict, Verdict::Unsatisfiable);
        assert_eq!(read("c\ns UNKNOWN\n").unwrap().verdict, Verdict::Unknown);
    }

    #[test]
    fn bytes_that_a_line_cannot_have() {
        assert_eq!(refused("x"), (9, 0, 0));
        assert_eq!(refused(" s UNKNOWN"), (9, 0, 0));
        assert_eq!(refused("\r\n"), (9, 0, 0));
        assert_eq!(refused("s\n"), (9, 1, 0));
        assert_eq!(refused("s \n"), (9, 2, 0));
        assert_eq!(refused("sUNKNOWN"), (9, 1, 0));
        assert_eq!(refused("s UNKNOWN\r\n"), (9, 9, 0));
        assert_eq!(refused("s UNSAT\n"), (9, 7, 0));
        assert_eq!(refused("s UNKNOWNS"), (9, 9, 0));
        assert_eq!(refused("s UNKNOWN UNKNOWN"), (9, 10, 0));
        assert_eq!(refused("v1"), (9, 1, 0));
        assert_eq!(refused("v 01"), (9, 3, 0));
        assert_eq!(refused("v -0"), (9, 3, 0));
        assert_eq!(refused("v -01"), (9, 3, 0));
        assert_eq!(refused("v - 1"), (9, 3, 0));
        assert_eq!(refused("v 1-2"), (9, 3, 0));
        assert_eq!(refused("v +1"), (9, 2, 0));
        assert_eq!(refused("v 9x"), (9, 3, 0));
        assert_eq!(refused("v 1\r\n"), (9, 3, 0));
    }

    #[test]
    fn second_verdict_and_second_zero() {
        assert_eq!(refused("s UNKNOWN\ns UNKNOWN"), (9, 10, 0));
        assert_eq!(refused("s UNKNOWN\nsx"), (9, 10, 0));
        assert_eq!(refused("v 0 0"), (9, 4, 0));
        assert_eq!(refused("v 0\nv 1"), (9, 6, 0));
        assert_eq!(refused("v 0 -1"), (9, 4, 0));
    }

    #[test]
    fn at_the_end_of_the_text() {
        assert_eq!(refused(""), (9, 0, 0));
        assert_eq!(refused("c only\n"), (9, 7, 0));
        assert_eq!(refused("s"), (9, 1, 0));
        assert_eq!(refused("s UNK"), (9, 5, 0));
        assert_eq!(refused("s SATISFIABLE\nv 1"), (9, 17, 0));
        assert_eq!(refused("s SATISFIABLE\nv -"), (9, 17, 0));
        assert_eq!(refused("s UNKNOWN\nv"), (9, 11, 0));
        assert_eq!(refused("s UNSATISFIABLE\nv 0\n"), (9, 20, 0));
        // At the end of the text a literal has ended: 10 before 9.
        assert_eq!(refused("s UNKNOWN\nv 5"), (10, 12, 0));
    }

    #[test]
    fn literals_past_the_last_or_given_twice() {
        assert_eq!(refused("v 5 "), (10, 2, 0));
        assert_eq!(refused("v -5\n"), (10, 2, 0));
        assert_eq!(refused("v 99999999999999999999999999 x"), (10, 2, 0));
        assert_eq!(refused("v 1 -1 0"), (10, 4, 0));
        assert_eq!(refused("v 2\nv -1 2\n"), (10, 9, 0));
    }

    #[test]
    fn the_last_byte_that_is_read() {
        let mut reader = Reader::new(4, 2);
        reader.piece(b"s UNKNOWN\n").unwrap();
        reader.offset = FIRST_BYTE_TOO_FAR - 1;
        assert_eq!(reader.piece(b"\n"), Ok(()));
        assert_eq!(reader.piece(b"\n"), Err(Refusal::new(9, FIRST_BYTE_TOO_FAR, 0)));
    }
}
