// The reader of HOA text in plain Rust, for comparing seconds: `read COUNT < SLOTS` does what `bench_hoa_read` does, with document 01's refusals. Each token is
// scanned once, one ahead of what is read, and the table is of fixed size, so that nothing is allocated.
// rustc -O read.rs
use std::io::Read;

const SLOT: usize = 4096;
const TEXT: usize = 65536;
const STATES: usize = 16;
const LETTERS: usize = 16;
const PROPOSITIONS: usize = 4;
const SETS: usize = 4;
const NAME: usize = 16;
const NESTING: usize = 32;

/// Document 01's number and values.
pub struct Refusal(pub u8, pub usize, pub usize);
type Answer<T> = Result<T, Refusal>;

pub struct Automaton {
    pub states: usize,
    pub start: usize,
    pub propositions: usize,
    pub sets: usize,
    /// Bit M: whether a run is accepting that meets just the sets M infinitely often.
    pub acceptance: u16,
    pub names: [[u8; NAME]; PROPOSITIONS],
    pub lengths: [usize; PROPOSITIONS],
    pub destinations: [[u8; LETTERS]; STATES],
    pub marks: [[u8; LETTERS]; STATES],
}

#[derive(Clone, Copy, PartialEq)]
enum Kind<'a> {
    Quoted(&'a [u8]),
    Number(usize),
    Word(&'a [u8]),
    Item(&'a [u8]),
    Sign(u8),
    Body,
    End,
    /// A token that continues nothing: a leading zero, an alias, `--ABORT--`.
    Other,
    /// A quoted text without its end.
    Cut,
    /// No token, or the end of the text.
    Broken,
}

#[derive(Clone, Copy)]
struct Token<'a> {
    at: usize,
    kind: Kind<'a>,
}

/// The state whose edges may stand here: its marks, whether an edge had a label, and how many had none.
struct Current {
    state: usize,
    shared: u8,
    labelled: bool,
    listed: usize,
}

struct Reader<'a> {
    text: &'a [u8],
    next: Token<'a>,
    /// The offset behind `next`.
    at: usize,
}

/// What a formula is about.
#[derive(Clone, Copy)]
enum Leaves {
    Propositions,
    Sets,
}

/// The letters that have a proposition, and the sets of marks that have a set.
const HAVING: [u16; 4] = [0xaaaa, 0xcccc, 0xf0f0, 0xff00];

fn in_word(byte: u8) -> bool {
    byte.is_ascii_alphanumeric() || byte == b'_' || byte == b'-'
}

impl<'a> Reader<'a> {
    fn new(text: &'a [u8]) -> Reader<'a> {
        let mut reader = Reader { text, next: Token { at: 0, kind: Kind::Broken }, at: 0 };
        reader.take();
        reader
    }

    // Tokens

    /// Gives the next token and scans the one behind it.
    fn take(&mut self) -> Token<'a> {
        let taken = self.next;
        let start = self.past(self.at, |byte| matches!(byte, b' ' | b'\t' | b'\n' | b'\r'));
        let (kind, end) = match self.text.get(start) {
            Some(b'"') => self.quoted(start),
            Some(b'0'..=b'9') => {
                let end = self.past(start, |byte| byte.is_ascii_digit());
                (number(&self.text[start..end]), end)
            }
            Some(&byte @ (b'!' | b'&' | b'|' | b'(' | b')' | b'[' | b']' | b'{' | b'}')) => (Kind::Sign(byte), start + 1),
            Some(b'a'..=b'z' | b'A'..=b'Z' | b'_') => {
                let end = self.past(start, in_word);
                match self.text.get(end) {
                    Some(b':') => (Kind::Item(&self.text[start..end]), end + 1),
                    _ => (Kind::Word(&self.text[start..end]), end),
                }
            }
            Some(b'-') => self.dashes(start),
            Some(b'@') => match self.past(start + 1, in_word) {
                end if end > start + 1 => (Kind::Other, end),
                end => (Kind::Broken, end),
            },
            _ => (Kind::Broken, start),
        };
        self.next = Token { at: start, kind };
        self.at = end;
        taken
    }

    fn past(&self, from: usize, skipped: impl Fn(u8) -> bool) -> usize {
        self.text[from..].iter().position(|&byte| !skipped(byte)).map_or(self.text.len(), |length| from + length)
    }

    fn quoted(&self, start: usize) -> (Kind<'a>, usize) {
        let mut at = start + 1;
        while let Some(byte) = self.text.get(at) {
            match byte {
                b'"' => return (Kind::Quoted(&self.text[start + 1..at]), at + 1),
                b'\\' => at += 2,
                _ => at += 1,
            }
        }
        (Kind::Cut, self.text.len())
    }

    fn dashes(&self, start: usize) -> (Kind<'a>, usize) {
        let rest = &self.text[start..];
        if rest.starts_with(b"--BODY--") {
            (Kind::Body, start + 8)
        } else if rest.starts_with(b"--END--") {
            (Kind::End, start + 7)
        } else if rest.starts_with(b"--ABORT--") {
            (Kind::Other, start + 9)
        } else {
            (Kind::Broken, start)
        }
    }

    /// "a token that cannot continue the HOA form"
    fn form(&self, token: Token) -> Refusal {
        Refusal(1, if token.kind == Kind::Cut { self.text.len() } else { token.at }, 0)
    }

    fn expect(&mut self, kind: Kind) -> Answer<()> {
        let token = self.take();
        if token.kind != kind {
            return Err(self.form(token));
        }
        Ok(())
    }

    fn take_sign(&mut self, byte: u8) -> bool {
        let found = self.next.kind == Kind::Sign(byte);
        if found {
            self.take();
        }
        found
    }

    fn number(&mut self) -> Answer<(usize, usize)> {
        let token = self.take();
        match token.kind {
            Kind::Number(value) => Ok((token.at, value)),
            _ => Err(self.form(token)),
        }
    }

    /// A number below `bound`; else the refusal.
    fn below(&mut self, bound: usize, refusal: u8) -> Answer<usize> {
        let (at, value) = self.number()?;
        if value >= bound {
            return Err(Refusal(refusal, at, 0));
        }
        Ok(value)
    }

    // The header

    fn header(&mut self, a: &mut Automaton) -> Answer<()> {
        self.expect(Kind::Item(b"HOA"))?;
        self.expect(Kind::Word(b"v1"))?;
        let (mut states, mut start, mut names, mut sets) = (false, None, false, false);
        loop {
            let token = self.take();
            let Kind::Item(name) = token.kind else {
                if token.kind != Kind::Body {
                    return Err(self.form(token));
                }
                let (true, Some((at, start)), true) = (states, start, sets) else {
                    return Err(Refusal(3, token.at, 0));
                };
                if start >= a.states {
                    return Err(Refusal(4, at, 0));
                }
                a.start = start;
                return Ok(());
            };
            let again = match name {
                b"States" => std::mem::replace(&mut states, true),
                b"Start" => start.is_some(),
                b"AP" => std::mem::replace(&mut names, true),
                b"Acceptance" => std::mem::replace(&mut sets, true),
                _ => false,
            };
            if again {
                return Err(Refusal(3, token.at, 0));
            }
            match name {
                b"States" => self.states(a)?,
                b"Start" => start = Some(self.number()?),
                b"AP" => self.names(a)?,
                b"Acceptance" => self.acceptance(a)?,
                _ if name[0].is_ascii_lowercase() => {
                    while matches!(self.next.kind, Kind::Word(_) | Kind::Number(_) | Kind::Quoted(_)) {
                        self.take();
                    }
                }
                _ => return Err(self.form(token)),
            }
        }
    }

    fn states(&mut self, a: &mut Automaton) -> Answer<()> {
        let (at, states) = self.number()?;
        if states == 0 || states > STATES {
            return Err(Refusal(2, at, 0));
        }
        a.states = states;
        Ok(())
    }

    fn names(&mut self, a: &mut Automaton) -> Answer<()> {
        a.propositions = self.below(PROPOSITIONS + 1, 2)?;
        for i in 0..a.propositions {
            let token = self.take();
            let Kind::Quoted(name) = token.kind else {
                return Err(self.form(token));
            };
            if name.iter().any(|byte| !matches!(byte, 32..=126) || *byte == b'\\') {
                return Err(self.form(token));
            }
            if name.is_empty() || name.len() > NAME {
                return Err(Refusal(2, token.at, 0));
            }
            if (0..i).any(|j| &a.names[j][..a.lengths[j]] == name) {
                return Err(Refusal(3, token.at, 0));
            }
            a.names[i][..name.len()].copy_from_slice(name);
            a.lengths[i] = name.len();
        }
        Ok(())
    }

    fn acceptance(&mut self, a: &mut Automaton) -> Answer<()> {
        a.sets = self.below(SETS + 1, 2)?;
        let all = ((1u32 << (1 << a.sets)) - 1) as u16;
        a.acceptance = self.any(Leaves::Sets, a.sets, 0)? & all;
        Ok(())
    }

    // The body

    fn body(&mut self, a: &mut Automaton) -> Answer<()> {
        let letters = ((1u32 << (1 << a.propositions)) - 1) as u16;
        let mut given: [Option<u16>; STATES] = [None; STATES];
        let mut current: Option<Current> = None;
        loop {
            let token = self.take();
            match (token.kind, &mut current) {
                (Kind::Item(b"State"), _) => {
                    let (at, state) = self.number()?;
                    if state >= a.states {
                        return Err(Refusal(4, at, 0));
                    }
                    if given[state].is_some() {
                        return Err(Refusal(5, at, state));
                    }
                    given[state] = Some(0);
                    if let Kind::Quoted(_) = self.next.kind {
                        self.take();
                    }
                    let shared = self.marks(a.sets)?;
                    current = Some(Current { state, shared, labelled: false, listed: 0 });
                }
                (Kind::Sign(b'['), Some(current)) if current.listed == 0 => {
                    current.labelled = true;
                    let set = self.any(Leaves::Propositions, a.propositions, 0)? & letters;
                    self.expect(Kind::Sign(b']'))?;
                    let destination = self.below(a.states, 4)?;
                    self.edge(a, current, set, destination, &mut given)?;
                }
                (Kind::Number(destination), Some(current)) if !current.labelled && current.listed < 1 << a.propositions => {
                    if destination >= a.states {
                        return Err(Refusal(4, token.at, 0));
                    }
                    let set = 1 << current.listed;
                    current.listed += 1;
                    self.edge(a, current, set, destination, &mut given)?;
                }
                (Kind::End, _) => return self.end(a, &given, letters),
                _ => return Err(self.form(token)),
            }
        }
    }

    /// Behind the destination of an edge for the letters of the set.
    fn edge(&mut self, a: &mut Automaton, current: &Current, set: u16, destination: usize, given: &mut [Option<u16>; STATES]) -> Answer<()> {
        let state = current.state;
        let marks = current.shared | self.marks(a.sets)?;
        let before = given[state].unwrap_or(0);
        if set & before != 0 {
            return Err(Refusal(6, state, (set & before).trailing_zeros() as usize));
        }
        given[state] = Some(before | set);
        for letter in (0..LETTERS).filter(|letter| set >> letter & 1 == 1) {
            a.destinations[state][letter] = destination as u8;
            a.marks[state][letter] = marks;
        }
        Ok(())
    }

    /// The marks that may stand next.
    fn marks(&mut self, sets: usize) -> Answer<u8> {
        let mut marks = 0;
        if self.take_sign(b'{') {
            while !self.take_sign(b'}') {
                marks |= 1 << self.below(sets, 4)?;
            }
        }
        Ok(marks)
    }

    // Labels give the set of letters that satisfy them, bit l for the letter l; conditions likewise the sets of marks.

    fn any(&mut self, leaves: Leaves, k: usize, depth: usize) -> Answer<u16> {
        let mut found = self.all(leaves, k, depth)?;
        while self.take_sign(b'|') {
            found |= self.all(leaves, k, depth)?;
        }
        Ok(found)
    }

    fn all(&mut self, leaves: Leaves, k: usize, depth: usize) -> Answer<u16> {
        let mut found = self.one(leaves, k, depth)?;
        while self.take_sign(b'&') {
            found &= self.one(leaves, k, depth)?;
        }
        Ok(found)
    }

    fn one(&mut self, leaves: Leaves, k: usize, depth: usize) -> Answer<u16> {
        let token = self.take();
        match (token.kind, leaves) {
            (Kind::Sign(b'!'), Leaves::Sets) => Err(self.form(token)),
            (Kind::Sign(b'!' | b'('), _) if depth == NESTING => Err(Refusal(2, token.at, 0)),
            (Kind::Sign(b'!'), _) => Ok(!self.one(leaves, k, depth + 1)?),
            (Kind::Sign(b'('), _) => {
                let found = self.any(leaves, k, depth + 1)?;
                self.expect(Kind::Sign(b')'))?;
                Ok(found)
            }
            (Kind::Word(b"t"), _) => Ok(u16::MAX),
            (Kind::Word(b"f"), _) => Ok(0),
            (Kind::Number(i), Leaves::Propositions) if i < k => Ok(HAVING[i]),
            (Kind::Number(_), Leaves::Propositions) => Err(Refusal(4, token.at, 0)),
            (Kind::Word(b"Inf"), Leaves::Sets) => self.set(k),
            (Kind::Word(b"Fin"), Leaves::Sets) => Ok(!self.set(k)?),
            _ => Err(self.form(token)),
        }
    }

    /// The set behind `Inf` or `Fin`.
    fn set(&mut self, sets: usize) -> Answer<u16> {
        self.expect(Kind::Sign(b'('))?;
        let set = self.below(sets, 4)?;
        self.expect(Kind::Sign(b')'))?;
        Ok(HAVING[set])
    }

    /// Behind `--END--`.
    fn end(&self, a: &Automaton, given: &[Option<u16>; STATES], letters: u16) -> Answer<()> {
        let length = self.text.len();
        if self.next.at < length {
            return Err(Refusal(1, self.next.at, 0));
        }
        if let Some(state) = given[..a.states].iter().position(|given| given.is_none()) {
            return Err(Refusal(5, length, state));
        }
        for (state, given) in given[..a.states].iter().enumerate() {
            let lacking = letters & !given.unwrap_or(0);
            if lacking != 0 {
                return Err(Refusal(7, state, lacking.trailing_zeros() as usize));
            }
        }
        Ok(())
    }
}

/// Long numbers saturate.
fn number<'a>(digits: &[u8]) -> Kind<'a> {
    if digits.len() > 1 && digits[0] == b'0' {
        return Kind::Other;
    }
    Kind::Number(digits.iter().fold(0, |value: usize, digit| value.saturating_mul(10).saturating_add((digit - b'0') as usize)))
}

pub fn read(text: &[u8]) -> Answer<Automaton> {
    if text.len() > TEXT {
        return Err(Refusal(2, TEXT, 0));
    }
    let mut a = Automaton {
        states: 0,
        start: 0,
        propositions: 0,
        sets: 0,
        acceptance: 0,
        names: [[0; NAME]; PROPOSITIONS],
        lengths: [0; PROPOSITIONS],
        destinations: [[0; LETTERS]; STATES],
        marks: [[0; LETTERS]; STATES],
    };
    let mut reader = Reader::new(text);
    reader.header(&mut a)?;
    reader.body(&mut a)?;
    Ok(a)
}

fn main() {
    let rounds: u64 = std::env::args().nth(1).unwrap().parse().unwrap();
    let mut texts = Vec::new();
    std::io::stdin().read_to_end(&mut texts).unwrap();
    let (mut accepted, mut states) = (0, 0);
    for _ in 0..rounds {
        for text in texts.chunks_exact(SLOT) {
            if let Ok(automaton) = std::hint::black_box(read(text)) {
                accepted += 1;
                states += automaton.states;
            }
        }
    }
    println!("accepted {accepted} states {states}");
}
