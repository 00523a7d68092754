//! HOA text: the tokens, the reader, the writer.

use crate::automaton::*;
use crate::formula::{written, Formula, Level};

/// "text over 65,536 bytes (offset 65,536, before reading)"
const MAX_TEXT: usize = 65_536;
/// "open ! and brackets together nest at most 32 deep"
const MAX_NESTING: usize = 32;

// ---------------------------------------------------------------------------------------
// Tokens

#[derive(Clone, Copy, PartialEq, Eq, Debug)]
enum Kind<'a> {
    /// A quoted text, without its two quotes and with its backslashes.
    Text(&'a [u8]),
    /// A run of digits without a leading zero; long ones saturate.
    Number(u64),
    /// A run of digits with a leading zero.
    BadNumber,
    /// An identifier, `t` and `f` among them.
    Word(&'a [u8]),
    /// An identifier with its colon.
    Item(&'a [u8]),
    /// `@` and a name.
    Alias,
    /// One of `! & | ( ) [ ] { }`.
    Mark(u8),
    Body,
    End,
    Abort,
    /// The end of the text.
    Over,
}

#[derive(Clone, Copy, Debug)]
struct Token<'a> {
    at: usize,
    next: usize,
    kind: Kind<'a>,
}

/// "may be parted by space, tab, LF and CR"
fn is_blank(byte: u8) -> bool {
    matches!(byte, b' ' | b'\t' | b'\n' | b'\r')
}

fn begins_word(byte: u8) -> bool {
    byte.is_ascii_alphabetic() || byte == b'_'
}

fn continues_word(byte: u8) -> bool {
    byte.is_ascii_alphanumeric() || byte == b'_' || byte == b'-'
}

fn skip(text: &[u8], mut at: usize, skipped: fn(u8) -> bool) -> usize {
    while at < text.len() && skipped(text[at]) {
        at += 1;
    }
    at
}

/// The token that begins at `at`, after blanks. "An offset is that of the offending token's
/// first byte, or of a byte that starts no token."
fn token(text: &[u8], at: usize) -> Result<Token<'_>, Refusal> {
    let at = skip(text, at, is_blank);
    let Some(&first) = text.get(at) else {
        return Ok(Token { at, next: at, kind: Kind::Over });
    };
    let found = |next, kind| Ok(Token { at, next, kind });
    match first {
        b'"' => {
            let close = closing_quote(text, at + 1)?;
            found(close + 1, Kind::Text(&text[at + 1..close]))
        }
        b'0'..=b'9' => {
            let next = skip(text, at, |byte| byte.is_ascii_digit());
            found(next, number(&text[at..next]))
        }
        b'@' => {
            let next = skip(text, at + 1, continues_word);
            if next == at + 1 {
                return Err(Refusal::at(1, at));
            }
            found(next, Kind::Alias)
        }
        b'!' | b'&' | b'|' | b'(' | b')' | b'[' | b']' | b'{' | b'}' => found(at + 1, Kind::Mark(first)),
        b'-' => body_word(text, at),
        _ if begins_word(first) => {
            let end = skip(text, at, continues_word);
            if text.get(end) == Some(&b':') {
                return found(end + 1, Kind::Item(&text[at..end + 1]));
            }
            found(end, Kind::Word(&text[at..end]))
        }
        // "a comment is refused with 1", and so is any other byte.
        _ => Err(Refusal::at(1, at)),
    }
}

/// "In a quoted text a backslash carries the next byte." A text that is cut off ends early:
/// 1 "at its length".
fn closing_quote(text: &[u8], mut at: usize) -> Result<usize, Refusal> {
    while at < text.len() {
        match text[at] {
            b'"' => return Ok(at),
            b'\\' => at += 2,
            _ => at += 1,
        }
    }
    Err(Refusal::at(1, text.len()))
}

/// "A run of digits is one token." "Numbers have no leading zero."
fn number(digits: &[u8]) -> Kind<'static> {
    if digits.len() > 1 && digits[0] == b'0' {
        return Kind::BadNumber;
    }
    let add = |value: u64, &digit: &u8| value.saturating_mul(10).saturating_add((digit - b'0') as u64);
    Kind::Number(digits.iter().fold(0, add))
}

/// "The words that open and close the body are matched byte for byte"
fn body_word(text: &[u8], at: usize) -> Result<Token<'_>, Refusal> {
    let words: [(&[u8], Kind); 3] =
        [(b"--BODY--", Kind::Body), (b"--END--", Kind::End), (b"--ABORT--", Kind::Abort)];
    for (word, kind) in words {
        if text[at..].starts_with(word) {
            return Ok(Token { at, next: at + word.len(), kind });
        }
    }
    Err(Refusal::at(1, at))
}

// ---------------------------------------------------------------------------------------
// The reader

/// The automaton that the text gives, or why it is turned down.
pub fn read(text: &[u8]) -> Result<Automaton, Refusal> {
    if text.len() > MAX_TEXT {
        return Err(Refusal::at(2, MAX_TEXT));
    }
    let mut reader = Reader { text, at: 0 };
    let header = reader.header()?;
    let states = reader.body(&header)?;
    reader.only_blanks_follow()?;
    let table = judge_whole(text, states)?;
    let Header { start, sets, acceptance, names, .. } = header;
    Ok(Automaton { start, sets, acceptance, names, table })
}

struct Reader<'a> {
    text: &'a [u8],
    at: usize,
}

/// The header after `--BODY--` was judged.
struct Header {
    states: usize,
    start: usize,
    names: Vec<Vec<u8>>,
    sets: usize,
    acceptance: u16,
}

/// The header while it is read.
#[derive(Default)]
struct Items {
    states: Option<usize>,
    /// The number and its offset.
    start: Option<(usize, u64)>,
    names: Option<Vec<Vec<u8>>>,
    /// The sets and the acceptance.
    acceptance: Option<(usize, u16)>,
}

/// Whether an edge has a label.
#[derive(Clone, Copy, PartialEq)]
enum Form {
    Labelled,
    Listed,
}

/// A state while its edges are read.
#[derive(Clone)]
struct State {
    /// The marks of its `State:`.
    marks: u8,
    /// The kind of its edges, from the first one on.
    form: Option<Form>,
    /// The edges so far, by letter.
    row: Vec<Option<Transition>>,
}

impl<'a> Reader<'a> {
    fn peek(&self) -> Result<Token<'a>, Refusal> {
        token(self.text, self.at)
    }

    fn take(&mut self) -> Result<Token<'a>, Refusal> {
        let taken = self.peek()?;
        self.at = taken.next;
        Ok(taken)
    }

    /// "a token that cannot continue the HOA form": 1.
    fn expect(&mut self, kind: Kind) -> Result<Token<'a>, Refusal> {
        let taken = self.take()?;
        if taken.kind != kind {
            return Err(Refusal::at(1, taken.at));
        }
        Ok(taken)
    }

    fn take_if(&mut self, kind: Kind) -> Result<bool, Refusal> {
        let next = self.peek()?;
        if next.kind == kind {
            self.at = next.next;
        }
        Ok(next.kind == kind)
    }

    fn number(&mut self) -> Result<(usize, u64), Refusal> {
        let taken = self.take()?;
        match taken.kind {
            Kind::Number(value) => Ok((taken.at, value)),
            _ => Err(Refusal::at(1, taken.at)),
        }
    }

    /// A number of something declared: below `bound`, else 4.
    fn declared(&mut self, bound: usize) -> Result<(usize, usize), Refusal> {
        let (at, value) = self.number()?;
        if value >= bound as u64 {
            return Err(Refusal::at(4, at));
        }
        Ok((at, value as usize))
    }

    /// A count at most `most`, else 2.
    fn count(&mut self, most: usize) -> Result<(usize, usize), Refusal> {
        let (at, value) = self.number()?;
        if value > most as u64 {
            return Err(Refusal::at(2, at));
        }
        Ok((at, value as usize))
    }

    /// "`HOA: v1` comes first. Then in any order: .."
    fn header(&mut self) -> Result<Header, Refusal> {
        self.expect(Kind::Item(b"HOA:"))?;
        self.expect(Kind::Word(b"v1"))?;
        let mut items = Items::default();
        loop {
            let next = self.take()?;
            match next.kind {
                Kind::Item(name) => self.item(name, next.at, &mut items)?,
                Kind::Body => return items.judge(next.at),
                _ => return Err(Refusal::at(1, next.at)),
            }
        }
    }

    fn item(&mut self, name: &[u8], at: usize, items: &mut Items) -> Result<(), Refusal> {
        // "States, Start, AP or Acceptance twice": 3.
        let once = |there: bool| if there { Err(Refusal::at(3, at)) } else { Ok(()) };
        match name {
            b"States:" => {
                once(items.states.is_some())?;
                items.states = Some(self.states()?);
            }
            b"Start:" => {
                once(items.start.is_some())?;
                items.start = Some(self.number()?);
            }
            b"AP:" => {
                once(items.names.is_some())?;
                items.names = Some(self.propositions()?);
            }
            b"Acceptance:" => {
                once(items.acceptance.is_some())?;
                items.acceptance = Some(self.acceptance()?);
            }
            _ if name[0].is_ascii_lowercase() => self.skip_item()?,
            // "any other item is refused with 1"
            _ => return Err(Refusal::at(1, at)),
        }
        Ok(())
    }

    /// "States 0 or over 16": 2.
    fn states(&mut self) -> Result<usize, Refusal> {
        let (at, states) = self.count(MAX_STATES)?;
        if states == 0 {
            return Err(Refusal::at(2, at));
        }
        Ok(states)
    }

    fn propositions(&mut self) -> Result<Vec<Vec<u8>>, Refusal> {
        let (_, k) = self.count(MAX_PROPOSITIONS)?;
        let mut names: Vec<Vec<u8>> = Vec::new();
        for _ in 0..k {
            let (at, name) = self.name()?;
            // "two names alike (the second)": 3.
            if names.contains(&name) {
                return Err(Refusal::at(3, at));
            }
            names.push(name);
        }
        Ok(names)
    }

    /// "Proposition names have 1 to 16 bytes, 32 to 126 without quote and backslash; another
    /// byte gives 1, before the length is judged."
    fn name(&mut self) -> Result<(usize, Vec<u8>), Refusal> {
        let taken = self.take()?;
        let Kind::Text(name) = taken.kind else {
            return Err(Refusal::at(1, taken.at));
        };
        if name.iter().any(|byte| !matches!(byte, 32..=126) || *byte == b'\\') {
            return Err(Refusal::at(1, taken.at));
        }
        if name.is_empty() || name.len() > MAX_NAME {
            return Err(Refusal::at(2, taken.at));
        }
        Ok((taken.at, name.to_vec()))
    }

    /// The count of sets and the condition. What follows it is judged as behind any item: "an item
    /// name or `--BODY--` too soon" and a stray token are refused with 1.
    fn acceptance(&mut self) -> Result<(usize, u16), Refusal> {
        let (_, sets) = self.count(MAX_SETS)?;
        let condition = self.condition(sets)?;
        Ok((sets, condition.table(sets)))
    }

    /// "read from Inf, Fin, &, |, t, f and brackets (the 32 limit applies)" (document 02, E3). `&`
    /// binds tighter than `|`.
    fn condition(&mut self, sets: usize) -> Result<Formula, Refusal> {
        // The whole, and then what stands in each bracket that is open.
        let mut open = vec![Level::new()];
        loop {
            let next = self.take()?;
            if next.kind == Kind::Mark(b'(') {
                if open.len() > MAX_NESTING {
                    return Err(Refusal::at(2, next.at));
                }
                open.push(Level::new());
                continue;
            }
            let mut factor = self.factor(next, sets)?;
            while open.len() > 1 && self.take_if(Kind::Mark(b')'))? {
                let mut level = open.pop().unwrap();
                level.factor(factor);
                factor = level.whole();
            }
            let level = open.last_mut().unwrap();
            level.factor(factor);
            if self.take_if(Kind::Mark(b'|'))? {
                level.next_product();
            } else if !self.take_if(Kind::Mark(b'&'))? {
                return self.closed(open);
            }
        }
    }

    /// The whole condition; a bracket that is still open asks for another token than the next.
    fn closed(&self, mut open: Vec<Level>) -> Result<Formula, Refusal> {
        if open.len() > 1 {
            return Err(Refusal::at(1, self.peek()?.at));
        }
        Ok(open.remove(0).whole())
    }

    /// What begins with this token and is neither in brackets nor joined. "a malformed formula, or
    /// one with !, is 1, an undeclared set 4" (document 02, E3)
    fn factor(&mut self, first: Token, sets: usize) -> Result<Formula, Refusal> {
        let of_set: fn(usize) -> Formula = match first.kind {
            Kind::Word(b"t") => return Ok(Formula::Always(true)),
            Kind::Word(b"f") => return Ok(Formula::Always(false)),
            Kind::Word(b"Inf") => Formula::Inf,
            Kind::Word(b"Fin") => Formula::Fin,
            _ => return Err(Refusal::at(1, first.at)),
        };
        self.expect(Kind::Mark(b'('))?;
        let (_, set) = self.declared(sets)?;
        self.expect(Kind::Mark(b')'))?;
        Ok(of_set(set))
    }

    /// "Items with a small first letter are skipped, over words, numbers and quoted texts, up
    /// to the next item name or the body"
    fn skip_item(&mut self) -> Result<(), Refusal> {
        while let Kind::Word(_) | Kind::Number(_) | Kind::Text(_) = self.peek()?.kind {
            self.take()?;
        }
        Ok(())
    }

    /// "In the body each state has one `State:`, its number and perhaps a quoted text, which
    /// is dropped; states may come in any order."
    fn body(&mut self, header: &Header) -> Result<Vec<Option<State>>, Refusal> {
        let mut states: Vec<Option<State>> = vec![None; header.states];
        let mut current = None;
        loop {
            let next = self.peek()?;
            match (next.kind, current) {
                (Kind::Item(b"State:"), _) => current = Some(self.state(header, &mut states)?),
                (Kind::Mark(b'['), Some(q)) => self.labelled_edge(header, q, states[q].as_mut().unwrap())?,
                (Kind::Number(_), Some(q)) => self.listed_edge(header, states[q].as_mut().unwrap())?,
                (Kind::End, _) => {
                    self.take()?;
                    return Ok(states);
                }
                _ => return Err(Refusal::at(1, next.at)),
            }
        }
    }

    fn state(&mut self, header: &Header, states: &mut [Option<State>]) -> Result<usize, Refusal> {
        self.expect(Kind::Item(b"State:"))?;
        let (at, q) = self.declared(header.states)?;
        // "a state's body twice (offset of the second number)": 5.
        if states[q].is_some() {
            return Err(Refusal::new(5, at as u64, q as u64));
        }
        if let Kind::Text(_) = self.peek()?.kind {
            self.take()?;
        }
        // "`State: 0 {1}` puts set 1 on every transition that leaves state 0" (document 02, E1)
        let marks = self.perhaps_marks(header.sets)?;
        states[q] = Some(State { marks, form: None, row: vec![None; 1 << header.names.len()] });
        Ok(q)
    }

    /// "Every edge is `[label] destination` and perhaps `{marks}`"
    fn labelled_edge(&mut self, header: &Header, q: usize, state: &mut State) -> Result<(), Refusal> {
        let opening = self.expect(Kind::Mark(b'['))?;
        state.keep_to(Form::Labelled, opening.at)?;
        let letters = self.any_of(header.names.len(), 0)?;
        self.expect(Kind::Mark(b']'))?;
        // 6 is "judged at the closing brace or, without marks, before the next token".
        let transition = self.transition(header, state.marks)?;
        for (letter, edge) in state.row.iter_mut().enumerate().filter(|(letter, _)| letters >> letter & 1 == 1) {
            // "second edge for a letter, the lowest such of that edge": 6.
            if edge.is_some() {
                return Err(Refusal::new(6, q as u64, letter as u64));
            }
            *edge = Some(transition);
        }
        Ok(())
    }

    /// "A state whose edges have no labels lists them in letter order, 0 first." (document 02, E1)
    fn listed_edge(&mut self, header: &Header, state: &mut State) -> Result<(), Refusal> {
        let at = self.peek()?.at;
        state.keep_to(Form::Listed, at)?;
        // "and so is an unlabelled edge after the last letter, both before the destination is
        // judged" (document 02, E1)
        let Some(letter) = state.row.iter().position(|edge| edge.is_none()) else {
            return Err(Refusal::at(1, at));
        };
        state.row[letter] = Some(self.transition(header, state.marks)?);
        Ok(())
    }

    /// The destination and perhaps marks, "joined with the edge's own marks" (document 02, E1).
    fn transition(&mut self, header: &Header, of_state: u8) -> Result<Transition, Refusal> {
        let (_, to) = self.declared(header.states)?;
        let own = self.perhaps_marks(header.sets)?;
        Ok(Transition { to, marks: of_state | own })
    }

    /// The marks, if a brace comes next; what else comes next is not yet read.
    fn perhaps_marks(&mut self, sets: usize) -> Result<u8, Refusal> {
        self.at = skip(self.text, self.at, is_blank);
        if self.text.get(self.at) == Some(&b'{') {
            return self.marks(sets);
        }
        Ok(0)
    }

    /// "a mark listed twice counts once"
    fn marks(&mut self, sets: usize) -> Result<u8, Refusal> {
        self.expect(Kind::Mark(b'{'))?;
        let mut marks = 0;
        while !self.take_if(Kind::Mark(b'}'))? {
            let (_, set) = self.declared(sets)?;
            marks |= 1 << set;
        }
        Ok(marks)
    }

    // "A label is built of numbers, t, f, !, & and |, binding in that order". The three
    // functions give the set of letters that satisfy what they read, bit l for letter l.

    fn any_of(&mut self, k: usize, depth: usize) -> Result<u16, Refusal> {
        let mut letters = self.all_of(k, depth)?;
        while self.take_if(Kind::Mark(b'|'))? {
            letters |= self.all_of(k, depth)?;
        }
        Ok(letters)
    }

    fn all_of(&mut self, k: usize, depth: usize) -> Result<u16, Refusal> {
        let mut letters = self.one_of(k, depth)?;
        while self.take_if(Kind::Mark(b'&'))? {
            letters &= self.one_of(k, depth)?;
        }
        Ok(letters)
    }

    fn one_of(&mut self, k: usize, depth: usize) -> Result<u16, Refusal> {
        let before = self.at;
        let next = self.take()?;
        match next.kind {
            Kind::Mark(b'!' | b'(') if depth == MAX_NESTING => Err(Refusal::at(2, next.at)),
            Kind::Mark(b'!') => Ok(!self.one_of(k, depth + 1)?),
            Kind::Mark(b'(') => {
                let letters = self.any_of(k, depth + 1)?;
                self.expect(Kind::Mark(b')'))?;
                Ok(letters)
            }
            Kind::Word(b"t") => Ok(u16::MAX),
            Kind::Word(b"f") => Ok(0),
            _ => {
                self.at = before;
                let (_, proposition) = self.declared(k)?;
                Ok(letters_with(proposition))
            }
        }
    }

    /// "Only blanks may follow the second (else 1)"
    fn only_blanks_follow(&self) -> Result<(), Refusal> {
        let rest = skip(self.text, self.at, is_blank);
        if rest < self.text.len() {
            return Err(Refusal::at(1, rest));
        }
        Ok(())
    }
}

impl State {
    /// "One state may not mix both kinds: the first edge of the other kind is refused with 1"
    /// (document 02, E1)
    fn keep_to(&mut self, form: Form, at: usize) -> Result<(), Refusal> {
        if *self.form.get_or_insert(form) != form {
            return Err(Refusal::at(1, at));
        }
        Ok(())
    }
}

impl Items {
    /// "at `--BODY--` an item missing": 3; "a start (judged at `--BODY--`, after 3)": 4.
    fn judge(self, at: usize) -> Result<Header, Refusal> {
        let (Some(states), Some((start_at, start)), Some((sets, acceptance))) =
            (self.states, self.start, self.acceptance)
        else {
            return Err(Refusal::at(3, at));
        };
        if start >= states as u64 {
            return Err(Refusal::at(4, start_at));
        }
        // "`AP:` at most once (absent: k = 0)"
        Ok(Header { states, start: start as usize, names: self.names.unwrap_or_default(), sets, acceptance })
    }
}

/// The letters in which the proposition holds: "bit i of a letter is proposition i".
fn letters_with(proposition: usize) -> u16 {
    (0..16u16).filter(|letter| letter >> proposition & 1 == 1).fold(0, |set, letter| set | 1 << letter)
}

/// "missing states and edges are judged after the whole text": "at the end, the lowest state
/// without one (offset: text length)": 5; "no edge, lowest state then letter, after 5": 7.
/// "Too few give 7." (document 02, E1)
fn judge_whole(text: &[u8], states: Vec<Option<State>>) -> Result<Vec<Vec<Transition>>, Refusal> {
    if let Some(q) = states.iter().position(|state| state.is_none()) {
        return Err(Refusal::new(5, text.len() as u64, q as u64));
    }
    let mut table = Vec::new();
    for (q, state) in states.into_iter().flatten().enumerate() {
        if let Some(letter) = state.row.iter().position(|edge| edge.is_none()) {
            return Err(Refusal::new(7, q as u64, letter as u64));
        }
        table.push(state.row.into_iter().flatten().collect());
    }
    Ok(table)
}

// ---------------------------------------------------------------------------------------
// The writer

/// "Written: HOA, States, Start, AP (left out for k = 0), Acceptance, each on its line with one
/// space between tokens but none inside the condition"
pub fn write(automaton: &Automaton) -> Vec<u8> {
    let mut out = Vec::new();
    line(&mut out, "HOA: v1");
    line(&mut out, &format!("States: {}", automaton.states()));
    line(&mut out, &format!("Start: {}", automaton.start));
    write_names(&mut out, &automaton.names);
    let condition = written(automaton.acceptance, automaton.sets);
    line(&mut out, &format!("Acceptance: {} {condition}", automaton.sets));
    line(&mut out, "--BODY--");
    // "then per state ascending `State: q` and one line per letter ascending"
    for (state, row) in automaton.table.iter().enumerate() {
        line(&mut out, &format!("State: {state}"));
        for (letter, edge) in row.iter().enumerate() {
            let label = written_label(automaton.propositions(), letter);
            line(&mut out, &format!("[{label}] {}{}", edge.to, written_marks(edge.marks)));
        }
    }
    line(&mut out, "--END--");
    out
}

/// "Every line ends in LF"
fn line(out: &mut Vec<u8>, text: &str) {
    out.extend_from_slice(text.as_bytes());
    out.push(b'\n');
}

fn write_names(out: &mut Vec<u8>, names: &[Vec<u8>]) {
    if names.is_empty() {
        return;
    }
    out.extend_from_slice(format!("AP: {}", names.len()).as_bytes());
    for name in names {
        out.extend_from_slice(b" \"");
        out.extend_from_slice(name);
        out.push(b'"');
    }
    out.push(b'\n');
}

/// "label in full as `[!0&1]` (k = 0: `[t]`)"
pub fn written_label(k: usize, letter: usize) -> String {
    if k == 0 {
        return "t".to_string();
    }
    let literal = |i: usize| if letter >> i & 1 == 1 { format!("{i}") } else { format!("!{i}") };
    (0..k).map(literal).collect::<Vec<String>>().join("&")
}

/// "if marked one space and the marks as `{0 2}`"
fn written_marks(marks: u8) -> String {
    if marks == 0 {
        return String::new();
    }
    let listed: Vec<String> =
        (0..MAX_SETS).filter(|set| marks >> set & 1 == 1).map(|set| set.to_string()).collect();
    format!(" {{{}}}", listed.join(" "))
}

#[cfg(test)]
mod tests {
    use super::*;

    fn refused(text: &str) -> (u8, u64, u64) {
        let refusal = read(text.as_bytes()).expect_err("the text should be turned down");
        (refusal.number, refusal.a, refusal.b)
    }

    /// The offset of the `nth` place (from 0) where `part` stands in `text`.
    fn place(text: &str, part: &str, nth: usize) -> u64 {
        text.match_indices(part).nth(nth).expect("the part stands there").0 as u64
    }

    fn one_state(k: usize, acceptance: &str, edges: &str) -> String {
        let names = ["\"a\"", "\"b\"", "\"c\"", "\"d\""][..k].join(" ");
        format!(
            "HOA: v1 States: 1 Start: 0 AP: {k} {names} Acceptance: {acceptance} --BODY-- State: 0 {edges} --END--"
        )
    }

    /// Two states, one proposition, two sets.
    fn two_states(body: &str) -> String {
        format!("HOA: v1 States: 2 Start: 0 AP: 1 \"a\" Acceptance: 2 Inf(0)&Inf(1) --BODY-- {body} --END--")
    }

    /// The destinations and marks, by state and letter.
    fn table(text: &str) -> Vec<Vec<(usize, u8)>> {
        let read = read(text.as_bytes()).expect("the text should be read");
        read.table.iter().map(|row| row.iter().map(|edge| (edge.to, edge.marks)).collect()).collect()
    }

    /// Asserts that the text is refused with the number where `rest`, with which the body ends, begins.
    fn refused_from(number: u8, text: &str, rest: &str) {
        assert_eq!(refused(text), (number, place(text, &format!("{rest} --END--"), 0), 0), "{text}");
    }

    #[test]
    fn known_decks_of_the_reader() {
        // "k = 1, only `[0]`: 7,0,0." "`[0]` then `[t]`: 6,0,1."
        assert_eq!(refused(&one_state(1, "0 t", "[0] 0")), (7, 0, 0));
        assert_eq!(refused(&one_state(1, "0 t", "[0] 0 [t] 0")), (6, 0, 1));
        // "States 16 passes, 17 gives 2"
        let states = |count: usize| {
            let body: String = (0..count).map(|q| format!("State: {q} [t] 0\n")).collect();
            format!("HOA: v1 States: {count} Start: 0 Acceptance: 0 t --BODY-- {body} --END--")
        };
        assert_eq!(read(states(16).as_bytes()).unwrap().states(), 16);
        assert_eq!(refused(&states(17)), (2, 16, 0));
    }

    #[test]
    fn written_text_reads_back() {
        let text = one_state(2, "2 Inf(0)&Inf(1)", "[!0&!1]0[0&!1]0{0}[!0&1]0{1 1}[0&1]0{1 0}");
        let read_once = read(text.as_bytes()).unwrap();
        let written = write(&read_once);
        let lines = "HOA: v1\nStates: 1\nStart: 0\nAP: 2 \"a\" \"b\"\nAcceptance: 2 Inf(0)&Inf(1)\n--BODY--\n\
                     State: 0\n[!0&!1] 0\n[0&!1] 0 {0}\n[!0&1] 0 {1}\n[0&1] 0 {0 1}\n--END--\n";
        assert_eq!(String::from_utf8(written.clone()).unwrap(), lines);
        assert_eq!(read(&written).unwrap(), read_once);
    }

    #[test]
    fn no_propositions_are_left_out() {
        let text = "HOA:v1 States:1 Start:0--BODY----END--";
        assert_eq!(refused(text), (3, place(text, "--BODY--", 0), 0));
        let written = write(&read(one_state(0, "0 t", "[t] 0").as_bytes()).unwrap());
        let lines = "HOA: v1\nStates: 1\nStart: 0\nAcceptance: 0 t\n--BODY--\nState: 0\n[t] 0\n--END--\n";
        assert_eq!(written, lines.as_bytes());
    }

    #[test]
    fn labels_bind_in_order() {
        let edges = "[!0&1|0&!1]0{0} [!(!0&1|0&!1)] 0";
        let read = read(one_state(2, "1 Inf(0)", edges).as_bytes()).unwrap();
        let marks: Vec<u8> = read.table[0].iter().map(|edge| edge.marks).collect();
        assert_eq!(marks, [0, 1, 1, 0]);
    }

    #[test]
    fn nesting_to_the_limit() {
        let deep = |open: &str, close: &str, depth: usize| {
            one_state(0, "0 t", &format!("[{}t{}] 0", open.repeat(depth), close.repeat(depth)))
        };
        assert!(read(deep("(", ")", 32).as_bytes()).is_ok());
        assert!(read(deep("!", "", 32).as_bytes()).is_ok());
        let text = deep("!", "", 33);
        assert_eq!(refused(&text), (2, place(&text, "!t", 0), 0));
        let text = deep("!(", ")", 17);
        assert_eq!(refused(&text), (2, place(&text, "!(t", 0), 0));
        // Closed ones no longer count.
        let text = one_state(0, "0 t", &format!("[{}t] 0", "!!t|(t)&".repeat(40)));
        assert!(read(text.as_bytes()).is_ok());
    }

    /// The sets and the acceptance of a condition, with its count.
    fn acceptance(condition: &str) -> (usize, u16) {
        let read = read(one_state(0, condition, "[t] 0").as_bytes()).expect("the condition should be read");
        (read.sets, read.acceptance)
    }

    #[test]
    fn conditions_as_tools_write_them() {
        assert_eq!(acceptance("0 t"), (0, 0b1));
        assert_eq!(acceptance("0 f"), (0, 0b0));
        assert_eq!(acceptance("1 Inf(0)"), (1, 0b10));
        assert_eq!(acceptance("1 Fin(0)"), (1, 0b01));
        assert_eq!(acceptance("1 t"), (1, 0b11));
        assert_eq!(acceptance("2 (Fin(0) & Inf(1))"), (2, 0b0100));
        assert_eq!(acceptance("2 (Fin(0) | Inf(1))"), (2, 0b1101));
        assert_eq!(acceptance("3 (Fin(0)&Inf(1)&Inf(2))"), (3, 0b0100_0000));
        // Rabin and Streett with two pairs: {1} {1 2} {3} {0 3} {1 3} {0 1 3} {1 2 3}, and nine of the 16.
        assert_eq!(acceptance("4 (Fin(0) & Inf(1)) | (Fin(2) & Inf(3))"), (4, 0b0100_1111_0100_0100));
        assert_eq!(acceptance("4 (Fin(0) | Inf(1)) & (Fin(2) | Inf(3))"), (4, 0b1101_1101_0000_1101));
        // Parity of three, the highest or the lowest that is met being even or odd.
        assert_eq!(acceptance("3 Inf(2) | (Fin(1) & Inf(0))"), (3, 0b1111_0010));
        assert_eq!(acceptance("3 Fin(2) & (Inf(1) | Fin(0))"), (3, 0b0000_1101));
        assert_eq!(acceptance("3 Inf(0) | (Fin(1) & Inf(2))"), (3, 0b1011_1010));
        assert_eq!(acceptance("3 Fin(0) & (Inf(1) | Fin(2))"), (3, 0b0100_0101));
    }

    #[test]
    fn conditions_bind_in_order() {
        assert_eq!(acceptance("2 t | f & f"), (2, 0b1111));
        assert_eq!(acceptance("2 f & f | t"), (2, 0b1111));
        assert_eq!(acceptance("2 (t | f) & f"), (2, 0));
        assert_eq!(acceptance("2 Inf(0) | Inf(1) & Fin(0)"), (2, 0b1110));
        assert_eq!(acceptance("2 (Inf(0) | Inf(1)) & Fin(0)"), (2, 0b0100));
        assert_eq!(acceptance("2 Fin(0) & Inf(1) | Inf(0) & Fin(1)"), (2, 0b0110));
        // Inf of all in other words, with and without blanks.
        for condition in [
            "2 Inf(1)&Inf(0)", "2Inf(0)&Inf(1)&Inf(0)", "2((Inf(1)))&(Inf(0))", "2 Inf\t(\n0 ) & Inf ( 1)",
            "2 t&Inf(0)&Inf(1)", "2 Inf(0)&Inf(1)|f", "2 (Inf(0)|Inf(1)&f)&Inf(1)",
        ] {
            assert_eq!(acceptance(condition), (2, 0b1000), "{condition}");
        }
        let text = one_state(0, "2 Inf(1)&Inf(0)", "[t] 0");
        let written = String::from_utf8(write(&read(text.as_bytes()).unwrap())).unwrap();
        assert!(written.contains("\nAcceptance: 2 Inf(0)&Inf(1)\n"), "{written}");
    }

    #[test]
    fn written_conditions_read_back() {
        for sets in 0..=4 {
            for table in 0..=(1u32 << (1 << sets)) - 1 {
                if sets < 4 || table % 61 == 0 || table == 0xffff || table == 0x8000 {
                    let condition = format!("{sets} {}", written(table as u16, sets));
                    assert_eq!(acceptance(&condition), (sets, table as u16), "{condition}");
                }
            }
        }
    }

    #[test]
    fn brackets_of_a_condition_to_the_limit() {
        let deep =
            |depth: usize| one_state(0, &format!("1 {}Fin(0){}", "(".repeat(depth), ")".repeat(depth)), "[t] 0");
        // The bracket of `Fin(` does not count.
        assert_eq!(read(deep(32).as_bytes()).unwrap().acceptance, 0b01);
        let text = deep(33);
        assert_eq!(refused(&text), (2, place(&text, "(Fin", 0), 0));
        let text = deep(40);
        assert_eq!(refused(&text), (2, place(&text, "(", 0) + 32, 0));
        // Closed ones no longer count, and one too many where a sign is due is no nesting.
        assert_eq!(acceptance(&format!("1 {}f", "(Inf(0))|((t))&".repeat(40))), (1, 0b10));
        let text = one_state(0, &format!("1 {}t (", "(".repeat(32)), "[t] 0");
        assert_eq!(refused(&text), (1, place(&text, "t (", 0) + 2, 0));
    }

    /// Asserts that a text with this condition is refused with the number where `part` stands.
    fn refuses(number: u8, condition: &str, part: &str) {
        let text = one_state(0, condition, "[t] 0");
        assert_eq!(refused(&text), (number, place(&text, part, 0), 0), "{condition}");
    }

    #[test]
    fn malformed_conditions() {
        for (condition, part) in [
            ("0 --BODY--", "--BODY--"),
            ("1 Inf(00)", "00"),
            ("1 Inf(0) & --BODY--", "--BODY--"),
            ("2 Inf(0) | name: \"x\"", "name:"),
            ("1 (Inf(0)", "--BODY--"),
            ("1 (Inf(0) name: \"x\"", "name:"),
            ("1 Inf(0))", ") --BODY"),
            ("1 ()", ")"),
            ("1 (& t)", "&"),
            ("1 | t", "|"),
            ("1 t & | t", "| t"),
            ("1 t t", "t --B"),
            ("0 t 0", "0 --B"),
            ("1 Inf(0) Fin(0)", "Fin"),
            ("1 (t) t", "t --B"),
            ("1 (t) (t)", "(t) --B"),
            ("1 Inf 0", "0 --B"),
            ("1 Inf", "--BODY--"),
            ("1 Inf(", "--BODY--"),
            ("1 Inf(0", "--BODY--"),
            ("1 Inf()", ")"),
            ("1 Inf((0))", "(0)"),
            ("1 Inf(0 0)", "0) --B"),
            ("1 Inf(t)", "t) --B"),
            ("1 !Inf(0)", "!"),
            ("1 Inf(!0)", "!0"),
            ("1 Inf(0) & !Fin(0)", "!"),
            ("1 0", "0 --B"),
            ("1 inf(0)", "inf"),
            ("1 tInf(0)", "tInf"),
            ("1 t-", "t- "),
            ("1 Inf-x(0)", "Inf-x"),
            ("1 Inf0", "Inf0"),
            ("1 Inf:(0)", "Inf:"),
            ("0 t--BODY--", "t--BODY--"),
            ("1 Inf(0)@a", "@a"),
            ("1 Inf(0) --ABORT--", "--ABORT--"),
            ("1 Inf(0) --END--", "--END--"),
            ("1 Inf(0) [t]", "[t] --B"),
            ("1 Inf(0) \"x\"", "\"x\""),
            ("1 Inf(0) {0}", "{"),
            ("1 Inf(0) $", "$"),
            ("1 Inf(/* 0 */)", "/*"),
            ("t", "t --B"),
            ("00 t", "00 t"),
            ("01 Inf(0)", "01"),
            ("--BODY--", "--BODY--"),
        ] {
            refuses(1, condition, part);
        }
        assert_eq!(refused("HOA: v1 Acceptance: 1 Inf("), (1, 26, 0));
        assert_eq!(refused("HOA: v1 Acceptance: 1 Inf(0) &\n"), (1, 31, 0));
        assert_eq!(refused("HOA: v1 Acceptance: 1 (t"), (1, 24, 0));
        assert_eq!(refused("HOA: v1 Acceptance: 1 t"), (1, 23, 0));
        assert_eq!(refused("HOA: v1 Acceptance: 1 "), (1, 22, 0));
        assert_eq!(refused("HOA: v1 Acceptance: 1 \"t"), (1, 24, 0));
    }

    #[test]
    fn sets_of_a_condition_that_are_not_declared() {
        refuses(4, "0 Inf(0)", "0) --B");
        refuses(4, "1 Fin(1)", "1) --B");
        refuses(4, "2 Inf(0)&Inf(1)&Inf(2)", "2) --B");
        refuses(4, "4 Inf(4)", "4) --B");
        refuses(4, "1 Inf(99999999999999999999)", "9999");
        // From left to right.
        refuses(4, "1 Inf(1 $", "1 $");
        refuses(4, "1 Inf(1) & !", "1) &");
        refuses(1, "1 ! Inf(1)", "!");
        refuses(2, "5 Inf(5)", "5 Inf");
        refuses(2, "99999999999999999999 t", "9999");
        // The whole header is read before a start is judged, and another item twice is 3 as before.
        refuses(3, "1 Inf(0) Acceptance: $", "Acceptance: $");
    }

    #[test]
    fn names_are_judged_in_order() {
        let names = |list: &str| format!("HOA: v1 AP: 2 {list} States: 1");
        assert_eq!(refused(&names("\"a\" \"a\"")), (3, 18, 0));
        assert_eq!(refused(&names("\"\" \"a\"")), (2, 14, 0));
        assert_eq!(refused(&names("\"12345678901234567\" \"a\"")), (2, 14, 0));
        // "another byte gives 1, before the length is judged"
        assert_eq!(refused(&names("\"12345678901234567\\\"\" \"a\"")), (1, 14, 0));
        assert_eq!(refused(&names("\"a\" States: 2")), (1, 18, 0));
        assert_eq!(refused("HOA: v1 AP: 5"), (2, 12, 0));
        assert_eq!(refused("HOA: v1 AP: 1 \"a\\\""), (1, 18, 0));
    }

    #[test]
    fn second_edge_before_or_after_what_follows() {
        let text = one_state(1, "1 Inf(0)", "[t] 0 [0] 0 $");
        assert_eq!(refused(&text), (6, 0, 1));
        let text = one_state(1, "1 Inf(0)", "[t] 0 [0] 0 {1}");
        assert_eq!(refused(&text), (4, place(&text, "1}", 0), 0));
        let text = one_state(1, "1 Inf(0)", "[t] 0 [0] 0 {0} $");
        assert_eq!(refused(&text), (6, 0, 1));
        let text = one_state(1, "1 Inf(0)", "[t] 0 [0] 0 0");
        assert_eq!(refused(&text), (6, 0, 1));
        let text = one_state(1, "1 Inf(0)", "[t] 0 [f] 0 {}");
        assert!(read(text.as_bytes()).is_ok());
    }

    #[test]
    fn missing_and_double_states() {
        let body = |states: &str| format!("HOA: v1 States: 2 Start: 0 Acceptance: 0 t --BODY-- {states} --END--");
        let text = body("State: 1 [t] 0");
        assert_eq!(refused(&text), (5, text.len() as u64, 0));
        let text = body("State: 1 [t] 0 State: 1");
        assert_eq!(refused(&text), (5, place(&text, "1 --END--", 0), 1));
        let text = body("State: 2 [t] 0");
        assert_eq!(refused(&text), (4, place(&text, "2 [", 0), 0));
        let text = body("State: 1 State: 0 [t] 0");
        assert_eq!(refused(&text), (7, 1, 0));
        let text = body("[t] 0 State: 1");
        assert_eq!(refused(&text), (1, place(&text, "[", 0), 0));
    }

    #[test]
    fn marks_of_a_state_join_the_edges_own() {
        let text = two_states("State: 0 {1} [0] 1 {0} [!0] 0 State: 1 {1 1} [t] 0 {1}");
        assert_eq!(table(&text), [[(0, 2), (1, 3)], [(0, 2), (0, 2)]]);
        let text = two_states("State: 0 {1} 0 1 {0} State: 1 {0 1} 0 {} 1 {1}");
        assert_eq!(table(&text), [[(0, 2), (1, 3)], [(0, 3), (1, 3)]]);
        let text = two_states("State:0{}[t]0{0}State:1{}0 1");
        assert_eq!(table(&text), [[(0, 1), (0, 1)], [(0, 0), (1, 0)]]);
    }

    #[test]
    fn marks_of_a_state_end_with_it() {
        let text = two_states("State: 1 {0 1} [t] 1 State: 0 [!0] 0 [0] 1 {1}");
        assert_eq!(table(&text), [[(0, 0), (1, 2)], [(1, 3), (1, 3)]]);
        let text = two_states("State: 0 {0} 1 0 State: 1 0 {1} 1");
        assert_eq!(table(&text), [[(1, 1), (0, 1)], [(0, 2), (1, 0)]]);
        // Nor do they begin with the edge before.
        let text = two_states("State: 0 {0} [!0] 0 {1} [0] 0 State: 1 {0} 0 {1} 0");
        assert_eq!(table(&text), [[(0, 3), (0, 1)], [(0, 3), (0, 1)]]);
    }

    #[test]
    fn marks_of_a_state_come_after_its_text() {
        let text = two_states("State: 0 \"x\" {1} [t] 0 State: 1 \"{0}\"{0}1 1");
        assert_eq!(table(&text), [[(0, 2), (0, 2)], [(1, 1), (1, 1)]]);
        for (before, rest) in [("{0} ", "\"x\" [t] 0"), ("\"x\" {} ", "\"y\" 0 0"), ("\"x\" ", "\"y\" {0}")] {
            refused_from(1, &one_state(1, "1 Inf(0)", &format!("{before}{rest}")), rest);
        }
        for (before, rest) in [("{0} ", "{0} [t] 0"), ("{} ", "{} 0 0"), ("{0 ", "{0}} 0 0"), ("{0 ", "[t] 0")] {
            refused_from(1, &one_state(1, "1 Inf(0)", &format!("{before}{rest}")), rest);
        }
        // Labels of states are not read.
        refused_from(1, &two_states("State: 0 {0} 0 0 State: [0] 1"), "[0] 1");
    }

    #[test]
    fn marks_of_a_state_that_are_refused() {
        refused_from(4, &one_state(1, "1 Inf(0)", "{1} [t] 0"), "1} [t] 0");
        refused_from(4, &one_state(1, "1 Inf(0)", "{0 0 99999999999999999999} 9"), "99999999999999999999} 9");
        refused_from(4, &one_state(1, "0 t", "\"x\" {0} 0 0"), "0} 0 0");
        refused_from(1, &one_state(1, "1 Inf(0)", "{00} 0 0"), "00} 0 0");
        refused_from(1, &one_state(1, "1 Inf(0)", "{t} 0 0"), "t} 0 0");
        // "a state's body twice (offset of the second number)": before its marks are read.
        let text = two_states("State: 1 {0} 0 0 State: 1 {2} $");
        assert_eq!(refused(&text), (5, place(&text, "1 {2}", 0), 1));
    }

    #[test]
    fn listed_edges_are_in_letter_order() {
        let text = one_state(2, "2 Inf(0)&Inf(1)", "0 0{0} 0 {1}0{1 0 1}");
        assert_eq!(table(&text), [[(0, 0), (0, 1), (0, 2), (0, 3)]]);
        let text = two_states("State: 1 1 0 {0} State: 0 0{1}1");
        assert_eq!(table(&text), [[(0, 2), (1, 0)], [(1, 0), (0, 1)]]);
        // With k = 0 there is one letter.
        assert_eq!(table(&one_state(0, "1 Inf(0)", "0")), [[(0, 0)]]);
        assert_eq!(table(&one_state(0, "1 Inf(0)", "{0}0")), [[(0, 1)]]);
    }

    #[test]
    fn listed_edges_that_are_refused() {
        refused_from(4, &two_states("State: 0 0 0 State: 1 0 2 {9}"), "2 {9}");
        refused_from(4, &two_states("State: 0 0 0 State: 1 0 1 {2}"), "2}");
        refused_from(1, &two_states("State: 0 0 0 State: 1 0 01"), "01");
        refused_from(1, &two_states("State: 0 0 0 State: 1 0&1"), "&1");
        refused_from(1, &two_states("State: 0 0 0 State: 1 0 {0} {1}"), "{1}");
        // Where no state has begun.
        refused_from(1, &two_states("0 State: 0 0 0"), "0 State: 0 0 0");
        refused_from(1, &two_states("9"), "9");
    }

    /// "One state may not mix both kinds" (document 02, E1)
    #[test]
    fn both_kinds_in_one_state() {
        for (before, rest) in [
            ("[!0] 0 ", "0"),
            ("[0] 0 {0} ", "0 {0}"),
            ("[0] 0 ", "9"),
            ("[0] 0 ", "00"),
            ("[t] 0 ", "0"),
            ("[f] 0 ", "0 0"),
            ("[f] 0 ", "9"),
            ("0 ", "[0] 0"),
            ("0 {0} ", "[t] 0"),
            ("0 ", "[f] 0 0"),
            ("0 ", "[9] 9"),
            ("0 0 ", "[f] 0"),
            ("{0} 0 ", "[0] 0"),
        ] {
            refused_from(1, &one_state(1, "1 Inf(0)", &format!("{before}{rest}")), rest);
        }
        // Two states may be of two kinds, and a state without edges is of neither.
        let text = two_states("State: 0 0 1 State: 1 [t] 0");
        assert_eq!(table(&text), [[(0, 0), (1, 0)], [(0, 0), (0, 0)]]);
        let text = two_states("State: 1 [0] 0 [f] 0 [!0] 1 State: 0 0 1");
        assert_eq!(table(&text), [[(0, 0), (1, 0)], [(1, 0), (0, 0)]]);
        assert_eq!(refused(&two_states("State: 0 State: 1 0 0")), (7, 0, 0));
    }

    /// "an unlabelled edge after the last letter" (document 02, E1)
    #[test]
    fn one_listed_edge_too_many() {
        for (before, rest) in
            [("0 0 ", "0"), ("0 0{0}", "0{9}"), ("0 0 ", "1"), ("{0} 0 0 ", "99999999999999999999")]
        {
            refused_from(1, &one_state(1, "1 Inf(0)", &format!("{before}{rest}")), rest);
        }
        refused_from(1, &one_state(0, "0 t", "0 0"), "0");
        refused_from(1, &one_state(4, "0 t", &format!("{}1", "0 ".repeat(16))), "1");
        refused_from(1, &two_states("State: 0 0 0 2 State: 1"), "2 State: 1");
    }

    #[test]
    fn listed_edges_that_are_missing() {
        assert_eq!(refused(&one_state(1, "0 t", "")), (7, 0, 0));
        assert_eq!(refused(&one_state(2, "0 t", "0 0 0")), (7, 0, 3));
        assert_eq!(refused(&one_state(4, "0 t", &"0 ".repeat(15))), (7, 0, 15));
        assert_eq!(refused(&two_states("State: 1 0 State: 0 0 0")), (7, 1, 1));
        assert_eq!(refused(&two_states("State: 1 State: 0 0")), (7, 0, 1));
        let text = two_states("State: 0 0");
        assert_eq!(refused(&text), (5, text.len() as u64, 1));
    }

    #[test]
    fn the_short_forms_are_written_in_full() {
        let text = two_states("State: 1 \"x\" {1} 1 0 {0} State: 0 {0} [t] 1");
        let read_once = read(text.as_bytes()).unwrap();
        let written = write(&read_once);
        let lines = "HOA: v1\nStates: 2\nStart: 0\nAP: 1 \"a\"\nAcceptance: 2 Inf(0)&Inf(1)\n--BODY--\n\
                     State: 0\n[!0] 1 {0}\n[0] 1 {0}\nState: 1\n[!0] 1 {1}\n[0] 0 {0 1}\n--END--\n";
        assert_eq!(String::from_utf8(written.clone()).unwrap(), lines);
        assert_eq!(read(&written).unwrap(), read_once);
    }

    #[test]
    fn the_start_is_judged_at_the_body() {
        let text = "HOA: v1 Start: 1 States: 1 --BODY--";
        assert_eq!(refused(text), (3, 27, 0));
        let text = "HOA: v1 Start: 99999999999999999999999 States: 1 Acceptance: 0 t --BODY--";
        assert_eq!(refused(text), (4, 15, 0));
    }

    #[test]
    fn the_length_of_the_text() {
        let mut text = one_state(0, "0 t", "[t] 0").into_bytes();
        text.resize(65_536, b'\n');
        assert!(read(&text).is_ok());
        text.push(b'\n');
        assert_eq!(read(&text), Err(Refusal::new(2, 65_536, 0)));
        assert_eq!(refused(""), (1, 0, 0));
        assert_eq!(refused("HOA: v1"), (1, 7, 0));
    }

    #[test]
    fn the_offset_of_what_starts_no_token() {
        let text = one_state(0, "0 t", "[t] 0").replace("State: 0", "/* one */ State: 0");
        assert_eq!(refused(&text), (1, place(&text, "/*", 0), 0));
        let text = one_state(0, "0 t", "[t] 0").replace("--END--", "--EN");
        assert_eq!(refused(&text), (1, place(&text, "--EN", 0), 0));
        let text = one_state(0, "0 t", "[t] 0") + " HOA:";
        assert_eq!(refused(&text), (1, place(&text, "HOA:", 1), 0));
    }
}
