//! Generated HOA texts: valid ones in many layouts, and damaged ones.

use crate::automaton::*;
use crate::generate::{any_automaton, names, random_sizes, Random};
use crate::generate_acceptance::condition;
use crate::generate_formula::{full, label, words, Token};

/// Nearly half are valid.
pub fn hoa_text(random: &mut Random) -> Vec<u8> {
    parts_and_text(random).1
}

/// The parts, and the text that they give, perhaps with damage to its tokens or bytes.
fn parts_and_text(random: &mut Random) -> (Parts, Vec<u8>) {
    let valid = random.below(100) < 37;
    let (states, k, sets) = random_sizes(random);
    let automaton = any_automaton(random, states, k, sets);
    let mut parts = Parts::of(random, &automaton);
    if valid {
        let text = lay_out(random, &parts.tokens());
        let text = if random.one_in(100) { lengthened(text, 65_536) } else { text };
        return (parts, text);
    }
    let text = match random.below(8) {
        0 | 1 => {
            parts.damage(random, &automaton);
            lay_out(random, &parts.tokens())
        }
        2 => {
            parts.damage_short_forms(random, &automaton);
            lay_out(random, &parts.tokens())
        }
        3 => {
            parts.damage_acceptance(random, &automaton);
            lay_out(random, &parts.tokens())
        }
        4 | 5 => {
            let mut tokens = parts.tokens();
            damage_tokens(random, &mut tokens);
            lay_out(random, &tokens)
        }
        _ => {
            let mut text = lay_out(random, &parts.tokens());
            damage_bytes(random, &mut text);
            text
        }
    };
    (parts, text)
}

fn quoted(text: &[u8]) -> Token {
    [b"\"", text, b"\""].concat()
}

// ---------------------------------------------------------------------------------------
// The parts of a text

/// The header's items, and the states, as tokens.
struct Parts {
    opening: Vec<Token>,
    items: Vec<Vec<Token>>,
    states: Vec<State>,
    closing: Vec<Token>,
}

/// A state's number, what stands before its edges, and the edges.
#[derive(Clone)]
struct State {
    number: usize,
    head: Vec<Token>,
    edges: Vec<Vec<Token>>,
}

impl State {
    /// Whether the edges have no labels.
    fn is_listed(&self) -> bool {
        self.edges.first().is_some_and(|edge| edge[0] != b"[")
    }
}

impl Parts {
    fn of(random: &mut Random, automaton: &Automaton) -> Parts {
        // All states are listed, some, or none.
        let listed_of_four = random.pick(&[0, 0, 0, 1, 4]);
        let mut states: Vec<State> = Vec::new();
        for q in 0..automaton.states() {
            let listed = random.below(4) < listed_of_four;
            states.push(state_part(random, automaton, q, listed));
        }
        if random.one_in(2) {
            random.shuffle(&mut states);
        }
        Parts { opening: words("HOA: v1"), items: items(random, automaton), states, closing: words("--END--") }
    }

    fn tokens(&self) -> Vec<Token> {
        let mut all = self.opening.clone();
        all.extend(self.items.concat());
        all.extend(words("--BODY--"));
        for state in &self.states {
            all.extend(state.head.clone());
            all.extend(state.edges.concat());
        }
        all.extend(self.closing.clone());
        all
    }

    /// Something that a whole part of the text has wrong.
    fn damage(&mut self, random: &mut Random, automaton: &Automaton) {
        if self.states.is_empty() {
            return;
        }
        let at = random.below(self.states.len());
        let labelled = self.state_of_kind(random, false);
        match random.below(16) {
            0 => drop_one(random, &mut self.items),
            1 => double_one(random, &mut self.items),
            2 => drop_one(random, &mut self.states),
            3 => double_one(random, &mut self.states),
            4 | 8 => drop_one(random, &mut self.states[at].edges),
            5 => double_one(random, &mut self.states[labelled].edges),
            6 | 14 | 15 => self.states[labelled].edges.insert(0, any_edge(random, automaton)),
            7 => self.replace(b"AP:", names_item(odd_names(random))),
            9 => self.nest(random, automaton),
            10 => self.odd_state(random),
            11 => {
                let item =
                    words(random.pick(&["Alias: @a 0", "HOA: v1", "State: 0", "_x: 1", "x: @a", "x: 01", "x: !t"]));
                let at = random.below(self.items.len() + 1);
                self.items.insert(at, item);
            }
            12 => {
                let start = random.pick(&["Start: 0 & 1", "Start: 0 1", "Start: 16", "Start:", "Start: 00"]);
                self.replace(b"Start:", words(start));
            }
            _ => {
                let states =
                    random.pick(&["0", "17", "16", "01", "1 1", "99999999999999999999", "4294967297", "t"]);
                self.replace(b"States:", words(&format!("States: {states}")));
            }
        }
    }

    fn damage_acceptance(&mut self, random: &mut Random, automaton: &Automaton) {
        let item = odd_acceptance(random, automaton);
        self.replace(b"Acceptance:", item);
    }

    fn replace(&mut self, name: &[u8], item: Vec<Token>) {
        match self.items.iter().position(|item| item[0] == name) {
            Some(at) => self.items[at] = item,
            None => self.items.push(item),
        }
    }

    /// A label that nests about 32 deep; it holds always or never.
    fn nest(&mut self, random: &mut Random, automaton: &Automaton) {
        let depth = random.within(31, 34);
        let mut label = words(random.pick(&["t", "f"]));
        for _ in 0..depth {
            if random.one_in(2) {
                label.insert(0, b"!".to_vec());
            } else {
                label.insert(0, b"(".to_vec());
                label.push(b")".to_vec());
            }
        }
        let at = self.state_of_kind(random, false);
        if random.one_in(2) {
            self.states[at].edges.clear();
        }
        self.states[at].edges.push(edge_anywhere(random, label, automaton));
    }

    /// A form of a state that HOA has and that is not read here, or another number.
    fn odd_state(&mut self, random: &mut Random) {
        let at = random.below(self.states.len());
        let odd = words(random.pick(&[
            "State: [t] 0", "State: 0 \"x\" \"y\"", "State:", "State: 00", "State: 16", "State: t", "States: 1",
            "State: 18446744073709551616",
        ]));
        self.states[at].head = odd;
    }

    /// The place of a state that is listed or not, if there is one; else of any.
    fn state_of_kind(&self, random: &mut Random, listed: bool) -> usize {
        let all = 0..self.states.len();
        let of_kind: Vec<usize> = all.filter(|&at| self.states[at].is_listed() == listed).collect();
        if of_kind.is_empty() {
            return random.below(self.states.len());
        }
        random.pick(&of_kind)
    }

    /// Something that has to do with edges without labels or with the marks of a state: mostly it
    /// is wrong, or else it is valid and at times another table.
    fn damage_short_forms(&mut self, random: &mut Random, automaton: &Automaton) {
        let at = random.below(self.states.len());
        match random.below(9) {
            0 | 1 => other_kind(random, automaton, &mut self.states[at].edges),
            2..=5 => {
                let edges = self.edges_of_listed(random, automaton);
                damage_list(random, automaton, edges);
            }
            6 => {
                // A second time, which is seen before the marks are read.
                let mut again = self.states[at].clone();
                odd_marks(random, automaton, &mut again.head);
                self.states.push(again);
            }
            _ => odd_marks(random, automaton, &mut self.states[at].head),
        }
    }

    /// The edges of a listed state; if there is none, one becomes such.
    fn edges_of_listed(&mut self, random: &mut Random, automaton: &Automaton) -> &mut Vec<Vec<Token>> {
        let at = self.state_of_kind(random, true);
        let state = &mut self.states[at];
        if !state.is_listed() {
            *state = state_part(random, automaton, state.number, true);
        }
        &mut state.edges
    }
}

/// One listed edge too many or too few, two exchanged, or one with a label that never holds.
fn damage_list(random: &mut Random, automaton: &Automaton, edges: &mut Vec<Vec<Token>>) {
    match random.below(4) {
        0 => {
            let to = random.pick(&[0, automaton.states() - 1, automaton.states(), 16]);
            edges.push(words(&to.to_string()));
        }
        1 => drop_one(random, edges),
        2 => {
            let one = random.below(edges.len());
            let other = (one + random.within(1, edges.len().max(2) - 1)) % edges.len();
            edges.swap(one, other);
        }
        _ => {
            let label = label(random, automaton.propositions(), 0);
            edges.insert(random.below(edges.len() + 1), edge_anywhere(random, label, automaton));
        }
    }
}

/// One edge loses its label, or is given one, at times one that cannot be read.
fn other_kind(random: &mut Random, automaton: &Automaton, edges: &mut [Vec<Token>]) {
    let edge = &mut edges[random.below(edges.len())];
    if let Some(end) = edge.iter().position(|token| token == b"]") {
        edge.drain(..=end);
        return;
    }
    let k = automaton.propositions();
    let letters = random.next() as u16 & full(k);
    let odd = random.one_in(4);
    let label = if odd { words(random.pick(&["4", "00", "@a", "t t", "("])) } else { label(random, k, letters) };
    *edge = [words("["), label, words("]"), edge.clone()].concat();
}

/// Other marks on a `State:` line: none, a set twice or too high, or where marks do not stand.
fn odd_marks(random: &mut Random, automaton: &Automaton, head: &mut Vec<Token>) {
    let too_high = format!("{{ {} }}", automaton.sets);
    let with_too_high = format!("\"x\" {{ 0 {} }}", automaton.sets);
    head.truncate(2);
    head.extend(words(random.pick(&[
        "{ }", "{ 0 }", "{ 0 0 }", "\"x\" { 0 }", "\"x\" { }", &too_high, &with_too_high, "{ 4 }", "{ 00 }",
        "{ 18446744073709551616 }", "{ t }", "{", "}", "{ 0 } { 0 }", "{ } { }", "{ 0 } \"x\"", "{ } \"x\"",
        "\"x\" { } \"y\"", "{ } 00", "{ 0 } 16",
    ])));
}

fn drop_one<T>(random: &mut Random, list: &mut Vec<T>) {
    if !list.is_empty() {
        list.remove(random.below(list.len()));
    }
}

fn double_one<T: Clone>(random: &mut Random, list: &mut Vec<T>) {
    if !list.is_empty() {
        let again = list[random.below(list.len())].clone();
        list.insert(random.below(list.len() + 1), again);
    }
}

fn items(random: &mut Random, automaton: &Automaton) -> Vec<Vec<Token>> {
    let mut items = vec![
        words(&format!("States: {}", automaton.states())),
        words(&format!("Start: {}", automaton.start)),
        acceptance_item(random, automaton),
    ];
    if automaton.propositions() > 0 || random.one_in(2) {
        items.push(names_item(automaton.names.clone()));
    }
    for _ in 0..random.below(4) {
        items.push(skipped_item(random));
    }
    random.shuffle(&mut items);
    items
}

fn acceptance_item(random: &mut Random, automaton: &Automaton) -> Vec<Token> {
    let sets = automaton.sets;
    [words(&format!("Acceptance: {sets}")), condition(random, automaton.acceptance, sets)].concat()
}

fn names_item(names: Vec<Vec<u8>>) -> Vec<Token> {
    let mut item = words(&format!("AP: {}", names.len()));
    item.extend(names.iter().map(|name| quoted(name)));
    item
}

fn skipped_item(random: &mut Random) -> Vec<Token> {
    match random.below(6) {
        0 => words("properties: trans-labels explicit-labels trans-acc complete deterministic"),
        1 => words("acc-name: generalized-Buchi 2"),
        2 => [words("tool:"), vec![quoted(b"x"), quoted(b"1.0")]].concat(),
        3 => [words("name:"), vec![quoted(&any_text(random))]].concat(),
        4 => words(random.pick(&["x:", "a_b-c: t f 17 Inf", "v1: HOA v1", "z9_: 99999999999999999999", "t: t"])),
        _ => [words("x-y: 7"), vec![quoted(&any_text(random))], words("t 0")].concat(),
    }
}

const BETWEEN_QUOTES: [&[u8]; 16] = [
    b"a", b" ", b"\\\"", b"\\\\", b"--BODY--", b"--END--", b"State: 0", b"/* x */", b"\n", b"\\n", b"\x00",
    b"\xc3\xbc", b"\xff", b"{0}", b"GFa & GFb", b"\\\n",
];

/// What may stand between quotes in a skipped item or a state's name.
fn any_text(random: &mut Random) -> Vec<u8> {
    (0..random.below(6)).flat_map(|_| random.pick(&BETWEEN_QUOTES).to_vec()).collect()
}

fn odd_names(random: &mut Random) -> Vec<Vec<u8>> {
    let count = random.within(1, 5);
    let mut odd = names(random, count.min(4));
    odd.resize(count, b"z".to_vec());
    let at = random.below(count);
    odd[at] = match random.below(9) {
        0 => Vec::new(),
        1 => vec![b'x'; 17],
        2 => vec![b'x'; 16],
        3 => odd[random.below(count)].clone(),
        4 => b"a\\\"".to_vec(),
        5 => b"\xc3\xbc".to_vec(),
        6 => b"a\tb".to_vec(),
        7 => [vec![b'x'; 20], vec![127]].concat(),
        _ => b"b~ ".to_vec(),
    };
    odd
}

/// Another acceptance, which is mostly refused.
fn odd_acceptance(random: &mut Random, automaton: &Automaton) -> Vec<Token> {
    let mut item = acceptance_item(random, automaton);
    match random.below(8) {
        0 => drop_one(random, &mut item),
        1 => {
            let at = random.within(1, item.len());
            item.insert(at, any_sign(random));
        }
        2 => {
            let at = random.within(1, item.len() - 1);
            item[at] = any_sign(random);
        }
        3 => nest_condition(random, &mut item),
        4 => {
            // Sets that are declared no longer, or more of them than are named.
            item[1] = random.pick(&["0", "1", "2", "3", "4", "5", "00", "t"]).as_bytes().to_vec();
        }
        _ => return words(&format!("Acceptance: {}", random.pick(&ODD_CONDITIONS))),
    }
    item
}

const ODD_CONDITIONS: [&str; 58] = [
    "0 f", "0", "1 t", "1 Fin ( 0 )", "1 Inf ( ! 0 )", "1 ( Inf ( 0 ) )", "2 Inf ( 0 ) | Inf ( 1 )",
    "2 Inf ( 1 ) & Inf ( 0 )", "2 Inf ( 0 )", "1 Inf ( 0 ) & Inf ( 0 )", "5 Inf ( 0 )", "00 t", "01 Inf ( 0 )",
    "1 Inf ( 00 )", "0 t t", "0 t @a", "1 Inf ( 0 ) [", "1 Inf ( 0 ) \"x\"", "1 Inf ( 0 ) --END--", "t",
    "1 Inf ( 0 ) --ABORT--", "1 Inf ( 0 ) /* */", "1 Inf", "1 Inf (", "2 Inf ( 0 ) &", "1 Inf ( 1 )", "0 t 1",
    "3 Inf ( 0 ) & Inf ( 1 ) & Inf ( 1 )", "99999999999999999999 t", "0 t 00", "1 Inf-x ( 0 )", "0 t-",
    "1 ! Inf ( 0 )", "1 ! t", "2 Fin ( 0 ) & ! Inf ( 1 )", "1 Inf ( 18446744073709551616 )", "0 Inf ( 0 )",
    "1 ( Inf ( 0 )", "1 Inf ( 0 ) )", "1 ( )", "1 Inf ( )", "1 Inf ( ( 0 ) )", "1 Inf ( 0", "1 Inf 0", "1 Inf0",
    "1 tInf ( 0 )", "1 Inft", "1 ft", "1 t & & f", "1 t | & f", "1 | t", "1 t |", "1 Inf ( 0 ) Fin ( 0 )",
    "1 ( t ) ( f )", "1 t ( f )", "1 INF ( 0 )", "1 Inf : ( 0 )", "1 t f",
];

/// What may stand in a condition, or nearly so.
fn any_sign(random: &mut Random) -> Token {
    let signs =
        ["&", "|", "(", ")", "!", "t", "f", "Inf", "Fin", "0", "1", "3", "4", "00", "Inft", "t0", "--BODY--", "x:"];
    random.pick(&signs).as_bytes().to_vec()
}

/// The condition, or another that is joined to it, in about 32 brackets; at times one is not closed.
fn nest_condition(random: &mut Random, item: &mut Vec<Token>) {
    let depth = random.within(31, 34);
    let closed = depth - random.one_in(4) as usize;
    let inner = if random.one_in(2) {
        item.split_off(2)
    } else {
        item.extend(words("|"));
        words("f")
    };
    item.extend([vec![b"(".to_vec(); depth], inner, vec![b")".to_vec(); closed]].concat());
}

// ---------------------------------------------------------------------------------------
// States, edges, labels

fn state_part(random: &mut Random, automaton: &Automaton, q: usize, listed: bool) -> State {
    let of_state = marks_of_state(random, automaton, q);
    let mut head = words(&format!("State: {q}"));
    if random.one_in(4) {
        head.push(quoted(&any_text(random)));
    }
    head.extend(marks_part(random, of_state));
    let edges = if listed { listed_edges } else { labelled_edges };
    State { number: q, head, edges: edges(random, automaton, q, of_state) }
}

/// Some of the marks that all transitions of the state have: "`State: 0 {1}` puts set 1 on every
/// transition that leaves state 0" (document 02, E1)
fn marks_of_state(random: &mut Random, automaton: &Automaton, q: usize) -> u8 {
    let shared = automaton.table[q].iter().fold(automaton.all_marks(), |shared, edge| shared & edge.marks);
    match random.below(4) {
        0 | 1 => 0,
        2 => shared,
        _ => shared & random.next() as u8,
    }
}

/// The transition without marks of its state; at times it repeats some.
fn without(random: &mut Random, edge: Transition, of_state: u8) -> Transition {
    let any = random.next() as u8;
    let repeated = random.pick(&[0, 0, 0, any, u8::MAX]);
    Transition { marks: edge.marks & (!of_state | repeated), ..edge }
}

/// "A state whose edges have no labels lists them in letter order, 0 first." (document 02, E1)
fn listed_edges(random: &mut Random, automaton: &Automaton, q: usize, of_state: u8) -> Vec<Vec<Token>> {
    let mut edges = Vec::new();
    for &transition in &automaton.table[q] {
        let transition = without(random, transition, of_state);
        edges.push(destination(random, transition));
    }
    edges
}

fn labelled_edges(random: &mut Random, automaton: &Automaton, q: usize, of_state: u8) -> Vec<Vec<Token>> {
    let mut edges: Vec<Vec<Token>> = Vec::new();
    let mut left: Vec<usize> = (0..automaton.letters()).collect();
    while let Some(&first) = left.first() {
        let transition = automaton.step(q, first);
        let alone = random.one_in(4);
        let (taken, rest): (Vec<usize>, Vec<usize>) =
            left.iter().partition(|&&letter| letter == first || !alone && automaton.step(q, letter) == transition);
        let letters = taken.iter().fold(0u16, |set, letter| set | 1 << letter);
        let label = label(random, automaton.propositions(), letters);
        let transition = without(random, transition, of_state);
        edges.push(edge_of(random, label, transition));
        left = rest;
    }
    if random.one_in(10) {
        let label = label(random, automaton.propositions(), 0);
        edges.push(edge_anywhere(random, label, automaton));
    }
    random.shuffle(&mut edges);
    edges
}

/// An edge with this label, to any state, with any marks.
fn edge_anywhere(random: &mut Random, label: Vec<Token>, automaton: &Automaton) -> Vec<Token> {
    let marks = random.next() as u8 & automaton.all_marks();
    let to = random.below(automaton.states());
    edge_of(random, label, Transition { to, marks })
}

fn any_edge(random: &mut Random, automaton: &Automaton) -> Vec<Token> {
    let letters = random.next() as u16;
    let label = label(random, automaton.propositions(), letters & full(automaton.propositions()));
    edge_anywhere(random, label, automaton)
}

fn edge_of(random: &mut Random, label: Vec<Token>, transition: Transition) -> Vec<Token> {
    [words("["), label, words("]"), destination(random, transition)].concat()
}

/// The destination and the marks: all there is of a listed edge.
fn destination(random: &mut Random, transition: Transition) -> Vec<Token> {
    [words(&transition.to.to_string()), marks_part(random, transition.marks)].concat()
}

/// The marks in any order, perhaps one twice; where there are none, at times two braces.
fn marks_part(random: &mut Random, marks: u8) -> Vec<Token> {
    let mut marks: Vec<usize> = (0..MAX_SETS).filter(|set| marks >> set & 1 == 1).collect();
    if marks.is_empty() && !random.one_in(10) {
        return Vec::new();
    }
    if !marks.is_empty() && random.one_in(6) {
        marks.push(random.pick(&marks.clone()));
    }
    random.shuffle(&mut marks);
    let listed: Vec<String> = marks.iter().map(|mark| mark.to_string()).collect();
    words(&format!("{{ {} }}", listed.join(" ")))
}

// ---------------------------------------------------------------------------------------
// Layout

fn lay_out(random: &mut Random, tokens: &[Token]) -> Vec<u8> {
    let style = random.below(4);
    let mut text: Vec<u8> = Vec::new();
    if random.one_in(12) {
        text.extend_from_slice(b" \n");
    }
    for (at, token) in tokens.iter().enumerate() {
        if at > 0 {
            text.extend(blanks(random, style, &tokens[at - 1], token));
        }
        text.extend_from_slice(token);
    }
    let after: &[u8] = random.pick(&[b"\n".as_slice(), b"\n", b"\n", b"", b"\r\n", b" \t\n\n"]);
    text.extend_from_slice(after);
    text
}

/// What stands between two tokens.
fn blanks(random: &mut Random, style: usize, before: &Token, token: &Token) -> Vec<u8> {
    let least: &[u8] = if must_part(before, token) { b" " } else { b"" };
    match style {
        0 => least.to_vec(),
        1 => b" ".to_vec(),
        2 => as_printed(before, token, least).to_vec(),
        _ => {
            let many = random.below(3).max(least.len());
            (0..many).map(|_| random.pick(b" \t\n\r")).collect()
        }
    }
}

/// As tools print it: items, states and edges on a line each (of the listed edges those that come
/// after marks), labels without blanks.
fn as_printed<'a>(before: &Token, token: &Token, least: &'a [u8]) -> &'a [u8] {
    let item = token.ends_with(b":") || token.starts_with(b"--") || before.starts_with(b"--");
    if item || token == b"[" || before == b"}" {
        return b"\n";
    }
    let tight = |token: &Token| token.len() == 1 && b"!&|()[]{}".contains(&token[0]);
    if before.ends_with(b":") || before == b"]" || token == b"{" || !tight(before) && !tight(token) {
        return b" ";
    }
    least
}

/// Whether the two would be read as one token, or as others, without a blank between them.
fn must_part(before: &Token, token: &Token) -> bool {
    let (Some(&first), Some(&next)) = (before.first(), token.first()) else { return false };
    let word = (first.is_ascii_alphabetic() || first == b'_' || first == b'@') && !before.ends_with(b":");
    let goes_on = next.is_ascii_alphanumeric() || next == b'_' || next == b'-' || next == b':';
    word && goes_on || first.is_ascii_digit() && next.is_ascii_digit()
}

fn lengthened(mut text: Vec<u8>, length: usize) -> Vec<u8> {
    text.resize(length.max(text.len()), b'\n');
    text
}

// ---------------------------------------------------------------------------------------
// Damage

fn any_token(random: &mut Random) -> Token {
    let tokens = [
        "State:", "HOA:", "v1", "States:", "Start:", "AP:", "Acceptance:", "Alias:", "name:", "Fin", "Inf", "t",
        "f", "@a", "@", "!", "&", "|", "(", ")", "[", "]", "{", "}", "--BODY--", "--END--", "--ABORT--", "--BODY-",
        "--", "-", "\"x\"", "\"\"", "\"\\\"", "\"", "0", "1", "2", "00", "01", "/*x*/", "/", ":", ";", "x", "16",
        "17", "5", "99999999999999999999999", "4294967296", "18446744073709551616", "\u{80}", "t:", "_", "_:",
    ];
    random.pick(&tokens).as_bytes().to_vec()
}

fn damage_tokens(random: &mut Random, tokens: &mut Vec<Token>) {
    for _ in 0..random.within(1, 2) {
        if tokens.is_empty() {
            return;
        }
        let at = random.below(tokens.len());
        match random.below(9) {
            0 => drop(tokens.remove(at)),
            1 => tokens.insert(at, tokens[at].clone()),
            2 => {
                let other = (at + 1) % tokens.len();
                tokens.swap(at, other);
            }
            3 => tokens[at] = any_token(random),
            4 => tokens.insert(at, any_token(random)),
            5..=7 => other_number(random, tokens),
            _ => tokens.truncate(at.max(1)),
        }
    }
}

fn other_number(random: &mut Random, tokens: &mut [Token]) {
    let numbers: Vec<usize> = (0..tokens.len()).filter(|&at| tokens[at][0].is_ascii_digit()).collect();
    if !numbers.is_empty() {
        let number = random.pick(&[
            "0", "1", "2", "4", "5", "16", "17", "00", "01", "256", "4294967296", "65536", "18446744073709551616",
            "340282366920938463463374607431768211456",
        ]);
        tokens[random.pick(&numbers)] = number.as_bytes().to_vec();
    }
}

fn damage_bytes(random: &mut Random, text: &mut Vec<u8>) {
    if random.one_in(30) {
        let length = random.within(65_536, 65_538);
        *text = lengthened(std::mem::take(text), length);
        return;
    }
    for _ in 0..random.within(1, 3) {
        if text.is_empty() {
            return;
        }
        let at = random.below(text.len());
        match random.below(6) {
            0 => text[at] = any_byte(random),
            1 => drop(text.remove(at)),
            2 => text.insert(at, any_byte(random)),
            3 => text.truncate(at.max(1)),
            4 => text.push(any_byte(random)),
            _ => {
                let other = random.below(text.len());
                text.swap(at, other);
            }
        }
    }
}

fn any_byte(random: &mut Random) -> u8 {
    match random.below(3) {
        0 => random.next() as u8,
        _ => random.pick(b" \t\n\r\"\\0123456789tf!&|()[]{}-:@/*_aAzZ\x0b\x0c\x00\x7f"),
    }
}

#[cfg(test)]
mod tests {
    use super::*;
    use crate::hoa;
    use std::collections::BTreeMap;

    fn listed_states(parts: &Parts) -> usize {
        parts.states.iter().filter(|state| state.is_listed()).count()
    }

    /// What stands between braces.
    fn sets(tokens: &[Token]) -> Vec<&Token> {
        tokens.iter().skip_while(|token| *token != b"{").skip(1).take_while(|token| *token != b"}").collect()
    }

    fn has_marked_state(parts: &Parts) -> bool {
        parts.states.iter().any(|state| !sets(&state.head).is_empty())
    }

    /// Whether a set stands on a state's line and on one of its edges.
    fn has_repeated_mark(parts: &Parts) -> bool {
        let repeats =
            |state: &State, edge: &Vec<Token>| sets(edge).iter().any(|set| sets(&state.head).contains(set));
        parts.states.iter().any(|state| state.edges.iter().any(|edge| repeats(state, edge)))
    }

    #[test]
    fn valid_texts_read_as_meant() {
        let mut random = Random::new(4);
        let (mut all_listed, mut some_listed, mut repeated, mut left_out) = (0, 0, 0, 0);
        for _ in 0..400 {
            let (states, k, sets) = random_sizes(&mut random);
            let automaton = any_automaton(&mut random, states, k, sets);
            let mut parts = Parts::of(&mut random, &automaton);
            let text = lay_out(&mut random, &parts.tokens());
            let due = Ok(automaton);
            assert!(hoa::read(&text) == due, "{}", String::from_utf8_lossy(&text));
            all_listed += (listed_states(&parts) == states) as usize;
            some_listed += (1..states).contains(&listed_states(&parts)) as usize;
            repeated += has_repeated_mark(&parts) as usize;
            // Without the marks of the states the text means another table.
            parts.states.iter_mut().for_each(|state| state.head.truncate(2));
            left_out += (hoa::read(&lay_out(&mut random, &parts.tokens())) != due) as usize;
        }
        assert!(all_listed > 40 && some_listed > 20, "{all_listed} and {some_listed} of 400");
        assert!(repeated > 20 && left_out > 40, "{repeated} and {left_out} of 400");
    }

    #[test]
    fn all_refusals_of_the_reader_occur() {
        let mut random = Random::new(5);
        let (mut count, mut with_listed, mut with_marked) = ([0; 8], [0; 8], [0; 8]);
        for _ in 0..3000 {
            let (parts, text) = parts_and_text(&mut random);
            let number = hoa::read(&text).err().map_or(0, |refusal| refusal.number as usize);
            count[number] += 1;
            with_listed[number] += (listed_states(&parts) > 0) as usize;
            with_marked[number] += has_marked_state(&parts) as usize;
        }
        assert!(count.iter().all(|&times| times > 20), "{count:?}");
        assert!(with_listed.iter().all(|&times| times > 5), "{with_listed:?}");
        assert!(with_marked.iter().all(|&times| times > 5), "{with_marked:?}");
    }

    #[test]
    fn damage_of_the_acceptance_has_all_ends() {
        let mut random = Random::new(7);
        let mut ends: BTreeMap<&str, usize> = BTreeMap::new();
        for _ in 0..2000 {
            let (states, k, sets) = random_sizes(&mut random);
            let automaton = any_automaton(&mut random, states, k, sets);
            let mut parts = Parts::of(&mut random, &automaton);
            parts.damage_acceptance(&mut random, &automaton);
            let text = lay_out(&mut random, &parts.tokens());
            let end = match hoa::read(&text) {
                Ok(read) if read.acceptance == automaton.acceptance => "the same",
                Ok(_) => "another",
                Err(Refusal { number: 1, a, .. }) => match &text[a as usize..] {
                    [b'!', ..] => "1 at !",
                    [b'(' | b')', ..] => "1 at a bracket",
                    [b'&' | b'|', ..] => "1 at a sign",
                    [b'0'..=b'9', ..] => "1 at a number",
                    [b'I' | b'F' | b't' | b'f', ..] => "1 at a word",
                    rest if rest.starts_with(b"--BODY--") => "1 at the body",
                    _ => "1 elsewhere",
                },
                Err(Refusal { number: 2, a, .. }) if text[a as usize] == b'(' => "2 at a bracket",
                Err(Refusal { number: 2, .. }) => "2 at the count",
                Err(Refusal { number: 4, .. }) => "4",
                Err(_) => "another refusal",
            };
            *ends.entry(end).or_default() += 1;
        }
        let due = [
            "the same", "another", "1 at !", "1 at a bracket", "1 at a sign", "1 at a number", "1 at a word",
            "1 at the body", "1 elsewhere", "2 at a bracket", "2 at the count", "4",
        ];
        assert!(due.iter().all(|end| ends.get(end) > Some(&20)), "{ends:?}");
    }

    #[test]
    fn damage_of_short_forms_has_all_ends() {
        let mut random = Random::new(6);
        let mut ends: BTreeMap<&str, usize> = BTreeMap::new();
        for _ in 0..2000 {
            let (states, k, sets) = random_sizes(&mut random);
            let automaton = any_automaton(&mut random, states, k, sets);
            let mut parts = Parts::of(&mut random, &automaton);
            parts.damage_short_forms(&mut random, &automaton);
            let text = lay_out(&mut random, &parts.tokens());
            let end = match hoa::read(&text) {
                Ok(read) if read == automaton => "the same table",
                Ok(_) => "another table",
                Err(Refusal { number: 1, a, .. }) => match text[a as usize..] {
                    [b'[', ..] => "1 at a label",
                    [b'1', b'6', ..] => "1 at an undeclared state",
                    [b'0'..=b'9', ..] => "1 at a number",
                    [b'"', ..] => "1 at a text",
                    [b'{', ..] => "1 at marks",
                    _ => "1 elsewhere",
                },
                Err(Refusal { number: 4, .. }) => "4",
                Err(Refusal { number: 5, .. }) => "5",
                Err(Refusal { number: 7, .. }) => "7",
                Err(_) => "another refusal",
            };
            *ends.entry(end).or_default() += 1;
        }
        let due = [
            "the same table", "another table", "1 at a label", "1 at an undeclared state", "1 at a number",
            "1 at a text", "1 at marks", "4", "5", "7",
        ];
        assert!(due.iter().all(|end| ends.get(end) > Some(&20)), "{ends:?}");
    }
}
