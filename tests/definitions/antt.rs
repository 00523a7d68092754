// A file of specs/, taken apart as far as names go: what it imports, and which names each of its items mentions.
use crate::Room;
use std::collections::{BTreeMap, BTreeSet};

#[derive(Default)]
pub struct Imports {
    // a name, or the alias of a module, and where it comes from
    names: BTreeMap<String, (Room, String)>,
    modules: BTreeMap<String, Room>,
}

impl Imports {
    // `use PLACE.{a, b as c}`, `use PLACE as c`; only places in specs/ of a crate count, and not those that the code declares.
    pub fn add(&mut self, line: &str) {
        let line = line.trim().trim_end_matches(';');
        let (place, names) = line.split_once(".{").unwrap_or((line, ""));
        let (place, alias) = place.split_once(" as ").unwrap_or((place, ""));
        let Some(room) = room_of(place.trim()) else { return };
        if !alias.is_empty() {
            self.modules.insert(alias.trim().to_string(), room.clone());
        }
        for name in names.trim_end_matches('}').split(',').map(str::trim).filter(|n| !n.is_empty()) {
            let (name, alias) = name.split_once(" as ").unwrap_or((name, name));
            self.names.insert(alias.trim().to_string(), (room.clone(), name.trim().to_string()));
        }
    }

    pub fn resolve(&self, word: &str) -> Option<(Room, String)> {
        if let Some(found) = self.names.get(word) {
            return Some(found.clone());
        }
        // a name behind the alias of a module, or a field of what a name stands for
        let (head, rest) = word.split_once('.')?;
        let name = rest.split('.').next().unwrap_or(rest);
        self.modules.get(head).map(|room| (room.clone(), name.to_string())).or_else(|| self.names.get(head).cloned())
    }
}

// `Rattle.NAME.specs.Place`
fn room_of(place: &str) -> Option<Room> {
    let (krate, module) = place.strip_prefix("Rattle.")?.split_once(".specs.")?;
    let theirs = ["std", "core"].contains(&krate) || module.starts_with("declared.");
    (!theirs).then(|| (krate.to_string(), module.to_string()))
}

// The words of a text, with brackets and points as words of their own.
pub fn words(text: &str) -> Vec<String> {
    let mut found: Vec<String> = Vec::new();
    let mut word = String::new();
    for c in text.chars().chain(" ".chars()) {
        let bracket = "(){}".contains(c);
        if !(c.is_whitespace() || bracket || "[],;⌜⌝⟦⟧\"".contains(c)) {
            word.push(c);
            continue;
        }
        let ended = word.len() > 1 && word.ends_with('.');
        let bare = word.trim_end_matches('.').to_string();
        word.clear();
        // a field that is read, `.name`, is no name
        if !bare.is_empty() && !bare.starts_with('.') {
            found.push(bare);
        }
        if ended {
            found.push(".".to_string());
        }
        if bracket {
            found.push(c.to_string());
        }
    }
    found
}

// The variables that a text binds: what stands between a bracket and a colon, or between a λ and its point.
fn bound(words: &[String]) -> BTreeSet<String> {
    let mut found = BTreeSet::new();
    let mut begun: Option<(&str, Vec<String>)> = None;
    for word in words {
        match word.as_str() {
            "(" | "{" | "λ" => begun = Some((word, Vec::new())),
            ")" | "}" => begun = None,
            "." | ":" => {
                if let Some((open, names)) = begun.take() {
                    if (open == "λ") == (word == ".") {
                        found.extend(names);
                    }
                }
            }
            _ => {
                if let Some((_, names)) = &mut begun {
                    names.push(word.clone());
                }
            }
        }
    }
    found
}

struct Item {
    name: String,
    // what else it declares: constructors and fields
    parts: Vec<String>,
    text: String,
    definition: bool,
    line: usize,
}

pub struct Spec {
    pub marked: bool,
    imports: Imports,
    items: Vec<Item>,
    // the line of `-- ---- the proof`
    proof: usize,
}

// A section, `module _ (..) where`: how far it and its items are indented, and the text of its parameters.
struct Section {
    depth: usize,
    inner: Option<usize>,
    text: String,
}

pub fn parse(text: &str) -> Spec {
    let mut spec = Spec { marked: text.starts_with("-- DEFINITION"), imports: Imports::default(), items: Vec::new(), proof: usize::MAX };
    let mut sections: Vec<Section> = Vec::new();
    for (number, line) in text.lines().enumerate() {
        if line.trim() == "-- ---- the proof" {
            spec.proof = number;
        }
        let code = line.split("--").next().unwrap_or("").trim_end();
        let depth = code.len() - code.trim_start().len();
        let code = code.trim_start();
        if code.is_empty() {
            continue;
        }
        if let Some(import) = code.strip_prefix("use ") {
            spec.imports.add(import);
            continue;
        }
        if let Some(open) = sections.last_mut().filter(|s| s.inner.is_none() && !s.text.ends_with("where")) {
            open.text = format!("{} {code}", open.text);
            continue;
        }
        while sections.last().is_some_and(|s| depth <= s.depth) {
            sections.pop();
        }
        let level = sections.last_mut().map_or(0, |s| *s.inner.get_or_insert(depth));
        if depth == level && code.starts_with("module _") {
            sections.push(Section { depth, inner: None, text: code.to_string() });
        } else if depth == level {
            outer(&mut spec.items, code, number, &sections);
        } else if let Some(item) = spec.items.last_mut() {
            inner(item, code);
        }
    }
    spec
}

// A line at the depth of items: a signature, or a clause of the item before it.
fn outer(items: &mut Vec<Item>, code: &str, line: usize, sections: &[Section]) {
    let marks = ["abbrev ", "unfoldable ", "pub "];
    let mut rest = code;
    while let Some(less) = marks.iter().find_map(|mark| rest.strip_prefix(mark)) {
        rest = less;
    }
    let kind = ["record ", "data "].iter().find_map(|kind| rest.strip_prefix(kind));
    let name = kind.unwrap_or(rest).split_whitespace().next().unwrap_or("").to_string();
    if kind.is_some() || rest[name.len()..].starts_with(" : ") {
        let definition = kind.is_some() || code.starts_with("abbrev ") || code.starts_with("unfoldable ");
        let text = sections.iter().map(|s| s.text.as_str()).collect::<Vec<_>>().join(" ");
        items.push(Item { name, parts: Vec::new(), text, definition, line });
    }
    if let Some(item) = items.last_mut() {
        item.text = format!("{} {code}", item.text);
    }
}

// A line further in. A constructor or a field is declared and not mentioned: of `pub name : type` the type counts.
fn inner(item: &mut Item, code: &str) {
    let declared = code.strip_prefix("pub ").unwrap_or(code).split_once(" : ").filter(|(name, _)| item.definition && !name.contains([' ', '(', '{']));
    let mut counts = code;
    if let Some((name, kind)) = declared {
        item.parts.push(name.to_string());
        counts = kind;
    }
    item.text = format!("{} {counts}", item.text);
}

impl Spec {
    // the item that declares the name
    pub fn home(&self, name: &str) -> Option<&str> {
        let own = self.items.iter().find(|item| item.name == name);
        own.or_else(|| self.items.iter().find(|item| item.parts.iter().any(|p| p == name))).map(|item| item.name.as_str())
    }

    // the names that an item mentions, and where they stand
    pub fn leads(&self, room: &Room, name: &str) -> Vec<(Room, String)> {
        let Some(item) = self.items.iter().find(|item| item.name == name) else { return Vec::new() };
        let words = words(&item.text);
        let bound = bound(&words);
        let head = |word: &String| word.split('.').next().unwrap_or(word).to_string();
        let own = |word: &String| self.items.iter().find(|i| i.name == head(word) && i.name != name).map(|i| (room.clone(), i.name.clone()));
        words.iter().filter(|word| !bound.contains(&head(word))).filter_map(|word| self.imports.resolve(word).or_else(|| own(word))).collect()
    }

    pub fn laws(&self) -> Vec<&str> {
        self.items.iter().filter(|item| !item.definition).map(|item| item.name.as_str()).collect()
    }

    pub fn in_head(&self, name: &str) -> bool {
        self.items.iter().any(|item| item.name == name && item.line < self.proof)
    }

    pub fn head(&self) -> Vec<String> {
        self.items.iter().filter(|item| item.line < self.proof).map(|item| item.name.clone()).collect()
    }
}
