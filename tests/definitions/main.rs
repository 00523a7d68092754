// What a reader has to believe is marked. Follows the names from the contracts of all functions that another crate can name, and from the statements at the
// head of the demands, through every definition, and tells of each that stands in a file whose first line does not begin with DEFINITION; of each law in a
// file so marked; and of each such file that nothing leads to, or that docs/CLAIMS.md does not name.
//
//     definitions ROOT [list]     nothing is printed where all is in order; `list` prints the marked files of each crate
mod antt;
mod contracts;

use antt::Spec;
use std::collections::{BTreeMap, BTreeSet};
use std::path::Path;
use std::{env, fs, process};

// A file of definitions, by its crate and its module below specs/.
pub type Room = (String, String);

// Statements stand at the head of these files, and their proofs below.
const STATEMENTS: [[&str; 2]; 4] = [["demands", "Demand1"], ["demands", "Demand2"], ["demands", "Demand3"], ["decks", "Decks"]];

// What is said over lists of calls of the search stands beside them.
const CLAIMED: [[&str; 3]; 1] = [["search", "Calls", "Searches"]];

fn main() {
    let words: Vec<String> = env::args().collect();
    let root = Path::new(words.get(1).expect("definitions ROOT [list]"));
    let specs = read_specs(root);
    if words.get(2).map(String::as_str) == Some("list") {
        return list(&specs);
    }
    let claims = fs::read_to_string(root.join("docs/CLAIMS.md")).unwrap_or_default();
    let faults = judge(root, &specs, &claims);
    for fault in &faults {
        println!("{fault}");
    }
    process::exit(i32::from(!faults.is_empty()));
}

fn read_specs(root: &Path) -> BTreeMap<Room, Spec> {
    let mut specs = BTreeMap::new();
    for krate in folders(&root.join("crates")) {
        for file in files(&root.join("crates").join(&krate).join("specs"), ".antt") {
            let text = fs::read_to_string(root.join("crates").join(&krate).join("specs").join(&file)).unwrap();
            let module = file.trim_end_matches(".antt").to_string();
            specs.insert((krate.clone(), module), antt::parse(&text));
        }
    }
    specs
}

fn list(specs: &BTreeMap<Room, Spec>) {
    let mut marked: BTreeMap<&str, Vec<&str>> = BTreeMap::new();
    for ((krate, module), spec) in specs {
        if spec.marked {
            marked.entry(krate).or_default().push(module);
        }
    }
    for (krate, modules) in marked {
        println!("{krate}: {}", modules.join(", "));
    }
}

fn judge(root: &Path, specs: &BTreeMap<Room, Spec>, claims: &str) -> BTreeSet<String> {
    let mut faults = BTreeSet::new();
    let mut used = BTreeSet::new();
    let mut seen: BTreeSet<(Room, String)> = BTreeSet::new();
    let mut open: Vec<(Room, String, String)> = roots(root, specs);
    while let Some((room, name, from)) = open.pop() {
        let Some(spec) = specs.get(&room) else { continue };
        let Some(item) = spec.home(&name) else { continue };
        if !seen.insert((room.clone(), item.to_string())) {
            continue;
        }
        used.insert(room.clone());
        if !spec.marked && !is_statement(&room, spec, item) {
            faults.insert(format!("{}/specs/{}.antt: {item}, which {from} leads to, stands in a file that is not marked", room.0, room.1));
        }
        for (target, next) in spec.leads(&room, item) {
            open.push((target, next, format!("{}/{}", room.0, item)));
        }
    }
    for (room, spec) in specs {
        if !spec.marked {
            continue;
        }
        let place = format!("{}/specs/{}.antt", room.0, room.1);
        for law in spec.laws() {
            faults.insert(format!("{place}: {law} is no definition, and stands in a marked file"));
        }
        if !used.contains(room) {
            faults.insert(format!("{place}: marked, and no public contract or demand leads there"));
        }
        if !named(claims, &room.0, &room.1) {
            faults.insert(format!("{place}: docs/CLAIMS.md does not name it among the definitions of {}", room.0));
        }
    }
    faults
}

// CLAIMS has a line `| `crate` | `File`, `File` |` for each crate with definitions.
fn named(claims: &str, krate: &str, module: &str) -> bool {
    let (row, file) = (format!("| `{krate}` |"), format!("`{module}`"));
    claims.lines().any(|line| line.starts_with(&row) && line.contains(&file))
}

fn is_statement(room: &Room, spec: &Spec, item: &str) -> bool {
    STATEMENTS.contains(&[room.0.as_str(), room.1.as_str()]) && spec.in_head(item)
}

// The names in the public contracts, and the statements of the demands.
fn roots(root: &Path, specs: &BTreeMap<Room, Spec>) -> Vec<(Room, String, String)> {
    let mut found = Vec::new();
    for krate in folders(&root.join("crates")) {
        found.extend(contracts::names(&root.join("crates").join(&krate), &krate));
    }
    for [krate, module, name] in CLAIMED.map(|words| words.map(str::to_string)) {
        found.push(((krate, module), name, "a claim".to_string()));
    }
    for [krate, module] in STATEMENTS {
        let room = (krate.to_string(), module.to_string());
        if let Some(spec) = specs.get(&room) {
            for item in spec.head() {
                found.push((room.clone(), item, "the demand".to_string()));
            }
        }
    }
    found
}

pub fn folders(dir: &Path) -> Vec<String> {
    sorted(dir, |path| path.is_dir())
}

pub fn files(dir: &Path, end: &str) -> Vec<String> {
    sorted(dir, |path| path.is_file()).into_iter().filter(|name| name.ends_with(end)).collect()
}

fn sorted(dir: &Path, keep: impl Fn(&Path) -> bool) -> Vec<String> {
    let mut names: Vec<String> = fs::read_dir(dir)
        .map(|entries| entries.flatten().filter(|e| keep(&e.path())).map(|e| e.file_name().to_string_lossy().into_owned()).collect())
        .unwrap_or_default();
    names.sort();
    names
}
