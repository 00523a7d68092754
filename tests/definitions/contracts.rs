// The contracts of the functions that another crate can name, what impls say of their traits' methods, and the names in them.
use crate::antt::{words, Imports};
use crate::{files, Room};
use std::fs;
use std::path::Path;

pub fn names(krate: &Path, name: &str) -> Vec<(Room, String, String)> {
    let source = krate.join("src");
    let Ok(root) = fs::read_to_string(source.join("lib.rt")) else { return Vec::new() };
    let mut found = Vec::new();
    for file in files(&source, ".rt") {
        let module = file.trim_end_matches(".rt");
        if module == "lib" || root.lines().any(|line| line.trim() == format!("pub mod {module};")) {
            found.extend(of_file(name, &fs::read_to_string(source.join(&file)).unwrap()));
        }
    }
    found
}

fn of_file(krate: &str, text: &str) -> Vec<(Room, String, String)> {
    let mut imports = Imports::default();
    for item in text.split(';') {
        if let Some(import) = item.trim_start().lines().skip_while(|line| !line.starts_with("ghost use ")).collect::<Vec<_>>().join(" ").strip_prefix("ghost use ") {
            imports.add(import);
        }
    }
    let mut found = Vec::new();
    let mut function: Option<&str> = None;
    let mut begun = false;
    let mut ghost = false;
    for line in text.lines().map(str::trim) {
        // what an impl says of its trait's methods, as `ghost from_gives = { .. };`, perhaps over several lines
        ghost |= line.starts_with("ghost ") && !line.starts_with("ghost use ");
        if ghost {
            let names = words(line).into_iter().filter_map(|word| imports.resolve(&word));
            found.extend(names.map(|(room, name)| (room, name, format!("an impl of {krate}"))));
            ghost = !line.ends_with(';');
            continue;
        }
        if let Some(rest) = public(line) {
            function = rest.split(['(', '<']).next();
            begun = false;
        }
        // the body
        if line == "{" || line.ends_with(") {") {
            function = None;
        }
        let Some(of) = function else { continue };
        // a contract may go over several lines
        begun |= line.starts_with("ensures") || line.starts_with("requires");
        if begun {
            let names = words(line).into_iter().filter_map(|word| imports.resolve(&word));
            found.extend(names.map(|(room, name)| (room, name, format!("the contract of {krate}::{of}"))));
        }
    }
    found
}

fn public(code: &str) -> Option<&str> {
    code.strip_prefix("pub fn ").or_else(|| code.strip_prefix("pub extern \"C\" fn "))
}
