//! What each call prints.

use crate::automaton::Refusal;
use crate::compare::Comparison;
use crate::decode::Decoded;
use crate::hoa;
use crate::search::Search;
use crate::word::Word;

pub fn refusal_text(refusal: &Refusal) -> Vec<u8> {
    format!("{refusal}\n").into_bytes()
}

/// What the comparison prints.
pub fn comparison_text(comparison: &Comparison) -> String {
    match comparison {
        Comparison::Same => "same\n".to_string(),
        Comparison::Differ(word) => {
            format!("differ {} {}\n{}", word.prefix.len(), word.cycle.len(), word.lines())
        }
    }
}

/// What the decoder prints on 12.
fn differs_text(word: &Word) -> String {
    format!("{}\n{}", word.refusal(), word.lines())
}

pub fn decoded_text(decoded: &Decoded) -> Vec<u8> {
    match decoded {
        Decoded::Table(table) => hoa::write(table),
        Decoded::None => b"none\n".to_vec(),
        Decoded::Unknown => b"unknown\n".to_vec(),
        Decoded::Differs(word) => differs_text(word).into_bytes(),
    }
}

pub fn search_text(search: &Search) -> Vec<u8> {
    if !search.finished {
        return format!("ask {} {}\n", search.n, search.m).into_bytes();
    }
    let first: &[u8] = if search.open { b"finished open\n" } else { b"finished\n" };
    [first, &hoa::write(&search.best)].concat()
}
