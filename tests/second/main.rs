//! A second program for the service-table reducer, written from documents 01 and 02 alone, with
//! which the first one is compared. It shares no code with it.
//!
//!     normalize < FILE
//!     clauses N M [LIST] < REFERENCE
//!     compare FIRST SECOND
//!     check FIRST SECOND PRINTED
//!     decode REFERENCE N M [LIST] < SOLVER-OUTPUT
//!     check-decode REFERENCE N M [LIST] PRINTED < SOLVER-OUTPUT
//!     profile clauses N M 1|2 ACCEPTANCE transitions < REFERENCE
//!     profile decode REFERENCE N M 1|2 ACCEPTANCE transitions < SOLVER-OUTPUT
//!     search REFERENCE [ANSWER-FILE ..]
//!     check-search REFERENCE PRINTED [ANSWER-FILE ..]
//!     generate hoa|pairs|solver|profile|lists|search SEED COUNT DIRECTORY
//!     against PROGRAMS SEED COUNT DIRECTORY
//!
//! A refusal is one line `refused NUMBER A B` on standard output. The three `check` calls read
//! what the first program printed for the same input and print `ok` or what is wrong with it;
//! `against` gives generated inputs to the programs in the folder PROGRAMS and does the same.

mod against;
mod automaton;
mod check;
mod clauses;
mod compare;
mod components;
mod decode;
mod formula;
mod generate;
mod generate_acceptance;
mod generate_formula;
mod generate_hoa;
mod generate_solver;
mod hoa;
mod numbering;
mod printed;
mod product;
mod search;
mod solver;
mod word;

use automaton::{Automaton, List, Named, Profile, Refusal};
use printed::{comparison_text, decoded_text, refusal_text, search_text};
use std::io::{self, BufWriter, Read, Write};
use std::{env, fs, process};

/// Why there is no answer.
enum Problem {
    Refused(Refusal),
    /// Bad arguments, or a file that cannot be read.
    Unusable(String),
}

impl From<Refusal> for Problem {
    fn from(refusal: Refusal) -> Problem {
        Problem::Refused(refusal)
    }
}

type Printed = Result<Vec<u8>, Problem>;

type Arguments = Result<Profile, Problem>;

fn main() {
    let arguments: Vec<String> = env::args().skip(1).collect();
    let words: Vec<&str> = arguments.iter().map(String::as_str).collect();
    let printed = match words[..] {
        ["normalize"] => normalize(),
        ["clauses", n, m] => print_clauses(profile(n, m, "1", "all")),
        ["clauses", n, m, list] => print_clauses(profile(n, m, list, "all")),
        ["profile", "clauses", n, m, list @ ("1" | "2"), acceptance, "transitions"] => {
            print_clauses(profile(n, m, list, acceptance))
        }
        ["compare", first, second] => compare_files(first, second),
        ["check", first, second, printed] => check_compare(first, second, printed),
        ["decode", reference, n, m] => decode_input(reference, profile(n, m, "1", "all")),
        ["decode", reference, n, m, list] => decode_input(reference, profile(n, m, list, "all")),
        ["profile", "decode", reference, n, m, list @ ("1" | "2"), acceptance, "transitions"] => {
            decode_input(reference, profile(n, m, list, acceptance))
        }
        ["check-decode", reference, n, m, printed] => check_decode(reference, profile(n, m, "1", "all"), printed),
        ["check-decode", reference, n, m, list, printed] => {
            check_decode(reference, profile(n, m, list, "all"), printed)
        }
        ["search", reference, ref answers @ ..] => search_answers(reference, answers),
        ["check-search", reference, printed, ref answers @ ..] => check_search(reference, printed, answers),
        ["generate", kind, seed, count, directory] => generate_files(kind, seed, count, directory),
        ["against", programs, seed, count, directory] => against(programs, seed, count, directory),
        _ => Err(Problem::Unusable("the calls are listed at the head of main.rs".to_string())),
    };
    show(printed);
}

fn show(printed: Printed) {
    let text = match printed {
        Ok(text) => text,
        Err(Problem::Refused(refusal)) => refusal_text(&refusal),
        Err(Problem::Unusable(message)) => {
            eprintln!("{message}");
            process::exit(1);
        }
    };
    // A reader that has gone away needs nothing more.
    let _ = io::stdout().write_all(&text);
}

// ---------------------------------------------------------------------------------------
// Files and arguments

fn file(name: &str) -> Result<Vec<u8>, Problem> {
    fs::read(name).map_err(|error| Problem::Unusable(format!("{name}: {error}")))
}

fn input() -> Result<Vec<u8>, Problem> {
    let mut text = Vec::new();
    match io::stdin().read_to_end(&mut text) {
        Ok(_) => Ok(text),
        Err(error) => Err(Problem::Unusable(format!("standard input: {error}"))),
    }
}

fn number(word: &str) -> Result<u64, Problem> {
    let digits = !word.is_empty() && word.bytes().all(|byte| byte.is_ascii_digit());
    let value = if digits { word.parse().ok() } else { None };
    value.ok_or_else(|| Problem::Unusable(format!("{word} is no number")))
}

/// `all`, or the number whose bit M is the answer for the set of marks M.
fn acceptance(word: &str) -> Result<Named, Problem> {
    match word {
        "all" => Ok(Named::InfOfAll),
        _ => Ok(Named::Number(number(word)?)),
    }
}

fn profile(n: &str, m: &str, list: &str, named: &str) -> Arguments {
    let (n, m, acceptance) = (number(n)?, number(m)?, acceptance(named)?);
    Ok(Profile { n, m, acceptance, list: List::of_argument(list) })
}

fn automaton(name: &str) -> Result<Automaton, Problem> {
    Ok(hoa::read(&file(name)?)?)
}

// ---------------------------------------------------------------------------------------
// The calls

fn normalize() -> Printed {
    Ok(hoa::write(&hoa::read(&input()?)?))
}

fn print_clauses(profile: Arguments) -> Printed {
    let profile = profile?;
    let reference = hoa::read(&input()?)?;
    let of = profile.judged()?;
    let mut out = BufWriter::with_capacity(1 << 16, io::stdout().lock());
    // A reader that has gone away needs nothing more.
    let _ = clauses::File::new(&reference, of, profile.list).print(&mut out).and_then(|()| out.flush());
    Ok(Vec::new())
}

fn compare_files(first: &str, second: &str) -> Printed {
    let (first, second) = (file(first)?, file(second)?);
    let comparison = compare::compare(&hoa::read(&first)?, &hoa::read(&second)?)?;
    Ok(comparison_text(&comparison).into_bytes())
}

fn decode_input(reference: &str, profile: Arguments) -> Printed {
    let profile = profile?;
    Ok(decoded_text(&decode::decode(&automaton(reference)?, profile, io::stdin().lock())?))
}

fn search_answers(reference: &str, answers: &[&str]) -> Printed {
    let reference = automaton(reference)?;
    let mut search = search::Search::new(&reference);
    for answer in answers {
        search.answer(&file(answer)?)?;
    }
    Ok(search_text(&search))
}

fn generate_files(kind: &str, seed: &str, count: &str, directory: &str) -> Printed {
    let (seed, count) = (number(seed)?, number(count)? as usize);
    generate::generate(kind, seed, count, directory.as_ref())
        .map_err(|error| Problem::Unusable(format!("{directory}: {error}")))?;
    Ok(Vec::new())
}

// ---------------------------------------------------------------------------------------
// Checks of printed answers

fn verdict(checked: check::Checked) -> Printed {
    Ok(match checked {
        Ok(()) => b"ok\n".to_vec(),
        Err(wrong) => format!("{wrong}\n").into_bytes(),
    })
}

fn check_compare(first: &str, second: &str, printed: &str) -> Printed {
    verdict(check::check_compare(&file(first)?, &file(second)?, &file(printed)?))
}

fn check_decode(reference: &str, profile: Arguments, printed: &str) -> Printed {
    verdict(check::check_decode(&file(reference)?, profile?, &input()?, &file(printed)?))
}

fn check_search(reference: &str, printed: &str, answers: &[&str]) -> Printed {
    let answers = answers.iter().map(|answer| file(answer)).collect::<Result<Vec<_>, _>>()?;
    verdict(check::check_search(&file(reference)?, &answers, &file(printed)?))
}

fn against(programs: &str, seed: &str, count: &str, directory: &str) -> Printed {
    let (seed, count) = (number(seed)?, number(count)? as usize);
    let differences = against::against(programs.as_ref(), seed, count, directory.as_ref())
        .map_err(|error| Problem::Unusable(format!("{programs}: {error}")))?;
    if differences.is_empty() {
        return Ok(format!("{count} inputs, no difference\n").into_bytes());
    }
    Err(Problem::Unusable(differences.join("\n")))
}
