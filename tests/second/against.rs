//! The first program beside this one: generated inputs are given to both, and any difference is told.

use crate::automaton::{List, Profile};
use crate::check::*;
use crate::generate::{pair, Random};
use crate::generate_hoa::hoa_text;
use crate::generate_solver::{profile_case, search_case, solver_case, SolverCase};
use crate::hoa;
use std::fs;
use std::io::{self, Write};
use std::path::{Path, PathBuf};
use std::process::{Command, Stdio};
use std::sync::atomic::{AtomicUsize, Ordering};
use std::sync::Mutex;
use std::thread;

const WORKERS: usize = 2;

/// Of ten cases four are HOA texts, and one each is a comparison, a clause file, a solver text, a
/// search, and a clause file and a solver text for a candidate's acceptance that is named. Of the clause
/// files and solver texts one half are those of the second list.
const KINDS: usize = 10;

/// Runs `count` cases; the differences, with the folders in which their inputs are kept.
pub fn against(programs: &Path, seed: u64, count: usize, folder: &Path) -> io::Result<Vec<String>> {
    let next = AtomicUsize::new(0);
    let differences = Mutex::new(Vec::new());
    let work = || -> io::Result<()> {
        loop {
            let case = next.fetch_add(1, Ordering::Relaxed);
            if case >= count {
                return Ok(());
            }
            let place = folder.join(format!("{seed}-{case}"));
            fs::create_dir_all(&place)?;
            let run = Run { programs, place: &place };
            match run.case(case % KINDS, &mut Random::of_case(seed, case))? {
                Ok(()) => fs::remove_dir_all(&place)?,
                Err(wrong) => differences.lock().unwrap().push(format!("{}: {wrong}", place.display())),
            }
        }
    };
    thread::scope(|scope| {
        let workers: Vec<_> = (0..WORKERS).map(|_| scope.spawn(work)).collect();
        workers.into_iter().try_for_each(|worker| worker.join().unwrap())
    })?;
    Ok(differences.into_inner().unwrap())
}

/// One case: where the programs are, and the folder for its inputs.
struct Run<'a> {
    programs: &'a Path,
    place: &'a Path,
}

impl Run<'_> {
    fn case(&self, kind: usize, random: &mut Random) -> io::Result<Checked> {
        match kind {
            0 => self.comparison(random),
            1 => self.clause_file(random),
            2 => self.decoder(random),
            3 => self.search(random),
            4 => self.named_clause_file(random),
            5 => self.named_decoder(random),
            _ => self.reader(random),
        }
    }

    fn reader(&self, random: &mut Random) -> io::Result<Checked> {
        let text = hoa_text(random);
        let printed = self.printed("hoa_normalize", &[], &text)?;
        Ok(check_normalize(&text, &printed))
    }

    fn comparison(&self, random: &mut Random) -> io::Result<Checked> {
        let (first, second) = pair(random);
        let (first, second) = (hoa::write(&first), hoa::write(&second));
        let names = [self.kept("first.hoa", &first)?, self.kept("second.hoa", &second)?];
        let printed = self.printed("hoa_compare", &names, &[])?;
        Ok(check_compare(&first, &second, &printed))
    }

    fn clause_file(&self, random: &mut Random) -> io::Result<Checked> {
        let case = solver_case(random);
        self.clauses_of("hoa_clauses", &sizes(random, &case.profile), &case)
    }

    fn named_clause_file(&self, random: &mut Random) -> io::Result<Checked> {
        let case = profile_case(random);
        let arguments = [vec!["clauses".to_string()], profile(&case.profile)].concat();
        self.clauses_of("hoa_profile", &arguments, &case)
    }

    fn clauses_of(&self, program: &str, arguments: &[String], case: &SolverCase) -> io::Result<Checked> {
        let reference = hoa::write(&case.reference);
        let printed = self.printed(program, arguments, &reference)?;
        Ok(check_clauses(&reference, case.profile, &printed))
    }

    fn decoder(&self, random: &mut Random) -> io::Result<Checked> {
        let case = solver_case(random);
        self.decoded_of("hoa_decode", &[], &sizes(random, &case.profile), &case)
    }

    fn named_decoder(&self, random: &mut Random) -> io::Result<Checked> {
        let case = profile_case(random);
        self.decoded_of("hoa_profile", &["decode".to_string()], &profile(&case.profile), &case)
    }

    /// The reference's name stands between the arguments.
    fn decoded_of(
        &self,
        program: &str,
        before: &[String],
        behind: &[String],
        case: &SolverCase,
    ) -> io::Result<Checked> {
        let reference = hoa::write(&case.reference);
        let name = self.kept("reference.hoa", &reference)?;
        let printed = self.printed(program, &[before, &[name], behind].concat(), &case.text)?;
        Ok(check_decode(&reference, case.profile, &case.text, &printed))
    }

    fn search(&self, random: &mut Random) -> io::Result<Checked> {
        let (reference, answers) = search_case(random);
        let reference = hoa::write(&reference);
        let mut names = vec![self.kept("reference.hoa", &reference)?];
        for (count, answer) in answers.iter().enumerate() {
            names.push(self.kept(&format!("answer.{:02}", count + 1), answer)?);
        }
        let printed = self.printed("hoa_search", &names, &[])?;
        Ok(check_search(&reference, &answers, &printed))
    }

    /// The name of a file with these bytes.
    fn kept(&self, name: &str, bytes: &[u8]) -> io::Result<String> {
        let path: PathBuf = self.place.join(name);
        fs::write(&path, bytes)?;
        Ok(path.to_string_lossy().into_owned())
    }

    /// What a program prints; its input is kept too.
    fn printed(&self, program: &str, arguments: &[String], input: &[u8]) -> io::Result<Vec<u8>> {
        self.kept("input", input)?;
        let mut child = Command::new(self.programs.join(program))
            .args(arguments)
            .stdin(Stdio::piped())
            .stdout(Stdio::piped())
            .stderr(Stdio::null())
            .spawn()?;
        let mut stdin = child.stdin.take().unwrap();
        let output = thread::scope(|scope| {
            // A program that has seen enough does not read on.
            scope.spawn(move || drop(stdin.write_all(input)));
            child.wait_with_output()
        })?;
        Ok(output.stdout)
    }
}

/// Words that name the first list, for the programs that take any.
const NOT_2: [&str; 12] = ["1", "1", "1", "0", "3", "02", "22", "-2", "+2", "2x", "x", "4294967298"];

/// The arguments that name a file for Inf of all sets: the sizes, and the clause list, which is not always
/// named where it is the first.
fn sizes(random: &mut Random, profile: &Profile) -> Vec<String> {
    let mut words = vec![profile.n.to_string(), profile.m.to_string()];
    match profile.list {
        List::Second => words.push(profile.list.word().to_string()),
        List::First if random.one_in(2) => words.push(random.pick(&NOT_2).to_string()),
        List::First => {}
    }
    words
}

/// The arguments that name a file: the sizes, the clause list, the acceptance, and where marks stand.
fn profile(profile: &Profile) -> Vec<String> {
    let (n, m) = (profile.n.to_string(), profile.m.to_string());
    vec![n, m, profile.list.word().to_string(), profile.acceptance.word(), "transitions".to_string()]
}
