//! Runs two programs that speak operation lines on the same files and compares their answers. Built and run by `oracle/compare`.

use files::{KINDS, Short};
use std::collections::BTreeMap;
use std::fmt::Display;
use std::fs::{self, File};
use std::path::{Path, PathBuf};
use std::process::{Command, ExitCode};

const USAGE: &str = "\
usage: compare [--cells] SESSION ORACLE FOLDER COUNT
runs SESSION and ORACLE on the same operation files, written in FOLDER, until COUNT operations are compared
with --cells, ORACLE is told to write the final cells after the answers, SESSION must do so, and they are compared too
";

/// The lines of a file by chance: from FEWEST on, SPREAD different counts; one file in LONG_EACH has LONG lines.
const FEWEST: u64 = 200;
const SPREAD: u64 = 1800;
const LONG_EACH: u64 = 100;
const LONG: u64 = 20_000;
/// The most bytes that a program which writes final cells takes; longer files are left out of that comparison.
const MOST_BYTES: usize = 262_144;

/// Why a comparison ends early.
enum End {
    Difference(String),
    /// A file or program that cannot be used.
    Broken(String),
}

fn broken(what: impl Display, error: impl Display) -> End {
    End::Broken(format!("{what}: {error}"))
}

fn length_of(seed: u64, cells: bool) -> u64 {
    if seed % LONG_EACH == 0 && !cells { LONG } else { FEWEST + seed * 7919 % SPREAD }
}

/// How often each answer number came for each code, both as text; malformed lines stand under `--`.
#[derive(Default)]
struct Tally {
    compared: u64,
    skipped: u64,
    files: u64,
    /// The last seed of a file by chance.
    seed: u64,
    bytes: u64,
    references: u64,
    came: BTreeMap<String, BTreeMap<String, u64>>,
}

impl Tally {
    fn add(&mut self, line: &[u8], answer: &[u8]) {
        let number = text(&answer[..2]);
        let code = if number == "12" { "--".to_string() } else { text(&line[..2]) };
        *self.came.entry(code).or_default().entry(number).or_default() += 1;
        self.compared += 1;
    }

    fn print(&self, cells: bool) {
        println!(
            "{} operations compared in {} files (seeds to {}), {} not compared",
            self.compared, self.files, self.seed, self.skipped
        );
        if cells {
            println!("{} bytes of memories and {} cells of tables compared after them", self.bytes, self.references);
        }
        let mut totals: BTreeMap<&str, u64> = BTreeMap::new();
        println!("code: how often (answer number: how often); -- are malformed lines");
        for (code, numbers) in &self.came {
            println!("{code}: {} ({})", numbers.values().sum::<u64>(), list(numbers.iter()));
            for (number, count) in numbers {
                *totals.entry(number).or_default() += count;
            }
        }
        println!("all answer numbers: {}", list(totals.iter()));
    }
}

fn list<'a, T: Display + 'a>(counts: impl Iterator<Item = (T, &'a u64)>) -> String {
    counts.map(|(number, count)| format!("{number}: {count}")).collect::<Vec<_>>().join(", ")
}

fn text(bytes: &[u8]) -> String {
    String::from_utf8_lossy(bytes).into_owned()
}

/// Lines without their LF; a last LF adds none.
fn lines(text: &[u8]) -> impl Iterator<Item = &[u8]> {
    text.split_inclusive(|byte| *byte == b'\n').map(|line| line.strip_suffix(b"\n").unwrap_or(line))
}

struct Comparison {
    cells: bool,
    session: PathBuf,
    oracle: PathBuf,
    folder: PathBuf,
    tally: Tally,
}

impl Comparison {
    fn answers(&self, program: &Path, arguments: &[&str], file: &Path) -> Result<Vec<u8>, End> {
        let input = File::open(file).map_err(|error| broken(file.display(), error))?;
        let done = Command::new(program).args(arguments).stdin(input).output();
        let done = done.map_err(|error| broken(program.display(), error))?;
        if done.status.success() {
            return Ok(done.stdout);
        }
        let said = format!("{}, {}", done.status, text(&done.stderr));
        Err(End::Difference(format!("{}: {} ended with {said}", file.display(), program.display())))
    }

    /// Compares one file, which stays in the folder if there is a difference.
    fn compare(&mut self, short: &Short) -> Result<(), End> {
        if self.cells && short.text.len() > MOST_BYTES {
            return Ok(());
        }
        let file = self.folder.join(&short.name);
        fs::write(&file, &short.text).map_err(|error| broken(file.display(), error))?;
        let session = self.answers(&self.session, &[], &file)?;
        let oracle = self.answers(&self.oracle, if self.cells { &["cells"] } else { &[] }, &file)?;
        self.compare_answers(short, &session, &oracle)
            .map_err(|what| End::Difference(format!("{}, {what}", file.display())))?;
        self.tally.files += 1;
        fs::remove_file(&file).map_err(|error| broken(file.display(), error))
    }

    fn compare_answers(&mut self, short: &Short, session: &[u8], oracle: &[u8]) -> Result<(), String> {
        let (mut ours, mut theirs) = (lines(session), lines(oracle));
        for (place, line) in lines(&short.text).enumerate() {
            let our = ours.next().unwrap_or(b"(no answer)");
            let their = theirs.next().ok_or("the oracle has too few answers")?;
            if their.starts_with(b"--") {
                self.tally.skipped += 1;
            } else if our == their {
                self.tally.add(line, their);
            } else {
                let shown = text(&line[..line.len().min(200)]);
                return Err(format!("line {}: {shown}\n  session {}\n  oracle  {}", place + 1, text(our), text(their)));
            }
        }
        if self.cells {
            self.compare_cells(&mut ours, &mut theirs)?;
        }
        if ours.next().is_some() || (session.last() != oracle.last()) {
            return Err("after the last line: more answers than lines, or a last answer without LF".to_string());
        }
        Ok(())
    }

    /// What follows the answers: a head for each memory and table, and its cells.
    fn compare_cells<'a>(
        &mut self,
        ours: &mut impl Iterator<Item = &'a [u8]>,
        theirs: &mut impl Iterator<Item = &'a [u8]>,
    ) -> Result<(), String> {
        let mut head = String::new();
        let mut place = 0;
        for their in theirs {
            let our = ours.next().unwrap_or(b"(nothing)");
            place += 1;
            let is_head = their.starts_with(b"memory") || their.starts_with(b"table");
            if is_head {
                (head, place) = (text(their), 0);
            }
            if our != their {
                return Err(format!("{head}, line {place}\n  session {}\n  oracle  {}", text(our), text(their)));
            }
            if head.starts_with('m') && !is_head {
                self.tally.bytes += their.len() as u64 / 2;
            } else if !is_head {
                self.tally.references += 1;
            }
        }
        Ok(())
    }

    /// First all short inputs, then files by chance for seeds from 1 on.
    fn run(&mut self, count: u64) -> Result<(), End> {
        for short in files::sessions() {
            if self.tally.compared < count {
                self.compare(&short)?;
            }
        }
        while self.tally.compared < count {
            self.tally.seed += 1;
            let seed = self.tally.seed;
            let (name, kind) = KINDS[(seed % KINDS.len() as u64) as usize];
            let length = length_of(seed, self.cells);
            let text = files::file(seed, length as usize, kind);
            self.compare(&Short { name: format!("{name}-{seed}-{length}"), text })?;
        }
        Ok(())
    }
}

fn run(cells: bool, session: &str, oracle: &str, folder: &str, count: u64) -> ExitCode {
    files::hush_expected_panics();
    let [session, oracle, folder] = [session, oracle, folder].map(PathBuf::from);
    let mut comparison = Comparison { cells, session, oracle, folder, tally: Tally::default() };
    let result = comparison.run(count);
    comparison.tally.print(cells);
    match result {
        Ok(()) => {
            println!("no difference");
            ExitCode::SUCCESS
        }
        Err(End::Difference(what)) => {
            println!("first difference: {what}");
            ExitCode::FAILURE
        }
        Err(End::Broken(what)) => {
            eprintln!("compare: {what}");
            ExitCode::from(2)
        }
    }
}

fn main() -> ExitCode {
    let arguments: Vec<String> = std::env::args().skip(1).collect();
    let mut arguments: Vec<&str> = arguments.iter().map(String::as_str).collect();
    let cells = arguments.first() == Some(&"--cells");
    if cells {
        arguments.remove(0);
    }
    match arguments[..] {
        ["-h" | "--help"] => {
            print!("{USAGE}");
            return ExitCode::SUCCESS;
        }
        [session, oracle, folder, count] => {
            if let Ok(count) = count.parse() {
                return run(cells, session, oracle, folder, count);
            }
        }
        _ => {}
    }
    eprint!("{USAGE}");
    ExitCode::from(2)
}
