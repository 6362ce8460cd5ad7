//! Prints operation files: one by chance, or all short ones into a folder. Built by `oracle/build`.

use files::{KINDS, Kind};
use std::io::{self, Write};
use std::path::Path;
use std::process::ExitCode;

const USAGE: &str = "\
usage: gen SEED COUNT [KIND]    prints COUNT operation lines, the same ones for the same arguments
       gen exhaustive FOLDER    writes all short inputs into FOLDER, one file for each session
KIND is mixed (the default), memories, tables, fuel, limiter or malformed
";

fn kind(name: &str) -> Option<Kind> {
    KINDS.iter().find(|(known, _)| *known == name).map(|(_, kind)| *kind)
}

fn print(seed: u64, count: usize, kind: Kind) -> io::Result<()> {
    io::stdout().write_all(&files::file(seed, count, kind))
}

fn write_short(folder: &Path) -> io::Result<()> {
    std::fs::create_dir_all(folder)?;
    files::sessions().iter().try_for_each(|it| std::fs::write(folder.join(&it.name), &it.text))
}

/// Nothing if the arguments make no sense.
fn run(arguments: &[&str]) -> Option<io::Result<()>> {
    Some(match *arguments {
        ["-h" | "--help"] => io::stdout().write_all(USAGE.as_bytes()),
        ["exhaustive", folder] => write_short(Path::new(folder)),
        [seed, count] => print(seed.parse().ok()?, count.parse().ok()?, Kind::Mixed),
        [seed, count, name] => print(seed.parse().ok()?, count.parse().ok()?, kind(name)?),
        _ => return None,
    })
}

fn main() -> ExitCode {
    files::hush_expected_panics();
    let arguments: Vec<String> = std::env::args().skip(1).collect();
    let arguments: Vec<&str> = arguments.iter().map(String::as_str).collect();
    match run(&arguments) {
        Some(Ok(())) => ExitCode::SUCCESS,
        Some(Err(error)) => {
            eprintln!("gen: {error}");
            ExitCode::FAILURE
        }
        None => {
            eprint!("{USAGE}");
            ExitCode::from(2)
        }
    }
}
