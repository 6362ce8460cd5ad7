//! The oracle: answers operation lines with the crate's own code. Built by `oracle/build`.

use machine::Session;
use std::io::{self, BufRead, BufReader, BufWriter, Write};
use std::process::ExitCode;

const USAGE: &str = "\
usage: oracle [cells] < OPERATIONS > ANSWERS
reads operation lines from standard input to its end and writes one answer line for each:
number, value or amount, fuel left; `-- not compared` where the crate panics
with `cells`, after them the cells of each memory (`memory NUMBER SIZE`, then 32 bytes a line)
and of each table (`table NUMBER SIZE`, then a reference a line), all in hexadecimal
";

fn run(cells: bool) -> io::Result<()> {
    let mut input = BufReader::with_capacity(1 << 16, io::stdin().lock());
    let mut output = BufWriter::with_capacity(1 << 16, io::stdout().lock());
    let mut session = Session::new();
    let mut line = Vec::new();
    while input.read_until(b'\n', &mut line)? > 0 {
        let text = line.strip_suffix(b"\n").unwrap_or(&line);
        output.write_all(session.answer_line(text).as_bytes())?;
        line.clear();
    }
    if cells {
        output.write_all(session.machine.cell_lines().as_bytes())?;
    }
    output.flush()
}

fn main() -> ExitCode {
    let arguments: Vec<String> = std::env::args().skip(1).collect();
    let arguments: Vec<&str> = arguments.iter().map(String::as_str).collect();
    let cells = match arguments[..] {
        ["-h" | "--help"] => {
            print!("{USAGE}");
            return ExitCode::SUCCESS;
        }
        [] => false,
        ["cells"] => true,
        _ => {
            eprint!("{USAGE}");
            return ExitCode::from(2);
        }
    };
    machine::hush_expected_panics();
    if let Err(error) = run(cells) {
        eprintln!("oracle: {error}");
        return ExitCode::FAILURE;
    }
    ExitCode::SUCCESS
}
