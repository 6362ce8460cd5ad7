//! Lines a second: one line read and answered, beside plain Rust that reads digits through a table, and a whole session,
//! beside the oracle, which runs the crate's own code behind the same lines. Both sides of a row see the same bytes, in memory.

use std::io::BufRead;
use std::time::Instant;

// Archive libtiming.a: crates/timing/src/text.rt.
unsafe extern "C" {
    /// Reads a line and writes an answer line, where there is room for its 37 bytes.
    fn rounds_line(line: *const u8, length: usize, out: *mut u8, room: usize) -> bool;
    /// A session on a fresh machine over the whole lines of the input; how many bytes it wrote.
    fn rounds_session(
        bytes: *mut u8,
        byte_count: usize,
        cells: *mut u64,
        cell_count: usize,
        items: *mut u64,
        item_count: usize,
        input: *const u8,
        length: usize,
        out: *mut u8,
        room: usize,
    ) -> usize;
}

const ANSWER: usize = 37;

/// The seconds of the best of some runs.
fn best(mut run: impl FnMut()) -> f64 {
    (0..8)
        .map(|_| {
            let start = Instant::now();
            run();
            start.elapsed().as_secs_f64()
        })
        .fold(f64::INFINITY, f64::min)
}

fn digits() -> [u8; 256] {
    let mut table = [16; 256];
    for (value, byte) in b"0123456789abcdef".iter().enumerate() {
        table[*byte as usize] = value as u8;
    }
    table
}

fn number(table: &[u8; 256], text: &[u8]) -> Option<u64> {
    text.iter().try_fold(0u64, |value, byte| match table[*byte as usize] {
        16.. => None,
        digit => Some(value * 16 + digit as u64),
    })
}

/// A code and its fields, where the line is that.
fn plain_read(table: &[u8; 256], line: &[u8]) -> Option<(u64, usize, [u64; 8])> {
    let code = number(table, line.get(..2)?)?;
    let rest = &line[2..];
    if rest.len() % 17 != 0 || rest.len() > 8 * 17 {
        return None;
    }
    let mut fields = [0; 8];
    for (field, text) in fields.iter_mut().zip(rest.chunks_exact(17)) {
        if text[0] != b' ' {
            return None;
        }
        *field = number(table, &text[1..])?;
    }
    Some((code, rest.len() / 17, fields))
}

fn put_hex(out: &mut [u8], mut value: u64) {
    for byte in out.iter_mut().rev() {
        *byte = b"0123456789abcdef"[(value % 16) as usize];
        value /= 16;
    }
}

fn plain_line(table: &[u8; 256], line: &[u8], out: &mut [u8]) {
    let read = std::hint::black_box(plain_read(table, line));
    put_hex(&mut out[..2], if read.is_some() { 0 } else { 18 });
    out[2] = b' ';
    put_hex(&mut out[3..19], 0);
    out[19] = b' ';
    put_hex(&mut out[20..36], 0);
    out[36] = b'\n';
}

fn show(name: &str, count: usize, rust: f64, port: f64) {
    let millions = |seconds: f64| count as f64 / seconds / 1e6;
    println!("{name:<34} {:>12.1} {:>12.1} {:>11.2}", millions(rust), millions(port), rust / port);
}

fn read_and_answer(lines: &[&[u8]], out: &mut [u8]) {
    let table = digits();
    let rust = best(|| {
        for (line, place) in lines.iter().zip(out.chunks_exact_mut(ANSWER)) {
            plain_line(&table, line, place);
        }
    });
    let port = best(|| {
        for (line, place) in lines.iter().zip(out.chunks_exact_mut(ANSWER)) {
            assert!(unsafe { rounds_line(line.as_ptr(), line.len(), place.as_mut_ptr(), ANSWER) });
        }
    });
    show("one line read and answered", lines.len(), rust, port);
}

/// Whether the answers are the oracle's, but where that says that the crate has none.
fn agree(theirs: &[u8], ours: &[u8]) -> bool {
    let mut answers = ours.split_inclusive(|byte| *byte == b'\n');
    theirs.split_inclusive(|byte| *byte == b'\n').all(|line| answers.next().is_some_and(|answer| line.starts_with(b"--") || line == answer))
}

fn whole_session(input: &[u8], lines: &[&[u8]], out: &mut [u8]) {
    let mut theirs = Vec::with_capacity(out.len());
    let rust = best(|| {
        theirs.clear();
        let mut session = machine::Session::new();
        let (mut rest, mut line) = (input, Vec::new());
        // as the oracle's own program reads
        while rest.read_until(b'\n', &mut line).is_ok_and(|count| count > 0) {
            let text = line.strip_suffix(b"\n").unwrap_or(&line);
            theirs.extend_from_slice(session.answer_line(text).as_bytes());
            line.clear();
        }
    });
    let mut wrote = 0;
    let port = best(|| {
        let (mut bytes, mut cells, mut items) = (vec![0u8; 65536], vec![0u64; 1024], vec![0u64; 32]);
        wrote = unsafe {
            rounds_session(
                bytes.as_mut_ptr(),
                bytes.len(),
                cells.as_mut_ptr(),
                cells.len(),
                items.as_mut_ptr(),
                items.len(),
                input.as_ptr(),
                input.len(),
                out.as_mut_ptr(),
                out.len(),
            )
        };
    });
    assert!(wrote == out.len() && agree(&theirs, out), "the session's answers differ from the oracle's");
    show("a session of mixed lines", lines.len(), rust, port);
}

/// The file of mixed lines is named by BENCH_LINES.
pub fn print() {
    let Ok(path) = std::env::var("BENCH_LINES") else { return };
    let input = std::fs::read(path).expect("the file of lines can be read");
    let lines: Vec<&[u8]> = input.split_inclusive(|byte| *byte == b'\n').map(|line| line.strip_suffix(b"\n").unwrap_or(line)).collect();
    let mut out = vec![0u8; lines.len() * ANSWER];
    machine::hush_expected_panics();
    println!();
    println!("{:<34} {:>12} {:>12} {:>11}", "millions of lines a second", "Rust", "port", "port/Rust");
    read_and_answer(&lines, &mut out);
    whole_session(&input, &lines, &mut out);
}
