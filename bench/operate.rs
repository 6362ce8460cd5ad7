//! What one operation costs in place, on a machine in a row of words that is lent: with the tests of the row's form and soundness and without them.
//! The rounds run inside one call; a call with no rounds is taken off.

use std::time::Instant;

// Archive libtiming.a: crates/timing/src/in_place.rt.
unsafe extern "C" {
    /// So many rounds of the line's operation on the machine of a row: with every test, or without those of the row's form and soundness.
    fn rounds_in_place(
        words: *mut u64,
        word_count: usize,
        bytes: *mut u8,
        byte_count: usize,
        cells: *mut u64,
        cell_count: usize,
        items: *mut u64,
        item_count: usize,
        tested: bool,
        line: *const u8,
        length: usize,
        rounds: u64,
    ) -> u64;
}

// Archive libyshankelt.a: include/yshankelt.h.
unsafe extern "C" {
    fn ysh_machine_new(words: *mut u64, words_len: usize, metering: bool, copied: u32) -> u8;
}

/// Each instance has a room of so many bytes or cells, of which the first 64 are in use.
pub const ROOM: usize = 131072;
pub const ROUNDS: u64 = 2000;

/// A name, a code and its fields.
pub const OPERATIONS: [(&str, &str, &[u64]); 18] = [
    ("set fuel", "01", &[1000000]),
    ("get fuel", "02", &[]),
    ("charge", "03", &[0]),
    ("hand over a script", "04", &[3, 0x1200000000000000]),
    ("grow a memory by 1 byte", "11", &[0, 1]),
    ("a memory's size", "12", &[0]),
    ("load i64", "13", &[0, 1, 8, 8]),
    ("store i64", "14", &[0, 1, 8, 8, 7]),
    ("grow a table by 1 cell", "21", &[0, 1, 0, 5]),
    ("a table's size", "22", &[0]),
    ("get a cell", "23", &[0, 3]),
    ("set a cell", "24", &[0, 3, 0, 5]),
    ("fill 8 cells", "25", &[0, 3, 0, 5, 8]),
    ("copy 8 cells within", "26", &[0, 3, 0, 4, 8]),
    ("init 4 cells", "27", &[0, 0, 3, 0, 4]),
    ("drop a segment", "28", &[0]),
    ("link check", "30", &[0, 0, 0, 64, 0, 0]),
    ("unknown memory (16)", "12", &[9]),
];

struct Buffers {
    words: Vec<u64>,
    bytes: Vec<u8>,
    cells: Vec<u64>,
    items: Vec<u64>,
}

impl Buffers {
    /// So many rounds of a line in place.
    fn in_place(&mut self, tested: bool, line: &str, rounds: u64) -> u64 {
        let (words, bytes) = (self.words.as_mut_ptr(), self.bytes.as_mut_ptr());
        let (cells, items) = (self.cells.as_mut_ptr(), self.items.as_mut_ptr());
        let [w, n, c, i] = [self.words.len(), self.bytes.len(), self.cells.len(), self.items.len()];
        unsafe { rounds_in_place(words, w, bytes, n, cells, c, items, i, tested, line.as_ptr(), line.len(), rounds) }
    }

    /// A machine in the row with so many memories, tables and segments, made anew.
    fn make(&mut self, instances: u64) {
        assert_eq!(unsafe { ysh_machine_new(self.words.as_mut_ptr(), self.words.len(), true, 64) }, 0);
        let room = ROOM as u64;
        self.in_place(true, &text("10", &[room, 0, 0, 64, 0, 0]), instances);
        self.in_place(true, &text("20", &[room, 0, 0, 0, 64, 0, 0, 0]), instances);
        self.in_place(true, &text("29", &[0, 4, 1, 2, 3, 4]), instances);
    }
}

/// The nanoseconds of one call.
fn spent(b: &mut Buffers, tested: bool, line: &str, instances: u64, rounds: u64) -> f64 {
    b.make(instances);
    let start = Instant::now();
    std::hint::black_box(b.in_place(tested, line, rounds));
    start.elapsed().as_nanos() as f64
}

/// The nanoseconds of one round: the best of many.
fn round(b: &mut Buffers, tested: bool, line: &str, instances: u64) -> f64 {
    let mut none = f64::INFINITY;
    let mut all = f64::INFINITY;
    for _ in 0..60 {
        none = none.min(spent(b, tested, line, instances, 0));
        all = all.min(spent(b, tested, line, instances, ROUNDS));
    }
    (all - none) / ROUNDS as f64
}

pub fn print() {
    let mut b = Buffers { words: vec![0; 186], bytes: vec![0; 8 * ROOM], cells: vec![0; 8 * ROOM], items: vec![0; 32] };
    println!();
    println!("{:<26} {:>12} {:>12} {:>16} {:>16}", "in place", "1 of each", "8 of each", "1 each, tested", "8 each, tested");
    for (name, code, fields) in OPERATIONS {
        let line = text(code, fields);
        let [one, all] = [1, 8].map(|instances| format!("{:.1} ns", round(&mut b, false, &line, instances)));
        let [one_tested, all_tested] = [1, 8].map(|instances| format!("{:.1} ns", round(&mut b, true, &line, instances)));
        println!("{name:<26} {one:>12} {all:>12} {one_tested:>16} {all_tested:>16}");
    }
}

fn text(code: &str, fields: &[u64]) -> String {
    fields.iter().fold(code.to_string(), |text, field| format!("{text} {field:016x}"))
}
