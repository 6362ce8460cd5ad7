//! What one operation costs a host in C: `ysh_operate` on a row of words, the same operations as in place, and the two sizes.
//! Every call is a call from here, and what it answers is looked at.

use super::operate::{OPERATIONS, ROOM, ROUNDS};
use std::time::Instant;

// Archive libyshankelt.a: include/yshankelt.h.
unsafe extern "C" {
    fn ysh_machine_words() -> usize;
    fn ysh_machine_new(words: *mut u64, words_len: usize, metering: bool, copied: u32) -> u8;
    fn ysh_operate(
        words: *mut u64,
        words_len: usize,
        bytes: *mut u8,
        bytes_len: usize,
        cells: *mut u64,
        cells_len: usize,
        items: *mut u64,
        items_len: usize,
        code: u8,
        fields: *const u64,
        fields_len: usize,
        value: *mut u64,
        fuel: *mut u64,
    ) -> u8;
    fn ysh_memory_pages(words: *const u64, words_len: usize, bytes_len: usize, cells_len: usize, items_len: usize, memory: u64, value: *mut u64) -> u8;
    fn ysh_table_cells(words: *const u64, words_len: usize, bytes_len: usize, cells_len: usize, items_len: usize, table: u64, value: *mut u64) -> u8;
}

type Size = unsafe extern "C" fn(*const u64, usize, usize, usize, usize, u64, *mut u64) -> u8;

/// So many bytes or cells of each instance's room are in use at first.
const USED: u64 = 64;

/// A host's row of words and its buffers.
struct Host {
    words: Vec<u64>,
    bytes: Vec<u8>,
    cells: Vec<u64>,
    items: Vec<u64>,
}

impl Host {
    fn new() -> Host {
        let words = vec![0; unsafe { ysh_machine_words() }];
        Host { words, bytes: vec![0; 8 * ROOM], cells: vec![0; 8 * ROOM], items: vec![0; 32] }
    }

    fn operate(&mut self, code: u8, fields: &[u64]) -> u8 {
        let (mut value, mut fuel) = (0, 0);
        let number = unsafe {
            ysh_operate(
                self.words.as_mut_ptr(),
                self.words.len(),
                self.bytes.as_mut_ptr(),
                self.bytes.len(),
                self.cells.as_mut_ptr(),
                self.cells.len(),
                self.items.as_mut_ptr(),
                self.items.len(),
                code,
                fields.as_ptr(),
                fields.len(),
                &mut value,
                &mut fuel,
            )
        };
        std::hint::black_box((value, fuel));
        number
    }

    /// A machine with so many memories, tables and segments, made anew, as the rounds through `operate` begin.
    fn make(&mut self, instances: usize) {
        assert_eq!(unsafe { ysh_machine_new(self.words.as_mut_ptr(), self.words.len(), true, 64) }, 0);
        let room = ROOM as u64;
        let kinds: [(u8, &[u64]); 3] =
            [(0x10, &[room, 0, 0, USED, 0, 0]), (0x20, &[room, 0, 0, 0, USED, 0, 0, 0]), (0x29, &[0, 4, 1, 2, 3, 4])];
        for (code, fields) in kinds {
            for _ in 0..instances {
                assert_eq!(self.operate(code, fields), 0, "{code:02x}");
            }
        }
    }

    /// The nanoseconds of one call: the best of many times ROUNDS. Each time has a machine of its own, so that no room is used up.
    fn best(&mut self, instances: usize, mut call: impl FnMut(&mut Host) -> bool) -> String {
        let mut best = f64::INFINITY;
        for _ in 0..60 {
            self.make(instances);
            let mut good = true;
            let start = Instant::now();
            for _ in 0..ROUNDS {
                good &= call(self);
            }
            best = best.min(start.elapsed().as_nanos() as f64);
            assert!(good, "an answer is not the one that the row is for");
        }
        format!("{:.1} ns", best / ROUNDS as f64)
    }

    fn operation(&mut self, instances: usize, code: u8, fields: &[u64], number: u8) -> String {
        self.best(instances, |host| host.operate(code, fields) == number)
    }

    fn size(&mut self, instances: usize, size: Size) -> String {
        let size = std::hint::black_box(size);
        self.best(instances, |host| {
            let mut value = 0;
            let number = unsafe { size(host.words.as_ptr(), host.words.len(), host.bytes.len(), host.cells.len(), host.items.len(), 0, &mut value) };
            number == 0 && value == USED
        })
    }
}

pub fn print() {
    let mut host = Host::new();
    println!();
    println!("{:<26} {:>12} {:>12}", "the machine in C", "1 of each", "8 of each");
    for (name, code, fields) in OPERATIONS {
        let code = u8::from_str_radix(code, 16).expect("a code has two digits");
        // the one row that is a refusal
        let number = if name.starts_with("unknown") { 16 } else { 0 };
        let [one, all] = [1, 8].map(|instances| host.operation(instances, code, fields, number));
        println!("{name:<26} {one:>12} {all:>12}");
    }
    let sizes: [(&str, Size); 2] = [("ysh_memory_pages", ysh_memory_pages), ("ysh_table_cells", ysh_table_cells)];
    for (name, size) in sizes {
        let [one, all] = [1, 8].map(|instances| host.size(instances, size));
        println!("{name:<26} {one:>12} {all:>12}");
    }
}
