//! All short inputs, as sessions of their own: scripts, spans, accesses, field counts, field values, first lines, prices, types.

use crate::line;

/// A session that is compared whole.
pub struct Short {
    pub name: String,
    pub text: Vec<u8>,
}

/// A session in the making.
struct Page(String);

impl Page {
    fn say(&mut self, code: u8, fields: &[u64]) {
        self.0 += &line(code, fields);
        self.0.push('\n');
    }

    fn done(self, name: String) -> Short {
        Short { name, text: self.0.into_bytes() }
    }
}

pub fn sessions() -> Vec<Short> {
    let mut all = Vec::new();
    scripts(&mut all);
    spans(&mut all);
    accesses(&mut all);
    field_counts(&mut all);
    field_values(&mut all);
    first_lines(&mut all);
    prices(&mut all);
    memory_types(&mut all);
    table_types(&mut all);
    all
}

// ---------------------------------------------------------------- scripts

/// Creations and growths: accepted, refused at each place where the limiter is asked or told, and by 0.
const ASKING: [(u8, &[u64]); 16] = [
    (0x10, &[8, 0, 0, 1, 0, 0]),
    (0x10, &[8, 0, 0, 9, 0, 0]),
    (0x10, &[8, 0, 1, 2, 1, 0]),
    (0x11, &[0, 0]),
    (0x11, &[0, 1]),
    (0x11, &[0, 64]),
    (0x11, &[0, 300]),
    (0x11, &[0, 401]),
    (0x20, &[8, 0, 0, 0, 1, 0, 0, 5]),
    (0x20, &[8, 0, 0, 0, 9, 0, 0, 5]),
    (0x20, &[8, 0, 0, 0, 1, 0, 1, 5]),
    (0x21, &[0, 0, 1, 6]),
    (0x21, &[0, 1, 0, 6]),
    (0x21, &[0, 16, 0, 6]),
    (0x21, &[0, 100, 0, 6]),
    (0x21, &[0, 201, 0, 6]),
];

/// All scripts of length 0 to 2, as count and digits.
fn short_scripts() -> Vec<[u64; 2]> {
    let mut all = vec![[0, 0]];
    for first in 0..3 {
        all.push([1, first << 60]);
        all.extend((0..3).map(|second| [2, first << 60 | second << 56]));
    }
    all
}

/// Each asking operation twice under each script, with no fuel, one unit and plenty.
fn scripts(all: &mut Vec<Short>) {
    for (i, script) in short_scripts().iter().enumerate() {
        for (k, fuel) in [0, 1, 1000].into_iter().enumerate() {
            for (j, (code, fields)) in ASKING.iter().enumerate() {
                let mut page = Page(String::new());
                page.say(0x10, &[256, 0, 1, 0, 400, 0]);
                page.say(0x20, &[64, 0, 0, 1, 0, 200, 0, 5]);
                page.say(0x01, &[fuel]);
                page.say(0x04, script);
                page.say(*code, fields);
                page.say(*code, fields);
                page.say(0x12, &[0]);
                page.say(0x22, &[0]);
                page.say(0x11, &[0, 1]);
                page.say(0x21, &[0, 1, 0, 7]);
                all.push(page.done(format!("script-{i}-{k}-{j}")));
            }
        }
    }
}

// ---------------------------------------------------------------- spans

const PLACES: [u64; 6] = [0, 1, 2, 3, 4, u64::MAX];

fn every_span(mut f: impl FnMut(u64, u64, u64)) {
    for to in PLACES {
        for from in PLACES {
            for length in PLACES {
                f(to, from, length);
            }
        }
    }
}

fn new_table(page: &mut Page, size: u64) {
    page.say(0x20, &[3, 0, 0, 0, size, 0, 0, 0]);
}

fn write_cells(page: &mut Page, table: u64, size: u64) {
    for index in 0..size {
        page.say(0x24, &[table, index, 0, 10 * (table + 1) + index]);
    }
}

fn read_cells(page: &mut Page, table: u64, size: u64) {
    for index in 0..size {
        page.say(0x23, &[table, index]);
    }
}

/// All copies, fills and inits over tables of 0 to 3 cells.
fn spans(all: &mut Vec<Short>) {
    for first in 0..4 {
        for second in 0..4 {
            let mut page = Page(String::new());
            new_table(&mut page, first);
            new_table(&mut page, second);
            every_span(|to, from, length| {
                write_cells(&mut page, 0, first);
                write_cells(&mut page, 1, second);
                page.say(0x26, &[0, to, 1, from, length]);
                read_cells(&mut page, 0, first);
            });
            all.push(page.done(format!("copy-{first}-{second}")));
        }
        let mut page = Page(String::new());
        new_table(&mut page, first);
        for count in 0..5 {
            page.say(0x29, &[&[0, count], &[31, 32, 33, 34][..count as usize]].concat());
        }
        every_span(|to, from, length| {
            write_cells(&mut page, 0, first);
            page.say(0x26, &[0, to, 0, from, length]);
            read_cells(&mut page, 0, first);
        });
        for start in PLACES {
            for length in PLACES {
                write_cells(&mut page, 0, first);
                page.say(0x25, &[0, start, 0, 77, length]);
                read_cells(&mut page, 0, first);
            }
        }
        for segment in 0..6 {
            every_span(|to, from, length| {
                write_cells(&mut page, 0, first);
                page.say(0x27, &[0, segment, to, from & 0xffff_ffff, length & 0xffff_ffff]);
                read_cells(&mut page, 0, first);
            });
        }
        all.push(page.done(format!("within-{first}")));
    }
}

// ---------------------------------------------------------------- accesses

/// All loads and stores around the size of small memories, the address split in several ways.
fn accesses(all: &mut Vec<Short>) {
    for size in [0, 1, 2, 3, 4, 7, 8, 9, 16] {
        let mut page = Page(String::new());
        page.say(0x10, &[32, 0, 0, size, 0, 0]);
        for index in 0..size {
            page.say(0x14, &[0, 6, index, 0, 0x81 + 0x13 * index]);
        }
        for address in 0..size + 3 {
            for [pointer, offset] in splits(address) {
                for kind in 0..14 {
                    page.say(0x13, &[0, kind, pointer, offset]);
                }
            }
            for kind in 0..9 {
                let bits = if matches!(kind, 0 | 2 | 4 | 5) { 0xfedc_ba98 } else { 0xfedc_ba98_7654_3210 };
                for [pointer, offset] in splits(address) {
                    page.say(0x14, &[0, kind, pointer, offset, bits ^ address]);
                }
                for index in 0..size {
                    page.say(0x13, &[0, 9, index, 0]);
                }
            }
        }
        all.push(page.done(format!("access-{size}")));
    }
}

fn splits(address: u64) -> [[u64; 2]; 5] {
    let wraps = [u64::MAX, address.wrapping_add(1)];
    [[address, 0], [0, address], [address / 2, address - address / 2], wraps, [u64::MAX - address, address]]
}

// ---------------------------------------------------------------- fields

/// Every code with every number of fields, all of them 0 or all of them 1.
fn field_counts(all: &mut Vec<Short>) {
    for value in [0, 1] {
        let mut page = Page("\n".to_string());
        for code in 0..=255 {
            for count in 0..11 {
                page.say(code, &vec![value; count]);
            }
        }
        all.push(page.done(format!("count-{value}")));
    }
}

/// A good line of each code.
const GOOD: [(u8, &[u64]); 21] = [
    (0x01, &[1000]),
    (0x03, &[1]),
    (0x04, &[1, 0]),
    (0x10, &[4, 0, 1, 1, 2, 0]),
    (0x11, &[0, 1]),
    (0x12, &[0]),
    (0x13, &[0, 0, 0, 0]),
    (0x14, &[0, 0, 0, 0, 1]),
    (0x14, &[0, 1, 0, 0, 1]),
    (0x20, &[4, 0, 0, 1, 1, 2, 0, 3]),
    (0x21, &[0, 1, 0, 4]),
    (0x22, &[0]),
    (0x23, &[0, 0]),
    (0x24, &[0, 0, 0, 5]),
    (0x25, &[0, 0, 0, 6, 1]),
    (0x26, &[0, 0, 0, 1, 1]),
    (0x27, &[0, 0, 0, 0, 1]),
    (0x28, &[0]),
    (0x29, &[0, 2, 8, 9]),
    (0x30, &[0, 0, 1, 1, 2, 0]),
    (0x30, &[0, 0, 0, 1, 0, 0]),
];

const VALUES: [u64; 31] = [
    0,
    1,
    2,
    3,
    4,
    5,
    7,
    8,
    9,
    13,
    14,
    15,
    16,
    17,
    63,
    64,
    65,
    255,
    256,
    65_535,
    65_536,
    65_537,
    0xffff_fffe,
    0xffff_ffff,
    1 << 32,
    0x1_0000_0001,
    1 << 48,
    1 << 60,
    3 << 60,
    1 << 63,
    u64::MAX,
];

/// Each field of a good line at each value, the rest as it was; a fresh session for each field.
fn field_values(all: &mut Vec<Short>) {
    for (i, (code, fields)) in GOOD.iter().enumerate() {
        for place in 0..fields.len() {
            let mut page = Page(String::new());
            page.say(0x01, &[100]);
            page.say(0x10, &[4096, 0, 1, 64, 4096, 0]);
            page.say(0x20, &[64, 0, 0, 0, 16, 0, 0, 0]);
            page.say(0x29, &[0, 2, 8, 9]);
            for value in VALUES {
                let mut changed = fields.to_vec();
                changed[place] = value;
                page.say(*code, &changed);
                page.say(0x02, &[]);
            }
            all.push(page.done(format!("field-{i}-{place}")));
        }
    }
}

/// `00` in the first and in the second place, with good and bad fields.
fn first_lines(all: &mut Vec<Short>) {
    let fields = [0, 1, 2, 63, 64, 0xffff_ffff, 1 << 32, u64::MAX];
    for metering in fields {
        for cost in fields {
            for before in ["", "\n", "02\n", "00\n"] {
                let mut page = Page(before.to_string());
                page.say(0x00, &[metering, cost]);
                page.say(0x01, &[9]);
                page.say(0x10, &[128, 0, 0, 0, 0, 0]);
                page.say(0x11, &[0, 64]);
                page.say(0x00, &[1, 1]);
                page.say(0x02, &[]);
                all.push(page.done(format!("first-{metering:x}-{cost:x}-{}", before.trim().len() + before.len())));
            }
        }
    }
}

// ---------------------------------------------------------------- prices

/// Growths, fills, copies and inits of each short length with fuel one short, just enough and one more.
fn prices(all: &mut Vec<Short>) {
    for cost in [0, 1, 2, 3, 4, 5, 8, 63, 64, 65, 127, 128, 0xffff_ffff] {
        let mut page = Page(String::new());
        page.say(0x00, &[1, cost]);
        page.say(0x10, &[65_536, 0, 0, 0, 0, 0]);
        page.say(0x20, &[512, 0, 0, 0, 200, 0, 0, 0]);
        page.say(0x29, &[0, 4, 1, 2, 3, 4]);
        for length in 0..131 {
            for fuel in around(price(length, cost)) {
                page.say(0x01, &[fuel]);
                page.say(0x11, &[0, length]);
            }
            for fuel in around(price(4 * length, cost)) {
                page.say(0x01, &[fuel]);
                page.say(0x25, &[0, 0, 0, length, length]);
                page.say(0x01, &[fuel]);
                page.say(0x26, &[0, 1, 0, 0, length]);
                page.say(0x01, &[fuel]);
                page.say(0x27, &[0, 0, 0, 0, length]);
                page.say(0x01, &[fuel]);
                page.say(0x21, &[0, length / 64, 0, length]);
            }
        }
        all.push(page.done(format!("price-{cost:x}")));
    }
}

fn price(bytes: u64, cost: u64) -> u64 {
    bytes.checked_div(cost).unwrap_or(u64::MAX)
}

fn around(price: u64) -> [u64; 3] {
    [price.saturating_sub(1), price, price.saturating_add(1)]
}

// ---------------------------------------------------------------- types

const LIMITS: [u64; 15] = [
    0,
    1,
    2,
    65_535,
    65_536,
    65_537,
    0xffff_ffff,
    1 << 32,
    0x1_0000_0001,
    (1 << 48) - 1,
    1 << 48,
    (1 << 48) + 1,
    1 << 63,
    u64::MAX - 1,
    u64::MAX,
];

/// A limiter that always says no, so that a good type is told as 3 and takes no number.
fn say_no(page: &mut Page, lines: &mut usize) {
    if *lines % 16 == 0 {
        page.say(0x04, &[16, 0x1111_1111_1111_1111]);
    }
    *lines += 1;
}

fn every_limit(mut f: impl FnMut(u64, u64, u64, u64)) {
    for wide in [0, 1] {
        for minimum in LIMITS {
            f(wide, 0, minimum, 0);
            for maximum in LIMITS {
                f(wide, 1, minimum, maximum);
            }
        }
    }
}

/// Creation of all memory types at the edges, and the link check of each against several memories.
fn memory_types(all: &mut Vec<Short>) {
    let mut page = Page(String::new());
    let mut lines = 0;
    page.say(0x10, &[0, 0, 0, 0, 0, 0]);
    page.say(0x10, &[0, 1, 1, 0, 65_536, 0]);
    page.say(0x10, &[0, 1, 1, 0, 1 << 48, 16]);
    page.say(0x10, &[0, 0, 1, 0, 65_536, 16]);
    page.say(0x10, &[1, 0, 1, 1, 2, 0]);
    for exponent in [0, 1, 15, 16, 17, 255] {
        every_limit(|wide, bounded, minimum, maximum| {
            say_no(&mut page, &mut lines);
            page.say(0x10, &[0, wide, bounded, minimum, maximum, exponent]);
            for memory in 0..5 {
                page.say(0x30, &[memory, wide, bounded, minimum, maximum, exponent]);
            }
        });
    }
    all.push(page.done("memory-types".to_string()));
}

fn table_types(all: &mut Vec<Short>) {
    let mut page = Page(String::new());
    let mut lines = 0;
    every_limit(|wide, bounded, minimum, maximum| {
        for (kind, initial) in [(0, 0), (0, 1), (1, 1)] {
            say_no(&mut page, &mut lines);
            page.say(0x20, &[0, kind, wide, bounded, minimum, maximum, initial, 0]);
        }
    });
    all.push(page.done("table-types".to_string()));
}
