//! The rows of tables. The crate's cells have 4 bytes and the port's 8, so that bytes and cells a second are both shown;
//! libc moves as many bytes as the port.

use super::{BULK, CopyFn, Fuel, LAPS, ResourceLimiterRef, Row, SetFn, Shown, Side, memset, plenty};
use std::ffi::c_void;
use std::hint::black_box;
use wasmi_core::{ElementSegment, RawRef, RefType, Table, TableType, TypedRawRef};

// Archive libtiming.a: crates/timing/src/lib.rt. All tables are of function references and have no maximum.
unsafe extern "C" {
    /// One cell of a table of `size` cells at the buffer's start, its bits through `value`.
    fn timing_get(cells: *const u64, len: usize, wide: bool, size: u64, index: u64, value: *mut u64) -> u8;
    fn timing_set(cells: *mut u64, len: usize, wide: bool, size: u64, index: u64, bits: u64) -> u8;
    /// The cells from `to` on of a table of `size` cells at the buffer's start.
    fn timing_fill(
        cells: *mut u64,
        len: usize,
        wide: bool,
        size: u64,
        to: u64,
        bits: u64,
        count: u64,
        metered: bool,
        left: *mut u64,
        per_unit: u32,
    ) -> u8;
    /// To the table of the first `size` cells from that of as many from `start` on, which may be the same.
    fn timing_copy(
        cells: *mut u64,
        len: usize,
        wide: bool,
        size: u64,
        to: u64,
        from: u64,
        count: u64,
        start: usize,
        metered: bool,
        left: *mut u64,
        per_unit: u32,
    ) -> u8;
    /// From a segment of the first `places` items.
    fn timing_init(
        cells: *mut u64,
        len: usize,
        items: *const u64,
        item_count: usize,
        places: u64,
        wide: bool,
        size: u64,
        to: u64,
        from: u64,
        count: u64,
        metered: bool,
        left: *mut u64,
        per_unit: u32,
    ) -> u8;
}

unsafe extern "C" {
    fn memmove(to: *mut c_void, from: *const c_void, count: usize) -> *mut c_void;
}

fn reference(bits: u32) -> TypedRawRef {
    TypedRawRef::new(RawRef::from(bits), RefType::Func)
}

fn number<T, E>(answer: Result<T, E>) -> u8 {
    u8::from(answer.is_err())
}

#[inline(never)]
extern "C" fn crate_get(table: &Table, index: u64, value: &mut u32) -> u8 {
    match table.get(index) {
        Some(cell) => {
            *value = u32::from(cell.raw());
            0
        }
        None => 1,
    }
}

#[inline(never)]
extern "C" fn crate_set(table: &mut Table, index: u64, bits: u32) -> u8 {
    number(table.set(index, reference(bits)))
}

#[inline(never)]
extern "C" fn crate_fill(table: &mut Table, to: u64, bits: u32, count: u64, fuel: &mut Fuel) -> u8 {
    number(table.fill(to, reference(bits), count, Some(fuel)))
}

#[inline(never)]
extern "C" fn crate_copy(into: &mut Table, to: u64, source: &Table, from: u64, count: u64, fuel: &mut Fuel) -> u8 {
    number(Table::copy(into, to, source, from, count, Some(fuel)))
}

#[inline(never)]
extern "C" fn crate_copy_within(table: &mut Table, to: u64, from: u64, count: u64, fuel: &mut Fuel) -> u8 {
    number(table.copy_within(to, from, count, Some(fuel)))
}

#[inline(never)]
extern "C" fn crate_init(
    table: &mut Table,
    to: u64,
    source: &ElementSegment,
    from: u32,
    count: u32,
    fuel: &mut Fuel,
) -> u8 {
    number(table.init(source.as_ref(), to, from, count, Some(fuel)))
}

/// The bits of the references that tables and segments begin with.
fn bits_from(first: usize, n: usize) -> impl Iterator<Item = u32> {
    (first..first + n).map(|i| i as u32 * 7 + 1)
}

/// The crate's table of `n` cells.
fn table(first: usize, n: usize) -> Table {
    let ty = TableType::new(RefType::Func, n as u32, None);
    let made = Table::new(ty, reference(0), &mut ResourceLimiterRef::default());
    let mut table = made.expect("the table is made");
    for (i, bits) in bits_from(first, n).enumerate() {
        assert!(table.set(i as u64, reference(bits)).is_ok());
    }
    table
}

/// As many of the port's cells, for ever.
fn cells(first: usize, n: usize) -> *mut u64 {
    let cells: Vec<u64> = bits_from(first, n).map(u64::from).collect();
    cells.leak().as_mut_ptr()
}

/// One operation, with its three sides.
struct Op {
    name: &'static str,
    libc: &'static str,
    theirs: Box<dyn FnMut(&mut Fuel) -> u8>,
    ours: Box<dyn FnMut(&mut u64) -> u8>,
    plain: Box<dyn FnMut()>,
}

/// The sides, after both have run once on tables of `len` cells and left the same cells and fuel.
fn op(
    (name, libc): (&'static str, &'static str),
    (mut table, cells, len): (Table, *mut u64, usize),
    mut theirs: impl FnMut(&mut Table, &mut Fuel) -> u8 + 'static,
    mut ours: impl FnMut(&mut u64) -> u8 + 'static,
    plain: impl FnMut() + 'static,
) -> Op {
    let (mut fuel, mut left) = (plenty(), u64::MAX);
    let numbers = (theirs(&mut table, &mut fuel), ours(&mut left));
    assert_eq!(numbers, (0, 0), "{name}");
    assert_eq!(fuel.get_fuel().ok(), Some(left), "{name}");
    for i in 0..len {
        let cell = table.get(i as u64).map(|cell| u64::from(u32::from(cell.raw())));
        assert_eq!(cell, Some(unsafe { *cells.add(i) }), "{name}");
    }
    Op {
        name,
        libc,
        theirs: Box::new(move |fuel| theirs(&mut table, fuel)),
        ours: Box::new(ours),
        plain: Box::new(plain),
    }
}

/// The operations on `n` cells. A table has one cell more, for the overlapping copies.
fn ops(n: usize) -> Vec<Op> {
    let (count, len) = (n as u64, n + 1);
    let size = len as u64;
    let (wide, metered, per_unit) = (black_box(false), black_box(true), black_box(64u32));
    let set: SetFn = black_box(memset);
    let shift: CopyFn = black_box(memmove);
    let bytes = 8 * n;

    // a fill with a reference, and with the null reference
    let fill_with = |name, bits: u32| {
        let bits = black_box(bits);
        let p = cells(0, len);
        op(
            (name, "memset"),
            (table(0, len), p, len),
            move |table, fuel| crate_fill(table, 0, bits, count, fuel),
            move |left| {
                let bits = u64::from(bits);
                unsafe { timing_fill(p, len, wide, size, 0, bits, count, metered, left, per_unit) }
            },
            move || {
                unsafe { set(p.cast(), 1, bytes) };
            },
        )
    };
    let fill = fill_with("table fill", 0x0123_4567);
    let null = fill_with("table fill, null", 0);

    let p = cells(0, 2 * len);
    let source = table(len, len);
    let copy = op(
        ("table copy", "memmove"),
        (table(0, len), p, len),
        move |table, fuel| crate_copy(table, 0, &source, 0, count, fuel),
        move |left| unsafe { timing_copy(p, 2 * len, wide, size, 0, 0, count, len, metered, left, per_unit) },
        move || {
            unsafe { shift(p.cast(), p.add(len).cast(), bytes) };
        },
    );

    let within = |name, to: usize, from: usize| {
        let p = cells(0, len);
        let (i, j) = (to as u64, from as u64);
        op(
            (name, "memmove"),
            (table(0, len), p, len),
            move |table, fuel| crate_copy_within(table, i, j, count, fuel),
            move |left| unsafe { timing_copy(p, len, wide, size, i, j, count, 0, metered, left, per_unit) },
            move || {
                unsafe { shift(p.add(to).cast(), p.add(from).cast(), bytes) };
            },
        )
    };

    let (p, items) = (cells(0, len), cells(3, n));
    let segment = ElementSegment::new(RefType::Func, bits_from(3, n).map(RawRef::from));
    let init = op(
        ("table init", "memmove"),
        (table(0, len), p, len),
        move |table, fuel| crate_init(table, 0, &segment, 0, n as u32, fuel),
        move |left| unsafe { timing_init(p, len, items, n, count, wide, size, 0, 0, count, metered, left, per_unit) },
        move || {
            unsafe { shift(p.cast(), items.cast(), bytes) };
        },
    );

    vec![fill, null, copy, within("table copy down 1", 0, 1), within("table copy up 1", 1, 0), init]
}

/// A row of calls on one cell each: a lap of either side gives a sum of what it read or left and whether any was refused.
fn cell_row(
    name: &'static str,
    cells: usize,
    mut theirs: impl FnMut() -> (u64, u8) + 'static,
    mut ours: impl FnMut() -> (u64, u8) + 'static,
) -> Row {
    let (first, second) = (theirs(), ours());
    assert_eq!(first, second, "{name}");
    assert_eq!(first.1, 0, "{name}");
    fn laps(lap: &mut impl FnMut() -> (u64, u8)) {
        for _ in 0..LAPS {
            black_box(lap());
        }
    }
    let sides: Vec<Box<dyn Side>> = vec![Box::new(move || laps(&mut theirs)), Box::new(move || laps(&mut ours))];
    Row::new(name, "1 cell".to_string(), LAPS * cells, Shown::Nanos, sides)
}

/// Getting and setting one cell at a time, all over a table.
fn cell_rows(rows: &mut Vec<Row>) {
    const CELLS: usize = 1024;
    let indices: &'static [u64] = (0..CELLS as u64).map(|i| i * 389 % CELLS as u64).collect::<Vec<_>>().leak();
    let (wide, size) = (black_box(false), CELLS as u64);

    let (their_table, p) = (table(0, CELLS), cells(0, CELLS));
    let theirs = move || {
        let (mut value, mut sum, mut refused) = (0u32, 0u64, 0);
        for &index in indices {
            refused |= crate_get(&their_table, index, &mut value);
            sum += u64::from(value);
        }
        (sum, refused)
    };
    let ours = move || {
        let (mut value, mut sum, mut refused) = (0u64, 0u64, 0);
        for &index in indices {
            refused |= unsafe { timing_get(p, CELLS, wide, size, index, &mut value) };
            sum += value;
        }
        (sum, refused)
    };
    rows.push(cell_row("table get", CELLS, theirs, ours));

    let (mut their_table, p) = (table(0, CELLS), cells(0, CELLS));
    let theirs = move || {
        let mut refused = 0;
        for &index in indices {
            refused |= crate_set(&mut their_table, index, index as u32 + 5);
        }
        let mut last = 0;
        refused |= crate_get(&their_table, size - 1, &mut last);
        (u64::from(last), refused)
    };
    let ours = move || {
        let mut refused = 0;
        for &index in indices {
            refused |= unsafe { timing_set(p, CELLS, wide, size, index, index + 5) };
        }
        (unsafe { *p.add(CELLS - 1) }, refused)
    };
    rows.push(cell_row("table set", CELLS, theirs, ours));
}

pub fn rows(rows: &mut Vec<Row>) {
    cell_rows(rows);
    for n in [8, 1024, 1 << 20] {
        let calls = (32768 / n).max(1);
        for op in ops(n) {
            let (mut theirs, mut ours, mut plain) = (op.theirs, op.ours, op.plain);
            let sides: Vec<Box<dyn Side>> = vec![
                Box::new(move || {
                    let mut fuel = plenty();
                    let mut refused = 0;
                    for _ in 0..calls {
                        refused |= theirs(&mut fuel);
                    }
                    assert_eq!(refused, 0);
                }),
                Box::new(move || {
                    let mut left = u64::MAX;
                    let mut refused = 0;
                    for _ in 0..calls {
                        refused |= ours(&mut left);
                    }
                    assert_eq!(refused, 0);
                }),
                Box::new(move || {
                    for _ in 0..calls {
                        plain();
                    }
                }),
            ];
            let size = if n < 1 << 20 { format!("{n} cells") } else { "2^20 cells".to_string() };
            // memset takes no pattern: only a fill with null is measured by it
            let goal = if n < 1024 || op.name == "table fill" { 0.0 } else { BULK };
            rows.push(Row::new(op.name, size, calls, Shown::Cells(n), sides).beside(op.libc).goal(0.0, goal));
        }
    }
}
