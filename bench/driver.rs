//! Times the crate's own code and the port in one run and prints the parts that its arguments name, or all. Built and run by
//! `bench/run`, which knows their names.
//!
//! Both sides are called as `extern "C"` functions, from the same loop where their shapes are equal, over the same
//! addresses and buffers. In every round the sides take turns, and each side's best run counts. What both sides answer is
//! compared too. Everything is warm: what a row touches fits the second-level cache, but for tables of 2^20 cells.

// the benches time a part of what the header declares
#[allow(dead_code)]
#[path = "../oracle/face.rs"]
mod face;
mod lines;
mod operate;
mod tables;
mod whole;

use face::*;
use std::ffi::c_void;
use std::hint::black_box;
use std::time::Instant;
use wasmi_core::{Fuel, FuelCostsProvider, Memory, MemoryType, ResourceLimiterRef};

const KIB: usize = 1024;
const MIB: usize = 1024 * 1024;

// ---------------------------------------------------------------- measuring

/// One contender of a row: `prepare` is not timed, `run` is.
trait Side {
    fn prepare(&mut self) {}
    fn run(&mut self);
}

impl<F: FnMut()> Side for F {
    fn run(&mut self) {
        self()
    }
}

/// A line of the table: the crate, the port, and perhaps libc.
struct Row {
    name: &'static str,
    size: String,
    /// How many calls one run makes.
    calls: usize,
    sides: Vec<Box<dyn Side>>,
    shown: Shown,
    libc: &'static str,
    /// The speeds that the port is to reach, as parts of the crate's and of libc's.
    floors: (f64, f64),
    /// The best run of each side, in nanoseconds.
    best: Vec<f64>,
}

/// What a row's numbers are.
#[derive(Copy, Clone)]
enum Shown {
    /// Nanoseconds for one call.
    Nanos,
    /// 10^9 bytes a second, of so many bytes a call.
    Bytes(usize),
    /// The same of cells, which have 4 bytes in the crate and 8 here; a second line has 10^6 cells a second.
    Cells(usize),
}

const CRATE: usize = 0;
const PORT: usize = 1;
const LIBC: usize = 2;

impl Row {
    fn new(name: &'static str, size: String, calls: usize, shown: Shown, sides: Vec<Box<dyn Side>>) -> Row {
        let best = vec![f64::INFINITY; sides.len()];
        Row { name, size, calls, sides, shown, libc: "", floors: (FREE, FREE), best }
    }

    fn goal(mut self, of_crate: f64, of_libc: f64) -> Row {
        self.floors = (of_crate, of_libc);
        self
    }

    fn beside(mut self, libc: &'static str) -> Row {
        self.libc = libc;
        self
    }

    /// At most 100 rounds, for some 50 milliseconds.
    fn measure(&mut self) {
        let n = self.sides.len();
        let begun = Instant::now();
        for round in 0..100 {
            for turn in 0..n {
                let i = (round + turn) % n;
                let side = &mut self.sides[i];
                side.prepare();
                let start = Instant::now();
                side.run();
                let spent = start.elapsed().as_nanos() as f64;
                self.best[i] = self.best[i].min(spent);
            }
            if begun.elapsed().as_millis() > 50 {
                break;
            }
        }
    }

    fn bytes(&self, side: usize) -> f64 {
        match self.shown {
            Shown::Nanos => 1.0,
            Shown::Bytes(n) => n as f64,
            Shown::Cells(n) if side == CRATE => (4 * n) as f64,
            Shown::Cells(n) => (8 * n) as f64,
        }
    }

    fn nanos(&self, side: usize) -> f64 {
        self.best[side] / self.calls as f64
    }

    fn speed(&self, side: usize) -> String {
        match self.shown {
            Shown::Nanos => format!("{:.2} ns", self.nanos(side)),
            _ => format!("{:.1} GB/s", self.bytes(side) / self.nanos(side)),
        }
    }

    /// How fast the port is, as a part of another side's speed.
    fn ratio(&self, side: usize) -> f64 {
        self.bytes(PORT) / self.nanos(PORT) / (self.bytes(side) / self.nanos(side))
    }

    /// Prints the line; whether the goals are met.
    fn print(&self) -> bool {
        let mut line = format!(
            "{:<22} {:>10} {:>12} {:>12} {:>11.2}",
            self.name,
            self.size,
            self.speed(CRATE),
            self.speed(PORT),
            self.ratio(CRATE)
        );
        let mut met = self.ratio(CRATE) >= self.floors.0;
        if self.sides.len() > LIBC {
            let own = format!("{} {}", self.libc, self.speed(LIBC));
            line += &format!(" {own:>20} {:>10.2}", self.ratio(LIBC));
            met = met && self.ratio(LIBC) >= self.floors.1;
        }
        println!("{line}");
        if let Shown::Cells(n) = self.shown {
            let cells = |side| format!("{:.0} M/s", n as f64 / self.nanos(side) * 1000.0);
            let ratio = self.nanos(CRATE) / self.nanos(PORT);
            println!("{:<22} {:>10} {:>12} {:>12} {ratio:>11.2}", "", "in cells", cells(CRATE), cells(PORT));
        }
        met
    }
}

/// A short operation is shown by its time, a long one by its bandwidth.
fn shown(bytes: usize) -> Shown {
    if bytes < KIB { Shown::Nanos } else { Shown::Bytes(bytes) }
}

fn size(bytes: usize) -> String {
    match bytes {
        n if n >= MIB => format!("{} MiB", n / MIB),
        n if n >= KIB => format!("{} KiB", n / KIB),
        n => format!("{n} B"),
    }
}

/// "No slower", less what two runs of the same code differ by.
const EVEN: f64 = 0.97;
/// Bulk operations against libc.
const BULK: f64 = 0.95;
/// No goal.
const FREE: f64 = 0.0;

// ---------------------------------------------------------------- the port

// Archive libtiming.a: crates/timing/src/lib.rt.
unsafe extern "C" {
    fn timing_grow(
        bytes: *mut u8,
        len: usize,
        wide: bool,
        wasm: bool,
        size: *mut u64,
        additional: u64,
        metered: bool,
        left: *mut u64,
        per_unit: u32,
    ) -> u8;
    fn timing_read(
        bytes: *const u8,
        len: usize,
        wide: bool,
        wasm: bool,
        size: u64,
        offset: u64,
        to: *mut u8,
        count: usize,
    ) -> u8;
    fn timing_write(
        bytes: *mut u8,
        len: usize,
        wide: bool,
        wasm: bool,
        size: u64,
        offset: u64,
        from: *const u8,
        count: usize,
    ) -> u8;
    fn timing_charge(metered: bool, left: *mut u64, price: u64) -> u8;
}

// ---------------------------------------------------------------- libc

unsafe extern "C" {
    fn memset(to: *mut c_void, byte: i32, count: usize) -> *mut c_void;
    fn memcpy(to: *mut c_void, from: *const c_void, count: usize) -> *mut c_void;
}

type SetFn = unsafe extern "C" fn(*mut c_void, i32, usize) -> *mut c_void;
type CopyFn = unsafe extern "C" fn(*mut c_void, *const c_void, usize) -> *mut c_void;

// ---------------------------------------------------------------- the crate, in the port's shapes

macro_rules! crate_load {
    ($($name:ident = $call:ident, |$v:ident| $bits:expr;)*) => {$(
        #[inline(never)]
        unsafe extern "C" fn $name(bytes: *const u8, len: usize, ptr: u64, offset: u64, out: *mut u64) -> u8 {
            let memory = unsafe { std::slice::from_raw_parts(bytes, len) };
            match wasmi_core::wasm::$call(memory, ptr, offset) {
                Ok($v) => {
                    unsafe { *out = $bits };
                    0
                }
                Err(_) => 9,
            }
        }
    )*};
}
crate_load! {
    crate_load_i32 = load_u32, |v| u64::from(v);
    crate_load_i64 = load_u64, |v| v;
    crate_load_f32 = load_f32, |v| u64::from(v.to_bits());
    crate_load_f64 = load_f64, |v| v.to_bits();
    crate_load_i32_8s = i32_load8_s, |v| u64::from(v as u32);
    crate_load_i32_8u = i32_load8_u, |v| u64::from(v as u32);
    crate_load_i32_16s = i32_load16_s, |v| u64::from(v as u32);
    crate_load_i32_16u = i32_load16_u, |v| u64::from(v as u32);
    crate_load_i64_8s = i64_load8_s, |v| v as u64;
    crate_load_i64_8u = i64_load8_u, |v| v as u64;
    crate_load_i64_16s = i64_load16_s, |v| v as u64;
    crate_load_i64_16u = i64_load16_u, |v| v as u64;
    crate_load_i64_32s = i64_load32_s, |v| v as u64;
    crate_load_i64_32u = i64_load32_u, |v| v as u64;
}

macro_rules! crate_store {
    ($($name:ident = $call:ident, $ty:ty, |$v:ident| $value:expr;)*) => {$(
        #[inline(never)]
        unsafe extern "C" fn $name(bytes: *mut u8, len: usize, ptr: u64, offset: u64, $v: $ty) -> u8 {
            let memory = unsafe { std::slice::from_raw_parts_mut(bytes, len) };
            match wasmi_core::wasm::$call(memory, ptr, offset, $value) {
                Ok(()) => 0,
                Err(_) => 9,
            }
        }
    )*};
}
crate_store! {
    crate_store_i32 = store32, u32, |v| v;
    crate_store_i64 = store64, u64, |v| v;
    crate_store_f32 = store_f32, u32, |v| f32::from_bits(v);
    crate_store_f64 = store_f64, u64, |v| f64::from_bits(v);
    crate_store_i32_8 = i32_store8, u32, |v| v as i32;
    crate_store_i32_16 = i32_store16, u32, |v| v as i32;
    crate_store_i64_8 = i64_store8, u64, |v| v as i64;
    crate_store_i64_16 = i64_store16, u64, |v| v as i64;
    crate_store_i64_32 = i64_store32, u64, |v| v as i64;
}

#[inline(never)]
extern "C" fn crate_price(len: u64, costs: &FuelCostsProvider) -> u64 {
    costs.fuel_for_copying_values::<u8>(len)
}

#[inline(never)]
extern "C" fn crate_charge(fuel: &mut Fuel, price: u64) -> u8 {
    match fuel.consume_fuel(|_| price) {
        Ok(_) => 0,
        Err(wasmi_core::FuelError::OutOfFuel { .. }) => 7,
        Err(_) => 15,
    }
}

#[inline(never)]
extern "C" fn crate_grow(memory: &mut Memory, additional: u64, fuel: &mut Fuel) -> u8 {
    let mut limiter = ResourceLimiterRef::default();
    match memory.grow(additional, Some(fuel), &mut limiter) {
        Ok(_) => 0,
        Err(_) => 6,
    }
}

#[inline(never)]
unsafe extern "C" fn crate_read(memory: &Memory, offset: usize, to: *mut u8, count: usize) -> u8 {
    let to = unsafe { std::slice::from_raw_parts_mut(to, count) };
    match memory.read(offset, to) {
        Ok(()) => 0,
        Err(_) => 9,
    }
}

#[inline(never)]
unsafe extern "C" fn crate_write(memory: &mut Memory, offset: usize, from: *const u8, count: usize) -> u8 {
    let from = unsafe { std::slice::from_raw_parts(from, count) };
    match memory.write(offset, from) {
        Ok(()) => 0,
        Err(_) => 9,
    }
}

// ---------------------------------------------------------------- loads and stores

/// Bytes with every sign, and pointers with offsets into them: 16 KiB each.
struct Places {
    bytes: Vec<u8>,
    at: Vec<(u64, u64)>,
}

fn places() -> &'static mut Places {
    let mut seed = 0x9e37_79b9_7f4a_7c15u64;
    let mut next = || {
        seed ^= seed << 13;
        seed ^= seed >> 7;
        seed ^= seed << 17;
        seed
    };
    let bytes = (0..16 * KIB).map(|_| next() as u8).collect();
    let at = (0..KIB).map(|_| (next() % 8192, next() % 8180)).collect();
    Box::leak(Box::new(Places { bytes, at }))
}

const LAPS: usize = 8;

#[inline(never)]
fn loads(f: Load, p: &Places) -> u64 {
    let mut sum = 0u64;
    let mut out = 0u64;
    for _ in 0..LAPS {
        for &(ptr, offset) in &p.at {
            let refused = unsafe { f(p.bytes.as_ptr(), p.bytes.len(), ptr, offset, &mut out) };
            sum = sum.wrapping_add(out).rotate_left(1).wrapping_add(u64::from(refused));
        }
    }
    sum
}

macro_rules! stores {
    ($name:ident, $f:ty, $bits:ty) => {
        #[inline(never)]
        fn $name(f: $f, bytes: Room, p: &Places) -> u64 {
            let mut refusals = 0u64;
            for lap in 0..LAPS as $bits {
                for &(ptr, offset) in &p.at {
                    let bits = (ptr as $bits).wrapping_mul(0x0101_0101).wrapping_add(lap);
                    let refused = unsafe { f(bytes.start, bytes.len, ptr, offset, bits) };
                    refusals += u64::from(refused);
                }
            }
            refusals
        }
    };
}
stores!(stores32, StoreHalf, u32);
stores!(stores64, StoreWhole, u64);

fn load_rows(rows: &mut Vec<Row>) {
    let all: [(&str, usize, Load, Load); 14] = [
        ("load i32", 4, crate_load_i32, ysh_load_i32),
        ("load i64", 8, crate_load_i64, ysh_load_i64),
        ("load f32", 4, crate_load_f32, ysh_load_f32),
        ("load f64", 8, crate_load_f64, ysh_load_f64),
        ("load i32 from 8s", 1, crate_load_i32_8s, ysh_load_i32_8s),
        ("load i32 from 8u", 1, crate_load_i32_8u, ysh_load_i32_8u),
        ("load i32 from 16s", 2, crate_load_i32_16s, ysh_load_i32_16s),
        ("load i32 from 16u", 2, crate_load_i32_16u, ysh_load_i32_16u),
        ("load i64 from 8s", 1, crate_load_i64_8s, ysh_load_i64_8s),
        ("load i64 from 8u", 1, crate_load_i64_8u, ysh_load_i64_8u),
        ("load i64 from 16s", 2, crate_load_i64_16s, ysh_load_i64_16s),
        ("load i64 from 16u", 2, crate_load_i64_16u, ysh_load_i64_16u),
        ("load i64 from 32s", 4, crate_load_i64_32s, ysh_load_i64_32s),
        ("load i64 from 32u", 4, crate_load_i64_32u, ysh_load_i64_32u),
    ];
    let p: &'static Places = places();
    for (name, n, theirs, ours) in all {
        assert_eq!(loads(theirs, p), loads(ours, p), "{name}");
        let side = |f: Load| -> Box<dyn Side> {
            Box::new(move || {
                black_box(loads(black_box(f), p));
            })
        };
        let sides = vec![side(theirs), side(ours)];
        rows.push(Row::new(name, size(n), LAPS * p.at.len(), Shown::Nanos, sides).goal(EVEN, FREE));
    }
}

macro_rules! store_rows {
    ($rows:ident, $batch:ident, $f:ty, $($name:literal, $n:literal, $theirs:ident, $ours:ident;)*) => {
        let p: &'static Places = places();
        let (bytes, other) = (room(16 * KIB), room(16 * KIB));
        $(
            assert_eq!($batch($theirs, bytes, p), 0, $name);
            assert_eq!($batch($ours, other, p), 0, $name);
            assert_eq!(bytes.copied(), other.copied(), $name);
            let sides: Vec<Box<dyn Side>> = vec![
                Box::new(move || {
                    black_box($batch(black_box($theirs), bytes, p));
                }),
                Box::new(move || {
                    black_box($batch(black_box($ours), bytes, p));
                }),
            ];
            $rows.push(Row::new($name, size($n), LAPS * p.at.len(), Shown::Nanos, sides).goal(EVEN, FREE));
        )*
    };
}

fn store_rows(rows: &mut Vec<Row>) {
    store_rows!(rows, stores32, StoreHalf,
        "store i32", 4, crate_store_i32, ysh_store_i32;
        "store f32", 4, crate_store_f32, ysh_store_f32;
        "store i32 to 8", 1, crate_store_i32_8, ysh_store_i32_8;
        "store i32 to 16", 2, crate_store_i32_16, ysh_store_i32_16;
    );
    store_rows!(rows, stores64, StoreWhole,
        "store i64", 8, crate_store_i64, ysh_store_i64;
        "store f64", 8, crate_store_f64, ysh_store_f64;
        "store i64 to 8", 1, crate_store_i64_8, ysh_store_i64_8;
        "store i64 to 16", 2, crate_store_i64_16, ysh_store_i64_16;
        "store i64 to 32", 4, crate_store_i64_32, ysh_store_i64_32;
    );
}

// ---------------------------------------------------------------- price and charge

#[inline(never)]
fn prices(lens: &[u64], f: impl Fn(u64) -> u64) -> u64 {
    let mut sum = 0u64;
    for _ in 0..LAPS {
        for &len in lens {
            sum = sum.wrapping_add(f(len));
        }
    }
    sum
}

fn price_rows(rows: &mut Vec<Row>) {
    let lens: &'static [u64] = (0..KIB as u64).map(|i| i * i * 37 + 63).collect::<Vec<_>>().leak();
    let given = FuelCostsProvider::custom(wasmi_core::CustomFuelCosts {
        bytes_copied_per_fuel: 64,
        fuel_per_bytes_translated: 7,
        fuel_per_bytes_validated: 2,
    });
    for (name, costs) in [("price, costs given", given), ("price, default costs", FuelCostsProvider::default())] {
        let costs: &'static FuelCostsProvider = Box::leak(Box::new(costs));
        let per_unit = black_box(64u32);
        let theirs = move |len| crate_price(len, black_box(costs));
        let ours = move |len| unsafe { ysh_price(len, per_unit) };
        assert_eq!(prices(lens, theirs), prices(lens, ours), "{name}");
        let sides: Vec<Box<dyn Side>> = vec![
            Box::new(move || {
                black_box(prices(lens, theirs));
            }),
            Box::new(move || {
                black_box(prices(lens, ours));
            }),
        ];
        rows.push(Row::new(name, String::new(), LAPS * lens.len(), Shown::Nanos, sides));
    }
}

/// Fuel that no row uses up, at the default costs: 64 bytes copied for a unit.
fn plenty() -> Fuel {
    let mut fuel = Fuel::new(true, FuelCostsProvider::default());
    assert!(fuel.set_fuel(u64::MAX).is_ok());
    fuel
}

fn charge_rows(rows: &mut Vec<Row>) {
    let charges: &'static [u64] = (0..KIB as u64).map(|i| i % 97).collect::<Vec<_>>().leak();
    let mut fuel = plenty();
    let mut left = u64::MAX;
    let metered = black_box(true);
    let sides: Vec<Box<dyn Side>> = vec![
        Box::new(move || {
            let mut refused = 0;
            for _ in 0..LAPS {
                for &price in charges {
                    refused |= crate_charge(&mut fuel, price);
                }
            }
            assert_eq!(refused, 0);
        }),
        Box::new(move || {
            let mut refused = 0;
            for _ in 0..LAPS {
                for &price in charges {
                    refused |= unsafe { timing_charge(metered, &mut left, price) };
                }
            }
            assert_eq!(refused, 0);
        }),
    ];
    rows.push(Row::new("charge", String::new(), LAPS * charges.len(), Shown::Nanos, sides));
}

// ---------------------------------------------------------------- memories

/// A buffer for ever, on a page's boundary, as both sides and libc see it.
#[derive(Copy, Clone)]
struct Room {
    start: *mut u8,
    len: usize,
}

impl Room {
    /// Different bytes, by a number.
    fn fill(self, by: u8) {
        for i in 0..self.len {
            unsafe { *self.start.add(i) = (i as u8).wrapping_mul(by).wrapping_add((i >> 8) as u8) };
        }
    }

    fn copied(self) -> Vec<u8> {
        unsafe { std::slice::from_raw_parts(self.start, self.len) }.to_vec()
    }
}

fn room(len: usize) -> Room {
    let bytes: &'static mut [u8] = vec![0xa5u8; len + 4096].leak();
    let start = bytes.as_mut_ptr();
    Room { start: unsafe { start.add(start.align_offset(4096)) }, len }
}

/// The crate's memory of `minimum` one-byte pages on the room.
fn memory_on(room: Room, minimum: usize) -> Memory {
    let bytes: &'static mut [u8] = unsafe { std::slice::from_raw_parts_mut(room.start, room.len) };
    let mut ty = MemoryType::builder();
    ty.page_size_log2(0);
    ty.min(minimum as u64);
    let ty = ty.build().expect("the type is valid");
    Memory::new_static(ty, &mut ResourceLimiterRef::default(), bytes).expect("the room is enough")
}

/// Growths of the crate's memory until its room is full. It is made anew, with no bytes, before each run.
struct CrateGrowth {
    room: Room,
    by: u64,
    memory: Memory,
    fuel: Fuel,
}

impl Side for CrateGrowth {
    fn prepare(&mut self) {
        self.memory = memory_on(self.room, 0);
        assert!(self.fuel.set_fuel(u64::MAX).is_ok());
    }

    fn run(&mut self) {
        let mut refused = 0;
        for _ in 0..self.room.len as u64 / self.by {
            refused |= crate_grow(&mut self.memory, self.by, &mut self.fuel);
        }
        assert_eq!(refused, 0);
    }
}

/// The same growths of the port's memory.
struct PortGrowth {
    room: Room,
    by: u64,
    size: u64,
    left: u64,
    wide: bool,
    wasm: bool,
    metered: bool,
    per_unit: u32,
}

impl Side for PortGrowth {
    fn prepare(&mut self) {
        self.size = 0;
        self.left = u64::MAX;
    }

    fn run(&mut self) {
        let mut refused = 0;
        for _ in 0..self.room.len as u64 / self.by {
            refused |= unsafe {
                timing_grow(
                    self.room.start,
                    self.room.len,
                    self.wide,
                    self.wasm,
                    &mut self.size,
                    self.by,
                    self.metered,
                    &mut self.left,
                    self.per_unit,
                )
            };
        }
        assert_eq!(refused, 0);
    }
}

fn growth_rows(rows: &mut Vec<Row>) {
    for by in [1, 64, 4 * KIB, 64 * KIB, MIB] {
        let room = room(if by < KIB { 16 * KIB } else { MIB });
        let calls = room.len / by;
        let mut theirs = CrateGrowth { room, by: by as u64, memory: memory_on(room, 0), fuel: plenty() };
        let mut ours = PortGrowth {
            room,
            by: by as u64,
            size: 0,
            left: u64::MAX,
            wide: black_box(false),
            wasm: black_box(false),
            metered: black_box(true),
            per_unit: black_box(64),
        };
        theirs.run();
        ours.run();
        assert_eq!(theirs.memory.data_size() as u64, ours.size, "growth");
        assert_eq!(theirs.fuel.get_fuel().ok(), Some(ours.left), "growth");
        let set: SetFn = black_box(memset);
        let plain = move || {
            for i in 0..calls {
                unsafe { set(room.start.add(i * by).cast(), 0, by) };
            }
        };
        let goal = if by < 64 * KIB { FREE } else { BULK };
        let sides: Vec<Box<dyn Side>> = vec![Box::new(theirs), Box::new(ours), Box::new(plain)];
        rows.push(Row::new("grow", size(by), calls, shown(by), sides).beside("memset").goal(FREE, goal));
    }
}

/// Offsets of host accesses of `n` bytes, anywhere within `len` bytes.
fn offsets(n: usize, len: usize) -> &'static [usize] {
    let places = (len - n) / 16 + 1;
    let count = (4 * MIB / n).clamp(2, KIB);
    (0..count).map(|i| i * 7919 % places * 16).collect::<Vec<_>>().leak()
}

/// The access at each offset; none may be refused.
#[inline(always)]
fn at_each(offsets: &[usize], mut access: impl FnMut(usize) -> u8) {
    let mut refused = 0;
    for &offset in offsets {
        refused |= access(offset);
    }
    assert_eq!(refused, 0);
}

/// Host accesses of these sizes, to and from one buffer of the host.
fn host_rows(rows: &mut Vec<Row>, names: [&'static str; 2], inside: Room, sizes: &[usize]) {
    let (wide, wasm) = (black_box(false), black_box(false));
    let now = inside.len as u64;
    let copy: CopyFn = black_box(memcpy);
    for &n in sizes {
        let outside = room(n);
        let at = offsets(n, inside.len);
        let calls = at.len();
        let goal = if n < KIB { FREE } else { BULK };
        let their_read = move |memory: &Memory, offset| unsafe { crate_read(memory, offset, outside.start, n) };
        let our_read = move |offset: usize| unsafe {
            timing_read(inside.start, inside.len, wide, wasm, now, offset as u64, outside.start, n)
        };
        let their_write = move |memory: &mut Memory, offset| unsafe { crate_write(memory, offset, outside.start, n) };
        let our_write = move |offset: usize| unsafe {
            timing_write(inside.start, inside.len, wide, wasm, now, offset as u64, outside.start, n)
        };

        let memory = memory_on(inside, inside.len);
        inside.fill(5);
        at_each(&at[..2], |offset| {
            let number = their_read(&memory, offset);
            let read = outside.copied();
            outside.fill(1);
            assert!(our_read(offset) == number && outside.copied() == read, "host read");
            number
        });
        let sides: Vec<Box<dyn Side>> = vec![
            Box::new(move || at_each(at, |offset| their_read(&memory, offset))),
            Box::new(move || at_each(at, our_read)),
            Box::new(move || {
                at_each(at, |offset| {
                    unsafe { copy(outside.start.cast(), inside.start.add(offset).cast(), n) };
                    0
                })
            }),
        ];
        rows.push(Row::new(names[0], size(n), calls, shown(n), sides).beside("memcpy").goal(FREE, goal));

        let mut memory = memory_on(inside, inside.len);
        at_each(&at[..2], |offset| {
            outside.fill(offset as u8);
            inside.fill(5);
            let number = their_write(&mut memory, offset);
            let written = inside.copied();
            inside.fill(5);
            assert!(our_write(offset) == number && inside.copied() == written, "host write");
            number
        });
        let sides: Vec<Box<dyn Side>> = vec![
            Box::new(move || at_each(at, |offset| their_write(&mut memory, offset))),
            Box::new(move || at_each(at, our_write)),
            Box::new(move || {
                at_each(at, |offset| {
                    unsafe { copy(inside.start.add(offset).cast(), outside.start.cast(), n) };
                    0
                })
            }),
        ];
        rows.push(Row::new(names[1], size(n), calls, shown(n), sides).beside("memcpy").goal(FREE, goal));
    }
}

// ---------------------------------------------------------------- the table

/// How often the whole table is gone through: a disturbance spoils a pass, not a row.
fn passes() -> usize {
    std::env::var("BENCH_PASSES").ok().and_then(|v| v.parse().ok()).unwrap_or(40)
}

/// Every row gone through, then one table.
fn print(mut rows: Vec<Row>) {
    for _ in 0..passes() {
        for row in &mut rows {
            row.measure();
        }
    }
    println!(
        "{:<22} {:>10} {:>12} {:>12} {:>11} {:>20} {:>10}",
        "operation", "size", "crate", "port", "port/crate", "libc", "port/libc"
    );
    let mut missed = Vec::new();
    for row in &rows {
        if !row.print() {
            missed.push(format!("{} {}", row.name, row.size));
        }
    }
    if missed.is_empty() {
        println!("every goal is met");
    } else {
        println!("below the goal: {}", missed.join("; "));
    }
}

fn main() {
    let parts: Vec<String> = std::env::args().skip(1).collect();
    let wanted = |part: &str| parts.is_empty() || parts.iter().any(|name| name == part);
    let mut rows = Vec::new();
    if wanted("memories") {
        load_rows(&mut rows);
        store_rows(&mut rows);
        price_rows(&mut rows);
        charge_rows(&mut rows);
        growth_rows(&mut rows);
        // a memory of 1 MiB, and one that lies in the first-level cache whole
        let sizes = [1, 16, 256, KIB, 4 * KIB, 16 * KIB, 64 * KIB, MIB];
        host_rows(&mut rows, ["host read", "host write"], room(MIB), &sizes);
        host_rows(&mut rows, ["host read, L1", "host write, L1"], room(16 * KIB), &sizes[..6]);
    }
    if wanted("tables") {
        tables::rows(&mut rows);
    }
    if !rows.is_empty() {
        print(rows);
    }
    if wanted("operate") {
        operate::print();
    }
    if wanted("whole") {
        whole::print();
    }
    if wanted("lines") {
        lines::print();
    }
}
