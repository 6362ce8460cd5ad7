//! Operation files for the comparison: by chance, deterministic by seed (here), and all short ones (module `short`).
//! The writer runs the oracle's own session beside the text, so that it can aim at the edges of what is there.

mod chance;
mod malformed;
mod short;

pub use machine::hush_expected_panics;
pub use short::{Short, sessions};

use chance::Chance;
use machine::{BYTES, CELLS, DEFAULT_COST, INSTANCES, MemoryView, SegmentView, Session, TableView};
use wasmi_core::RefType;

/// What a file leans to.
#[derive(Copy, Clone, PartialEq, Eq)]
pub enum Kind {
    Mixed,
    Memories,
    Tables,
    Fuel,
    Limiter,
    Malformed,
}

pub const KINDS: [(&str, Kind); 6] = [
    ("mixed", Kind::Mixed),
    ("memories", Kind::Memories),
    ("tables", Kind::Tables),
    ("fuel", Kind::Fuel),
    ("limiter", Kind::Limiter),
    ("malformed", Kind::Malformed),
];

/// The text of an operation, without LF.
pub fn line(code: u8, fields: &[u64]) -> String {
    let mut text = format!("{code:02x}");
    for field in fields {
        text += &format!(" {field:016x}");
    }
    text
}

/// One file of `count` lines.
pub fn file(seed: u64, count: usize, kind: Kind) -> Vec<u8> {
    let mut writer = Writer::new(seed, count);
    writer.first_line();
    writer.opening(kind);
    while writer.lines < count {
        writer.act(kind);
    }
    // a last line may lack LF, unless nothing else is in it
    if writer.chance.one_in(8) && !writer.text.ends_with(b"\n\n") && writer.text.len() > 1 {
        writer.text.pop();
    }
    writer.text
}

#[derive(Copy, Clone)]
enum Act {
    SetFuel,
    GetFuel,
    Charge,
    Script,
    NewMemory,
    GrowMemory,
    MemorySize,
    Load,
    Store,
    Link,
    NewTable,
    GrowTable,
    TableSize,
    Get,
    Set,
    Fill,
    Copy,
    Init,
    Drop,
    NewSegment,
    Spoiled,
    OutOfRange,
}

use Act::*;

/// How often each act comes, as parts of the sum.
#[rustfmt::skip]
fn weights(kind: Kind) -> &'static [(Act, u64)] {
    match kind {
        Kind::Mixed => &[
            (SetFuel, 6), (GetFuel, 1), (Charge, 3), (Script, 4), (NewMemory, 2), (GrowMemory, 9), (MemorySize, 2),
            (Load, 12), (Store, 10), (Link, 4), (NewTable, 2), (GrowTable, 9), (TableSize, 2), (Get, 10), (Set, 6),
            (Fill, 8), (Copy, 10), (Init, 8), (Drop, 1), (NewSegment, 1), (Spoiled, 2), (OutOfRange, 2),
        ],
        Kind::Memories => &[
            (SetFuel, 4), (Script, 2), (NewMemory, 5), (GrowMemory, 12), (MemorySize, 3), (Load, 30), (Store, 30),
            (Link, 15),
        ],
        Kind::Tables => &[
            (SetFuel, 4), (Script, 2), (NewTable, 3), (GrowTable, 10), (TableSize, 3), (Get, 25), (Set, 12), (Fill, 12),
            (Copy, 15), (Init, 14), (Drop, 1), (NewSegment, 2),
        ],
        Kind::Fuel => &[
            (SetFuel, 12), (GetFuel, 4), (Charge, 12), (NewMemory, 1), (GrowMemory, 14), (NewTable, 1), (GrowTable, 14),
            (Fill, 14), (Copy, 14), (Init, 14), (NewSegment, 1),
        ],
        Kind::Limiter => &[
            (SetFuel, 8), (Script, 16), (NewMemory, 10), (GrowMemory, 28), (NewTable, 10), (GrowTable, 28),
        ],
        Kind::Malformed => &[
            (Spoiled, 40), (OutOfRange, 40), (GetFuel, 2), (SetFuel, 2), (Load, 4), (Store, 4), (Get, 4), (Script, 2),
            (GrowMemory, 2),
        ],
    }
}

/// Numbers at which something changes.
const EDGES: [u64; 24] = [
    0,
    1,
    2,
    3,
    7,
    8,
    0xff,
    0x100,
    0xffff,
    0x1_0000,
    0x1_0001,
    0x7fff_ffff,
    0x8000_0000,
    0xffff_fffe,
    0xffff_ffff,
    0x1_0000_0000,
    0x1_0000_0001,
    (1 << 48) - 1,
    1 << 48,
    (1 << 48) + 1,
    (1 << 63) - 1,
    1 << 63,
    u64::MAX - 1,
    u64::MAX,
];

/// Bits whose sign, width or NaN payload may get lost.
const BITS: [u64; 10] = [
    0x80,
    0xff,
    0x8000,
    0xffff,
    0x7fa0_0001,
    0xffc0_0000,
    0x7ff4_0000_0000_0001,
    0xfff8_0000_0000_0000,
    0x0123_4567_89ab_cdef,
    0xfedc_ba98_7654_3210,
];

const COSTS: [u64; 16] = [0, 0, 1, 1, 2, 3, 4, 5, 8, 16, 63, 64, 65, 1000, 0x1_0000, 0xffff_ffff];

/// Bytes that each load kind reads, and each store kind writes.
const LOADED: [u64; 14] = [4, 8, 4, 8, 1, 1, 2, 2, 1, 1, 2, 2, 4, 4];
const STORED: [u64; 9] = [4, 8, 4, 8, 1, 2, 1, 2, 4];

/// Bytes that a reference counts.
const REFERENCE: u64 = 4;

/// How often an instance is looked for: any, or one that is not empty.
const ANY: u64 = 1;
const FULL: u64 = 5;

struct Writer {
    chance: Chance,
    session: Session,
    text: Vec<u8>,
    lines: usize,
    count: usize,
    metering: bool,
    cost: u64,
}

impl Writer {
    fn new(seed: u64, count: usize) -> Writer {
        Writer {
            chance: Chance::new(seed),
            session: Session::new(),
            text: Vec::new(),
            lines: 0,
            count,
            metering: true,
            cost: u64::from(DEFAULT_COST),
        }
    }

    /// Writes a line and lets the session answer it; nothing once the file is full.
    fn put(&mut self, text: &[u8]) {
        if self.lines < self.count {
            let _ = self.session.answer(text);
            self.text.extend_from_slice(text);
            self.text.push(b'\n');
            self.lines += 1;
        }
    }

    fn say(&mut self, code: u8, fields: &[u64]) {
        self.put(line(code, fields).as_bytes());
    }

    // ---- the start of a file

    fn first_line(&mut self) {
        match self.chance.below(16) {
            0..11 => {
                let metering = u64::from(!self.chance.one_in(8));
                let cost = self.chance.of(&COSTS);
                self.metering = metering == 1;
                self.cost = cost;
                self.say(0x00, &[metering, cost]);
            }
            11 => self.say(0x00, &[2, 64]),
            12 => self.say(0x00, &[1, 1 << 32]),
            13 => self.spoiled(),
            _ => {}
        }
    }

    /// Instances to work with, since a machine starts with none.
    fn opening(&mut self, kind: Kind) {
        self.act_by(SetFuel);
        for act in [NewMemory, NewMemory, NewTable, NewTable, NewSegment, NewSegment] {
            if kind != Kind::Limiter || self.chance.one_in(2) {
                self.act_by(act);
            }
        }
    }

    // ---- what is there

    fn memory(&mut self, tries: u64) -> Option<(u64, MemoryView)> {
        let views: Vec<MemoryView> = self.session.machine.memory_views().collect();
        self.one(views, |view| view.pages, tries)
    }

    fn table(&mut self, tries: u64) -> Option<(u64, TableView)> {
        let views: Vec<TableView> = self.session.machine.table_views().collect();
        self.one(views, |view| view.size, tries)
    }

    fn segment(&mut self) -> Option<(u64, SegmentView)> {
        let views: Vec<SegmentView> = self.session.machine.segment_views().collect();
        self.one(views, |view| view.size, FULL)
    }

    /// One of what is there, looked for so often until it is not empty.
    fn one<T>(&mut self, mut views: Vec<T>, size: impl Fn(&T) -> u64, tries: u64) -> Option<(u64, T)> {
        if views.is_empty() {
            return None;
        }
        let mut place = 0;
        for _ in 0..tries {
            place = self.chance.below(views.len() as u64);
            if size(&views[place as usize]) > 0 {
                break;
            }
        }
        Some((place, views.swap_remove(place as usize)))
    }

    /// Whether a creation would only be told that all numbers are in use, which is worth showing now and then.
    fn full(&mut self, instances: usize) -> bool {
        instances == INSTANCES && !self.chance.one_in(8)
    }

    /// The number itself, or now and then one that is unknown.
    fn number(&mut self, known: u64) -> u64 {
        if self.chance.one_in(40) {
            self.chance.of(&[known + 1, 7, 8, 1 << 32, known + (1 << 32), u64::MAX])
        } else {
            known
        }
    }

    // ---- numbers

    fn near(&mut self, center: u64) -> u64 {
        center.wrapping_add(self.chance.below(5)).wrapping_sub(2)
    }

    fn edge(&mut self) -> u64 {
        let edge = self.chance.of(&EDGES);
        if self.chance.one_in(3) { self.near(edge) } else { edge }
    }

    fn bits(&mut self) -> u64 {
        match self.chance.below(4) {
            0 => self.chance.of(&BITS),
            1 => self.edge(),
            2 => self.chance.below(256),
            _ => self.chance.next(),
        }
    }

    fn yes_no(&mut self) -> u64 {
        self.chance.below(2)
    }

    /// The kind itself, or now and then the other.
    fn kind(&mut self, kind: RefType) -> u64 {
        let kind = u64::from(kind == RefType::Extern);
        if self.chance.one_in(25) { 1 - kind } else { kind }
    }

    /// A place in something of this size, its end and the edges too.
    fn index(&mut self, size: u64) -> u64 {
        match self.chance.below(16) {
            0..4 => self.near(size),
            4 => self.edge(),
            5 => self.chance.below(4),
            _ => self.chance.below(size.max(1)),
        }
    }

    /// A length from a place on: inside, up to the end, around it, or an edge.
    fn length(&mut self, left: u64) -> u64 {
        match self.chance.below(16) {
            0..3 => self.near(left),
            3 => left,
            4 => 0,
            5 => self.edge(),
            6..9 => self.around_price(REFERENCE).min(left),
            _ => self.chance.below(left.saturating_add(1).max(1)),
        }
    }

    /// How many things of this many bytes cost about a whole number of units.
    fn around_price(&mut self, bytes: u64) -> u64 {
        let units = self.chance.below(4);
        let whole = self.cost.saturating_mul(units) / bytes;
        self.near(whole)
    }

    // ---- fuel

    fn price(&self, bytes: u64) -> u64 {
        bytes.checked_div(self.cost).unwrap_or(u64::MAX)
    }

    /// Sets the fuel to what the next step costs, or one more or less, or leaves it.
    fn fuel_for(&mut self, bytes: u64) {
        if self.metering && self.chance.one_in(3) {
            let price = self.price(bytes);
            let few = self.chance.below(3);
            self.say(0x01, &[price.wrapping_add(few).wrapping_sub(1)]);
        }
    }

    fn fuel(&mut self) -> u64 {
        match self.chance.below(4) {
            0 => self.chance.below(8),
            1 => self.edge(),
            2 => 1_000_000,
            _ => self.chance.below(5000),
        }
    }

    // ---- acts

    fn act(&mut self, kind: Kind) {
        let weights = weights(kind);
        let mut left = self.chance.below(weights.iter().map(|(_, weight)| weight).sum());
        for &(act, weight) in weights {
            if left < weight {
                return self.act_by(act);
            }
            left -= weight;
        }
    }

    fn act_by(&mut self, act: Act) {
        match act {
            SetFuel => {
                let fuel = self.fuel();
                self.say(0x01, &[fuel])
            }
            GetFuel => self.say(0x02, &[]),
            Charge => self.charge(),
            Script => self.script(),
            NewMemory => self.new_memory(),
            GrowMemory => self.grow_memory(),
            MemorySize => self.memory_size(),
            Load => self.load(),
            Store => self.store(),
            Link => self.link(),
            NewTable => self.new_table(),
            GrowTable => self.grow_table(),
            TableSize => self.table_size(),
            Get => self.get(),
            Set => self.set(),
            Fill => self.fill(),
            Copy => self.copy(),
            Init => self.init(),
            Drop => self.drop_segment(),
            NewSegment => self.new_segment(),
            Spoiled => self.spoiled(),
            OutOfRange => self.out_of_range(),
        }
    }

    fn charge(&mut self) {
        let left = self.session.machine.fuel_left();
        let units = match self.chance.below(3) {
            0 => self.near(left),
            1 => self.fuel(),
            _ => self.chance.below(left.saturating_add(1).max(1)),
        };
        self.say(0x03, &[units]);
    }

    fn script(&mut self) {
        let count = self.chance.of(&[0, 1, 1, 2, 2, 3, 4, 8, 15, 16]);
        let mut digits = 0;
        for i in 0..count {
            digits |= self.chance.of(&[0, 0, 0, 1, 2]) << (60 - 4 * i);
        }
        self.say(0x04, &[count, digits]);
    }

    /// Has a maximum, minimum, maximum: near each other, near what fits, or at the edges.
    fn limits(&mut self, fits: u64) -> [u64; 3] {
        let minimum = match self.chance.below(8) {
            0 => self.near(fits),
            1 => self.edge(),
            2 | 3 => 0,
            _ => self.chance.below(fits / 2 + 2),
        };
        let maximum = match self.chance.below(8) {
            0..3 => return [0, minimum, 0],
            3 => self.near(minimum),
            4 => self.edge(),
            5 => self.near(fits),
            _ => minimum.saturating_add(self.chance.below(fits.max(4))),
        };
        [1, minimum, maximum]
    }

    fn room(&mut self, free: u64, whole: u64) -> u64 {
        match self.chance.below(16) {
            0 => self.near(free),
            1 => self.near(whole),
            2 => self.edge(),
            3..6 => self.chance.below(8).min(free),
            6..9 => self.chance.below(free / 4 + 1),
            _ => self.chance.below(300).min(free),
        }
    }

    fn exponent(&mut self) -> u64 {
        match self.chance.below(16) {
            0 => self.chance.of(&[1, 8, 15, 17, 32, 64, 255]),
            1..5 => 16,
            _ => 0,
        }
    }

    fn new_memory(&mut self) {
        if self.full(self.session.machine.memory_views().count()) {
            return self.grow_memory();
        }
        let exponent = self.exponent();
        let free = self.session.machine.bytes_free();
        let room = if exponent == 16 && self.chance.one_in(2) { self.near(free) } else { self.room(free, BYTES) };
        let [bounded, minimum, maximum] = match self.chance.below(12) {
            // the maximum at which the crate panics, and the minimum of 2^64 bytes
            0 if exponent == 16 => [1, 0, 1 << 48],
            1 | 2 if exponent == 16 => [0, self.chance.of(&[1 << 48, 1 << 48, (1 << 48) - 1, (1 << 48) + 1]), 0],
            _ => self.limits(room.checked_shr(exponent as u32).unwrap_or(0)),
        };
        let wide = self.yes_no();
        self.say(0x10, &[room, wide, bounded, minimum, maximum, exponent]);
    }

    fn grow_memory(&mut self) {
        let Some((number, view)) = self.memory(ANY) else { return self.new_memory() };
        let exponent = u32::from(view.ty.page_size_log2());
        let bound = (if view.ty.is_64() { u64::MAX } else { 1 << 32 }) >> exponent;
        let room = view.room >> exponent;
        let pages = match self.chance.below(12) {
            0 | 1 => self.near(room - view.pages),
            2 => self.near(view.ty.maximum().unwrap_or(bound) - view.pages),
            3 => self.near(bound - view.pages),
            4 => self.edge(),
            5..8 => self.around_price(1 << exponent),
            _ => self.chance.below(8),
        };
        self.fuel_for(pages.saturating_mul(1 << exponent));
        let number = self.number(number);
        self.say(0x11, &[number, pages]);
    }

    fn memory_size(&mut self) {
        let number = self.memory(ANY).map_or(0, |(number, _)| number);
        let number = self.number(number);
        self.say(0x12, &[number]);
    }

    /// Pointer and offset of an access of so many bytes: around the end, inside, or with a sum that wraps.
    fn address(&mut self, size: u64, width: u64) -> [u64; 2] {
        let address = match self.chance.below(8) {
            0..3 => self.near(size.wrapping_sub(width)),
            3 => self.near(size),
            _ => self.index(size),
        };
        match self.chance.below(16) {
            0 => [address.wrapping_sub(u64::MAX), u64::MAX],
            1 => [self.chance.of(&EDGES), self.chance.of(&EDGES)],
            2 => [address.wrapping_add(1 << 32), 0],
            3 => {
                let far = self.edge();
                [far, address.wrapping_sub(far)]
            }
            4..8 => [0, address],
            8..12 => [address, 0],
            _ => {
                let part = self.chance.below(address.saturating_add(1).max(1));
                [part, address - part.min(address)]
            }
        }
    }

    fn load(&mut self) {
        let Some((number, view)) = self.memory(FULL) else { return self.new_memory() };
        let kind = self.chance.below(14);
        let [pointer, offset] = self.address(view.pages << view.ty.page_size_log2(), LOADED[kind as usize]);
        let number = self.number(number);
        self.say(0x13, &[number, kind, pointer, offset]);
    }

    fn store(&mut self) {
        let Some((number, view)) = self.memory(FULL) else { return self.new_memory() };
        let kind = self.chance.below(9);
        let [pointer, offset] = self.address(view.pages << view.ty.page_size_log2(), STORED[kind as usize]);
        let bits = if matches!(kind, 0 | 2 | 4 | 5) { self.bits() & 0xffff_ffff } else { self.bits() };
        let number = self.number(number);
        self.say(0x14, &[number, kind, pointer, offset, bits]);
        if self.chance.one_in(2) {
            let load = self.chance.below(14);
            self.say(0x13, &[number, load, pointer, offset]);
        }
    }

    fn link(&mut self) {
        let Some((number, view)) = self.memory(ANY) else { return self.new_memory() };
        let ty = view.ty;
        let wide = if self.chance.one_in(8) { self.yes_no() } else { u64::from(ty.is_64()) };
        let exponent = if self.chance.one_in(8) { self.exponent() } else { u64::from(ty.page_size_log2()) };
        let minimum = match self.chance.below(8) {
            0..4 => self.near(ty.minimum()),
            4 => self.edge(),
            5 => view.pages,
            _ => ty.minimum(),
        };
        let maximum = match self.chance.below(8) {
            0 => self.edge(),
            1..5 => self.near(ty.maximum().unwrap_or(minimum)),
            _ => ty.maximum().unwrap_or(minimum).max(minimum),
        };
        let bounded = self.yes_no();
        let number = self.number(number);
        self.say(0x30, &[number, wide, bounded, minimum, maximum * bounded, exponent]);
    }

    fn new_table(&mut self) {
        if self.full(self.session.machine.table_views().count()) {
            return self.grow_table();
        }
        let free = self.session.machine.cells_free();
        let room = self.room(free, CELLS);
        let [bounded, minimum, maximum] = self.limits(room);
        let kind = u64::from(self.chance.one_in(4));
        let initial = if self.chance.one_in(20) { 1 - kind } else { kind };
        let (wide, bits) = (self.yes_no(), self.bits());
        self.say(0x20, &[room, kind, wide, bounded, minimum, maximum, initial, bits]);
    }

    fn grow_table(&mut self) {
        let Some((number, view)) = self.table(ANY) else { return self.new_table() };
        let bound = if view.ty.is_64() { u64::MAX } else { u64::from(u32::MAX) };
        let cells = match self.chance.below(12) {
            0 | 1 => self.near(view.room - view.size),
            2 => self.near(view.ty.maximum().unwrap_or(bound) - view.size),
            3 => self.near(bound - view.size),
            4 => self.edge(),
            5..8 => self.around_price(REFERENCE),
            _ => self.chance.below(6),
        };
        self.fuel_for(cells.saturating_mul(REFERENCE));
        let (kind, bits, number) = (self.kind(view.ty.element()), self.bits(), self.number(number));
        self.say(0x21, &[number, cells, kind, bits]);
        if cells < CELLS && self.chance.one_in(2) {
            self.say(0x23, &[number, view.size.wrapping_add(cells).wrapping_sub(1)]);
        }
    }

    fn table_size(&mut self) {
        let number = self.table(ANY).map_or(0, |(number, _)| number);
        let number = self.number(number);
        self.say(0x22, &[number]);
    }

    fn get(&mut self) {
        let Some((number, view)) = self.table(FULL) else { return self.new_table() };
        let (index, number) = (self.index(view.size), self.number(number));
        self.say(0x23, &[number, index]);
    }

    fn set(&mut self) {
        let Some((number, view)) = self.table(FULL) else { return self.new_table() };
        let index = self.index(view.size);
        let (kind, bits, number) = (self.kind(view.ty.element()), self.bits(), self.number(number));
        self.say(0x24, &[number, index, kind, bits]);
    }

    fn fill(&mut self) {
        let Some((number, view)) = self.table(FULL) else { return self.new_table() };
        let start = self.index(view.size);
        let length = self.length(view.size.saturating_sub(start));
        self.fuel_for(length.saturating_mul(REFERENCE));
        let (kind, bits, number) = (self.kind(view.ty.element()), self.bits(), self.number(number));
        self.say(0x25, &[number, start, kind, bits, length]);
    }

    fn copy(&mut self) {
        let Some((to_table, target)) = self.table(FULL) else { return self.new_table() };
        let within = self.chance.one_in(2);
        let (from_table, source) =
            self.table(FULL).filter(|_| !within).map_or((to_table, target.size), |(n, view)| (n, view.size));
        let to = self.index(target.size);
        let from = match self.chance.below(3) {
            0 => self.near(to),
            _ => self.index(source),
        };
        let left = target.size.saturating_sub(to).min(source.saturating_sub(from));
        let length = self.length(left);
        self.fuel_for(length.saturating_mul(REFERENCE));
        let (to_table, from_table) = (self.number(to_table), self.number(from_table));
        self.say(0x26, &[to_table, to, from_table, from, length]);
        if self.chance.one_in(3) {
            let index = to.wrapping_add(self.chance.below(length.max(1)));
            self.say(0x23, &[to_table, index]);
        }
    }

    fn init(&mut self) {
        let Some((number, view)) = self.table(FULL) else { return self.new_table() };
        let Some((segment, from_view)) = self.segment() else { return self.new_segment() };
        if from_view.kind != view.ty.element() && !self.chance.one_in(8) {
            return self.fill();
        }
        let to = self.index(view.size);
        let from = match self.chance.below(8) {
            0 => self.edge() & 0xffff_ffff,
            1 => self.near(from_view.size) & 0xffff_ffff,
            _ => self.chance.below(from_view.size + 1),
        };
        let left = view.size.saturating_sub(to).min(from_view.size.saturating_sub(from));
        let length = self.length(left) & 0xffff_ffff;
        self.fuel_for(length * REFERENCE);
        let (number, segment) = (self.number(number), self.number(segment));
        self.say(0x27, &[number, segment, to, from, length]);
    }

    fn drop_segment(&mut self) {
        let number = self.segment().map_or(0, |(number, _)| number);
        let number = self.number(number);
        self.say(0x28, &[number]);
    }

    fn new_segment(&mut self) {
        if self.full(self.session.machine.segment_views().count()) {
            return self.drop_segment();
        }
        let kind = u64::from(self.chance.one_in(4));
        let count = self.chance.below(5);
        let mut fields = vec![kind, count];
        for _ in 0..count {
            fields.push(self.bits());
        }
        self.say(0x29, &fields);
    }
}
