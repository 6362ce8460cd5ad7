//! A session of operation lines: the crate's own memories, tables, segments, fuel and limiter trait, and around
//! them what the crate has no notion of: instance numbers, rooms, and the text of a line and of its answer.

mod around;

pub use around::hush_expected_panics;

use around::{Ground, References, Script, allocating, caught, limiter};
use wasmi_core::{
    CustomFuelCosts, ElementSegment, Fuel, FuelCostsProvider, FuelError, Memory, MemoryError, MemoryType, RefType,
    ResourceLimiterRef, Table, TableError, TableType, TrapCode, TypedRawRef, wasm,
};

pub const BYTES: u64 = 65_536;
pub const CELLS: u64 = 1_024;
pub const ITEMS: u64 = 32;
pub const INSTANCES: usize = 8;
pub const LONGEST_LINE: usize = 160;
pub const DEFAULT_COST: u32 = 64;
/// The crate panics when a memory with this maximum grows: its bytes are 2^64.
const PANICKING_MAXIMUM: u64 = 1 << 48;

// ---------------------------------------------------------------- answers

/// Why there is no value.
#[derive(Copy, Clone, Debug, PartialEq, Eq)]
pub enum Refusal {
    /// A number of the scope's table, with its amount.
    Given(u8, u64),
    /// The crate panicked, so it has no answer.
    NotCompared,
}

pub type Outcome = Result<u64, Refusal>;

const fn refusal(number: u8) -> Refusal {
    Refusal::Given(number, 0)
}

const TYPE_INVALID: Refusal = refusal(1);
const OUTSIDE: Refusal = refusal(9);
const METERING_OFF: Refusal = refusal(15);
const UNKNOWN: Refusal = refusal(16);
const NO_PLACE: Refusal = refusal(17);
const MALFORMED: Refusal = refusal(18);

/// The crate has one error for what the scope tells apart by the call.
#[derive(Copy, Clone, PartialEq, Eq)]
enum Call {
    Creation,
    Growth,
}

/// The limiter's no and its own error are one crate error at a creation; its last answer tells them apart.
fn denied(call: Call, last: u8) -> Refusal {
    refusal(if call == Call::Creation && last == 1 { 3 } else { 4 })
}

fn room_short(call: Call) -> Refusal {
    refusal(if call == Call::Creation { 5 } else { 8 })
}

fn memory_refusal(error: MemoryError, call: Call, last: u8) -> Refusal {
    match error {
        MemoryError::InvalidMemoryType => TYPE_INVALID,
        MemoryError::MinimumSizeOverflow => refusal(2),
        MemoryError::ResourceLimiterDeniedAllocation => denied(call, last),
        MemoryError::InvalidStaticBufferSize => room_short(call),
        MemoryError::OutOfBoundsGrowth => refusal(6),
        MemoryError::OutOfFuel { required_fuel } => Refusal::Given(7, required_fuel),
        other => unreachable!("no session meets {other:?}"),
    }
}

fn table_refusal(error: TableError, call: Call, last: u8) -> Refusal {
    match error {
        TableError::ResourceLimiterDeniedAllocation => denied(call, last),
        TableError::OutOfSystemMemory => room_short(call),
        TableError::GrowOutOfBounds => refusal(6),
        other => cells_refusal(other),
    }
}

/// Refusals of table operations that ask no limiter and need no room.
fn cells_refusal(error: TableError) -> Refusal {
    match error {
        TableError::OutOfFuel { required_fuel } => Refusal::Given(7, required_fuel),
        TableError::SetOutOfBounds => refusal(10),
        TableError::FillOutOfBounds => refusal(11),
        TableError::CopyOutOfBounds => refusal(12),
        TableError::InitOutOfBounds => refusal(13),
        TableError::ElementTypeMismatch => refusal(14),
        other => unreachable!("no session meets {other:?}"),
    }
}

fn fuel_refusal(error: FuelError) -> Refusal {
    match error {
        FuelError::FuelMeteringDisabled => METERING_OFF,
        FuelError::OutOfFuel { required_fuel } => Refusal::Given(7, required_fuel),
    }
}

// ---------------------------------------------------------------- fields of a type

/// The fields that `10` and `30` share.
#[derive(Copy, Clone)]
struct MemoryFields {
    wide: bool,
    minimum: u64,
    maximum: Option<u64>,
    exponent: u8,
}

impl MemoryFields {
    fn read(wide: u64, bounded: u64, minimum: u64, maximum: u64, exponent: u64) -> Result<MemoryFields, Refusal> {
        Ok(MemoryFields {
            wide: yes_no(wide)?,
            minimum,
            maximum: limit(bounded, maximum)?,
            exponent: u8::try_from(exponent).map_err(|_| MALFORMED)?,
        })
    }

    fn build(self) -> Result<MemoryType, Refusal> {
        let mut builder = MemoryType::builder();
        builder.memory64(self.wide).min(self.minimum).max(self.maximum).page_size_log2(self.exponent);
        builder.build().map_err(|error| memory_refusal(error, Call::Creation, 0))
    }
}

struct TableFields {
    kind: RefType,
    wide: bool,
    minimum: u64,
    maximum: Option<u64>,
}

impl TableFields {
    /// The crate asserts where the scope says 1; its 32-bit constructor takes no larger limits.
    fn build(self) -> Result<TableType, Refusal> {
        if self.wide {
            return caught(|| TableType::new64(self.kind, self.minimum, self.maximum)).ok_or(TYPE_INVALID);
        }
        let narrow = |limit: u64| u32::try_from(limit).map_err(|_| TYPE_INVALID);
        let minimum = narrow(self.minimum)?;
        let maximum = self.maximum.map(narrow).transpose()?;
        caught(|| TableType::new(self.kind, minimum, maximum)).ok_or(TYPE_INVALID)
    }
}

fn yes_no(field: u64) -> Result<bool, Refusal> {
    match field {
        0 => Ok(false),
        1 => Ok(true),
        _ => Err(MALFORMED),
    }
}

fn kind(field: u64) -> Result<RefType, Refusal> {
    Ok(if yes_no(field)? { RefType::Extern } else { RefType::Func })
}

fn limit(bounded: u64, maximum: u64) -> Result<Option<u64>, Refusal> {
    match (yes_no(bounded)?, maximum) {
        (true, _) => Ok(Some(maximum)),
        (false, 0) => Ok(None),
        (false, _) => Err(MALFORMED),
    }
}

fn half(field: u64) -> Result<u32, Refusal> {
    u32::try_from(field).map_err(|_| MALFORMED)
}

/// The answers of `04`: leading digits from 0 to 2, the rest 0.
fn script_of(count: u64, digits: u64) -> Result<Vec<u8>, Refusal> {
    if count > 16 {
        return Err(MALFORMED);
    }
    let digit = |i: u64| (digits >> (60 - 4 * i)) as u8 & 15;
    let good = (0..16).all(|i| digit(i) <= if i < count { 2 } else { 0 });
    if good { Ok((0..count).map(digit).collect()) } else { Err(MALFORMED) }
}

// ---------------------------------------------------------------- loads and stores

fn low(value: i32) -> u64 {
    u64::from(value as u32)
}

/// The crate's load of a kind, as the bits of its value.
pub fn load(bytes: &[u8], kind: u64, pointer: u64, offset: u64) -> Result<u64, TrapCode> {
    Ok(match kind {
        0 => u64::from(wasm::load_u32(bytes, pointer, offset)?),
        1 => wasm::load_u64(bytes, pointer, offset)?,
        2 => u64::from(wasm::load_f32(bytes, pointer, offset)?.to_bits()),
        3 => wasm::load_f64(bytes, pointer, offset)?.to_bits(),
        4 => low(wasm::i32_load8_s(bytes, pointer, offset)?),
        5 => low(wasm::i32_load8_u(bytes, pointer, offset)?),
        6 => low(wasm::i32_load16_s(bytes, pointer, offset)?),
        7 => low(wasm::i32_load16_u(bytes, pointer, offset)?),
        8 => wasm::i64_load8_s(bytes, pointer, offset)? as u64,
        9 => wasm::i64_load8_u(bytes, pointer, offset)? as u64,
        10 => wasm::i64_load16_s(bytes, pointer, offset)? as u64,
        11 => wasm::i64_load16_u(bytes, pointer, offset)? as u64,
        12 => wasm::i64_load32_s(bytes, pointer, offset)? as u64,
        _ => wasm::i64_load32_u(bytes, pointer, offset)? as u64,
    })
}

/// The crate's store of a kind.
pub fn store(bytes: &mut [u8], kind: u64, pointer: u64, offset: u64, bits: u64) -> Result<(), TrapCode> {
    match kind {
        0 => wasm::store32(bytes, pointer, offset, bits as u32),
        1 => wasm::store64(bytes, pointer, offset, bits),
        2 => wasm::store_f32(bytes, pointer, offset, f32::from_bits(bits as u32)),
        3 => wasm::store_f64(bytes, pointer, offset, f64::from_bits(bits)),
        4 => wasm::i32_store8(bytes, pointer, offset, bits as i32),
        5 => wasm::i32_store16(bytes, pointer, offset, bits as i32),
        6 => wasm::i64_store8(bytes, pointer, offset, bits as i64),
        7 => wasm::i64_store16(bytes, pointer, offset, bits as i64),
        _ => wasm::i64_store32(bytes, pointer, offset, bits as i64),
    }
}

/// Store kinds whose value is an i32 or f32.
fn stores_half(kind: u64) -> bool {
    matches!(kind, 0 | 2 | 4 | 5)
}

// ---------------------------------------------------------------- the machine

struct MemoryPlace {
    memory: Memory,
    room: u64,
    /// The same memory without a maximum, which lives on where the crate would panic: 2^48 pages are the bound anyway.
    twin: Option<Memory>,
}

impl MemoryPlace {
    fn live(&self) -> &Memory {
        self.twin.as_ref().unwrap_or(&self.memory)
    }

    fn live_mut(&mut self) -> &mut Memory {
        self.twin.as_mut().unwrap_or(&mut self.memory)
    }
}

struct TablePlace {
    table: Table,
    room: u64,
}

/// What a generator of lines may know of a memory.
pub struct MemoryView {
    pub pages: u64,
    pub room: u64,
    pub ty: MemoryType,
}

/// What a generator of lines may know of a table.
pub struct TableView {
    pub size: u64,
    pub room: u64,
    pub ty: TableType,
}

/// What a generator of lines may know of a segment.
pub struct SegmentView {
    pub size: u64,
    pub kind: RefType,
}

pub struct Machine {
    memories: Vec<MemoryPlace>,
    tables: Vec<TablePlace>,
    segments: Vec<ElementSegment>,
    bytes_taken: u64,
    cells_taken: u64,
    items_taken: u64,
    references: References,
    fuel: Fuel,
    script: Script,
    // the last field, so that it is given back after the memories
    ground: Ground,
}

impl Machine {
    pub fn new(metering: bool, bytes_per_fuel: u32) -> Machine {
        let costs = CustomFuelCosts {
            bytes_copied_per_fuel: bytes_per_fuel,
            fuel_per_bytes_translated: 0,
            fuel_per_bytes_validated: 0,
        };
        Machine {
            memories: Vec::new(),
            tables: Vec::new(),
            segments: Vec::new(),
            bytes_taken: 0,
            cells_taken: 0,
            items_taken: 0,
            references: References::default(),
            fuel: Fuel::new(metering, FuelCostsProvider::custom(costs)),
            script: Script::default(),
            ground: Ground::new(),
        }
    }

    /// The fuel left, 0 if metering is off.
    pub fn fuel_left(&self) -> u64 {
        self.fuel.get_fuel().unwrap_or(0)
    }

    pub fn memory_views(&self) -> impl Iterator<Item = MemoryView> {
        let view = |it: &MemoryPlace| MemoryView { pages: it.live().size(), room: it.room, ty: it.memory.ty() };
        self.memories.iter().map(view)
    }

    pub fn table_views(&self) -> impl Iterator<Item = TableView> {
        self.tables.iter().map(|it| TableView { size: it.table.size(), room: it.room, ty: it.table.ty() })
    }

    pub fn segment_views(&self) -> impl Iterator<Item = SegmentView> {
        self.segments.iter().map(|it| SegmentView { size: u64::from(it.size()), kind: it.ty() })
    }

    /// The cells of every memory and table as lines: a head with number and size, then 32 bytes a line or a reference a line.
    pub fn cell_lines(&self) -> String {
        let mut text = String::new();
        for (number, place) in self.memories.iter().enumerate() {
            let bytes = place.live().data();
            text += &format!("memory {number:x} {:016x}\n", bytes.len());
            for line in bytes.chunks(32) {
                line.iter().for_each(|byte| text += &format!("{byte:02x}"));
                text += "\n";
            }
        }
        for (number, place) in self.tables.iter().enumerate() {
            let size = place.table.size();
            text += &format!("table {number:x} {size:016x}\n");
            for cell in (0..size).map(|index| place.table.get(index).expect("below the size")) {
                text += &format!("{:016x}\n", self.references.bits(cell.raw()));
            }
        }
        text
    }

    pub fn bytes_free(&self) -> u64 {
        BYTES - self.bytes_taken
    }

    pub fn cells_free(&self) -> u64 {
        CELLS - self.cells_taken
    }

    /// One operation: its fields' ranges (18) here, the rest in the function of its code.
    fn operate(&mut self, code: u8, fields: &[u64]) -> Outcome {
        match (code, fields) {
            (0x01, &[fuel]) => self.fuel.set_fuel(fuel).map(|_| 0).map_err(fuel_refusal),
            (0x02, &[]) => self.fuel.get_fuel().map_err(fuel_refusal),
            (0x03, &[units]) => self.fuel.consume_fuel(|_| units).map_err(fuel_refusal),
            (0x04, &[count, digits]) => self.new_script(script_of(count, digits)?),
            (0x10, &[room, wide, bounded, minimum, maximum, exponent]) => {
                self.new_memory(room, MemoryFields::read(wide, bounded, minimum, maximum, exponent)?)
            }
            (0x11, &[memory, pages]) => self.grow_memory(memory, pages),
            (0x12, &[memory]) => Ok(self.memory(memory)?.live().size()),
            (0x13, &[memory, load, pointer, offset]) if load <= 13 => self.load(memory, load, pointer, offset),
            (0x14, &[memory, store, pointer, offset, bits]) if store <= 8 => {
                if stores_half(store) {
                    half(bits)?;
                }
                self.store(memory, store, pointer, offset, bits)
            }
            (0x20, &[room, of, wide, bounded, minimum, maximum, initial, bits]) => {
                let fields =
                    TableFields { kind: kind(of)?, wide: yes_no(wide)?, minimum, maximum: limit(bounded, maximum)? };
                self.new_table(room, fields, kind(initial)?, bits)
            }
            (0x21, &[table, cells, of, bits]) => self.grow_table(table, cells, kind(of)?, bits),
            (0x22, &[table]) => Ok(self.table(table)?.table.size()),
            (0x23, &[table, index]) => self.get(table, index),
            (0x24, &[table, index, of, bits]) => self.set(table, index, kind(of)?, bits),
            (0x25, &[table, start, of, bits, length]) => self.fill(table, start, kind(of)?, bits, length),
            (0x26, &[to_table, to, from_table, from, length]) => self.copy(to_table, to, from_table, from, length),
            (0x27, &[table, segment, to, from, length]) => self.init(table, segment, to, half(from)?, half(length)?),
            (0x28, &[segment]) => self.drop_segment(segment),
            (0x29, &[of, count, ref items @ ..]) if count <= 4 && count == items.len() as u64 => {
                self.new_segment(kind(of)?, items)
            }
            (0x30, &[memory, wide, bounded, minimum, maximum, exponent]) => {
                self.links(memory, MemoryFields::read(wide, bounded, minimum, maximum, exponent)?)
            }
            _ => Err(MALFORMED),
        }
    }

    fn new_script(&mut self, answers: Vec<u8>) -> Outcome {
        self.script = Script::new(answers);
        Ok(0)
    }

    fn memory(&mut self, number: u64) -> Result<&mut MemoryPlace, Refusal> {
        let place = usize::try_from(number).map_err(|_| UNKNOWN)?;
        self.memories.get_mut(place).ok_or(UNKNOWN)
    }

    fn table(&mut self, number: u64) -> Result<&mut TablePlace, Refusal> {
        let place = usize::try_from(number).map_err(|_| UNKNOWN)?;
        self.tables.get_mut(place).ok_or(UNKNOWN)
    }

    // ---- memories

    fn new_memory(&mut self, room: u64, fields: MemoryFields) -> Outcome {
        if self.memories.len() == INSTANCES || room > self.bytes_free() {
            return Err(NO_PLACE);
        }
        let ty = fields.build()?;
        let place = self.ground.room(self.bytes_taken, room);
        let memory = Memory::new_static(ty, &mut limiter(&mut self.script), place)
            .map_err(|error| memory_refusal(error, Call::Creation, self.script.last))?;
        let twin = self.twin(fields, room);
        self.bytes_taken += room;
        self.memories.push(MemoryPlace { memory, room, twin });
        Ok(self.memories.len() as u64 - 1)
    }

    fn twin(&self, fields: MemoryFields, room: u64) -> Option<Memory> {
        if fields.exponent != 16 || fields.maximum != Some(PANICKING_MAXIMUM) {
            return None;
        }
        let ty = MemoryFields { maximum: None, ..fields }.build().ok()?;
        Memory::new_static(ty, &mut ResourceLimiterRef::default(), self.ground.room(self.bytes_taken, room)).ok()
    }

    fn grow_memory(&mut self, memory: u64, pages: u64) -> Outcome {
        self.memory(memory)?;
        let place = &mut self.memories[memory as usize];
        let panics = place.twin.is_some()
            && caught(|| place.memory.grow(pages, None, &mut ResourceLimiterRef::default())).is_none();
        let grown = place
            .live_mut()
            .grow(pages, Some(&mut self.fuel), &mut limiter(&mut self.script))
            .map_err(|error| memory_refusal(error, Call::Growth, self.script.last));
        if panics { Err(Refusal::NotCompared) } else { grown }
    }

    fn load(&mut self, memory: u64, kind: u64, pointer: u64, offset: u64) -> Outcome {
        load(self.memory(memory)?.live().data(), kind, pointer, offset).map_err(|_| OUTSIDE)
    }

    fn store(&mut self, memory: u64, kind: u64, pointer: u64, offset: u64, bits: u64) -> Outcome {
        let bytes = self.memory(memory)?.live_mut().data_mut();
        store(bytes, kind, pointer, offset, bits).map(|_| 0).map_err(|_| OUTSIDE)
    }

    fn links(&mut self, memory: u64, wanted: MemoryFields) -> Outcome {
        let declared = self.memory(memory)?.memory.ty();
        Ok(u64::from(declared.is_subtype_of(&wanted.build()?)))
    }

    // ---- tables

    fn new_table(&mut self, room: u64, fields: TableFields, initial: RefType, bits: u64) -> Outcome {
        if self.tables.len() == INSTANCES || room > self.cells_free() {
            return Err(NO_PLACE);
        }
        let ty = fields.build()?;
        let reference = self.references.typed(initial, bits);
        // an empty vector has no spare place, so the crate must ask for memory here
        let table = allocating(ty.minimum() > room, || Table::new(ty, reference, &mut limiter(&mut self.script)))
            .map_err(|error| table_refusal(error, Call::Creation, self.script.last))?;
        self.cells_taken += room;
        self.tables.push(TablePlace { table, room });
        Ok(self.tables.len() as u64 - 1)
    }

    fn grow_table(&mut self, table: u64, cells: u64, of: RefType, bits: u64) -> Outcome {
        self.table(table)?;
        let reference = self.references.typed(of, bits);
        let place = &mut self.tables[table as usize];
        let size = place.table.size();
        let beyond = size.saturating_add(cells) > place.room;
        let grown = allocating(beyond, || {
            place.table.grow(cells, reference, Some(&mut self.fuel), &mut limiter(&mut self.script))
        });
        let grown = match grown {
            // spare places of the crate's vector hid the room's end: cut the table back and say so, as the crate would
            Ok(_) if beyond => {
                place.table = cut_back(&place.table, size);
                Err(self.script.notice().err().map_or(TableError::OutOfSystemMemory, TableError::from))
            }
            other => other,
        };
        grown.map_err(|error| table_refusal(error, Call::Growth, self.script.last))
    }

    fn get(&mut self, table: u64, index: u64) -> Outcome {
        let cell = self.table(table)?.table.get(index).ok_or(OUTSIDE)?;
        Ok(self.references.bits(cell.raw()))
    }

    fn set(&mut self, table: u64, index: u64, of: RefType, bits: u64) -> Outcome {
        let reference = self.references.typed(of, bits);
        self.table(table)?.table.set(index, reference).map(|_| 0).map_err(cells_refusal)
    }

    fn fill(&mut self, table: u64, start: u64, of: RefType, bits: u64, length: u64) -> Outcome {
        self.table(table)?;
        let reference = self.references.typed(of, bits);
        let table = &mut self.tables[table as usize].table;
        table.fill(start, reference, length, Some(&mut self.fuel)).map(|_| 0).map_err(cells_refusal)
    }

    fn copy(&mut self, to_table: u64, to: u64, from_table: u64, from: u64, length: u64) -> Outcome {
        self.table(to_table)?;
        self.table(from_table)?;
        let fuel = Some(&mut self.fuel);
        let copied = match self.tables.get_disjoint_mut([to_table as usize, from_table as usize]) {
            Ok([target, source]) => Table::copy(&mut target.table, to, &source.table, from, length, fuel),
            Err(_) => self.tables[to_table as usize].table.copy_within(to, from, length, fuel),
        };
        copied.map(|_| 0).map_err(cells_refusal)
    }

    fn init(&mut self, table: u64, segment: u64, to: u64, from: u32, length: u32) -> Outcome {
        self.table(table)?;
        let place = usize::try_from(segment).map_err(|_| UNKNOWN)?;
        let segment = self.segments.get(place).ok_or(UNKNOWN)?.as_ref();
        let table = &mut self.tables[table as usize].table;
        table.init(segment, to, from, length, Some(&mut self.fuel)).map(|_| 0).map_err(cells_refusal)
    }

    fn drop_segment(&mut self, segment: u64) -> Outcome {
        let place = usize::try_from(segment).map_err(|_| UNKNOWN)?;
        self.segments.get_mut(place).ok_or(UNKNOWN)?.drop_items();
        Ok(0)
    }

    fn new_segment(&mut self, of: RefType, items: &[u64]) -> Outcome {
        let count = items.len() as u64;
        if self.segments.len() == INSTANCES || count > ITEMS - self.items_taken {
            return Err(NO_PLACE);
        }
        let segment = ElementSegment::new(of, items.iter().map(|&bits| self.references.raw(bits)));
        self.items_taken += count;
        self.segments.push(segment);
        Ok(self.segments.len() as u64 - 1)
    }
}

/// The first `size` cells of a table, in a table of the same type.
fn cut_back(table: &Table, size: u64) -> Table {
    let null = TypedRawRef::null(table.ty().element());
    let free = &mut ResourceLimiterRef::default();
    let mut cut = Table::new(table.ty(), null, free).expect("as at its creation");
    cut.grow(size - cut.size(), null, None, free).expect("as it was");
    Table::copy(&mut cut, 0, table, 0, size, None).expect("both have these cells");
    cut
}

// ---------------------------------------------------------------- lines

/// The most fields that an operation has.
const FIELDS: usize = 8;

fn hex(digits: &[u8]) -> Option<u64> {
    digits.iter().try_fold(0, |value, digit| match digit {
        b'0'..=b'9' => Some(value << 4 | u64::from(digit - b'0')),
        b'a'..=b'f' => Some(value << 4 | u64::from(digit - b'a' + 10)),
        _ => None,
    })
}

/// The code of a line, its fields and how many they are.
fn fields_of(line: &[u8]) -> Option<(u8, [u64; FIELDS], usize)> {
    if line.len() > LONGEST_LINE {
        return None;
    }
    let (code, mut rest) = line.split_at_checked(2)?;
    let code = hex(code)? as u8;
    let (mut fields, mut count) = ([0; FIELDS], 0);
    while !rest.is_empty() {
        let (field, more) = rest.split_at_checked(17)?;
        let digits = field.strip_prefix(b" ")?;
        *fields.get_mut(count)? = hex(digits)?;
        count += 1;
        rest = more;
    }
    Some((code, fields, count))
}

/// A session: a machine, and whether the next line is the first.
pub struct Session {
    pub machine: Machine,
    first: bool,
}

impl Session {
    pub fn new() -> Session {
        Session { machine: Machine::new(true, DEFAULT_COST), first: true }
    }

    /// The answer to one line, which stands here without its LF.
    pub fn answer(&mut self, line: &[u8]) -> Outcome {
        let first = std::mem::replace(&mut self.first, false);
        let (code, fields, count) = fields_of(line).ok_or(MALFORMED)?;
        match (code, &fields[..count]) {
            (0x00, &[metering, cost]) if first => {
                self.machine = Machine::new(yes_no(metering)?, half(cost)?);
                Ok(0)
            }
            (code, fields) => self.machine.operate(code, fields),
        }
    }

    /// The answer to one line as text.
    pub fn answer_line(&mut self, line: &[u8]) -> String {
        let (number, shown) = match self.answer(line) {
            Ok(value) => (0, value),
            Err(Refusal::Given(number, amount)) => (number, amount),
            Err(Refusal::NotCompared) => return "-- not compared\n".to_string(),
        };
        format!("{number:02x} {shown:016x} {:016x}\n", self.machine.fuel_left())
    }
}
