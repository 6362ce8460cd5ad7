//! What stands around the crate: caught panics, refused allocations, the scripted limiter, 64-bit references, the byte buffer.

use crate::BYTES;
use std::alloc::{GlobalAlloc, Layout, System};
use std::cell::Cell;
use std::collections::HashMap;
use std::panic::{self, AssertUnwindSafe};
use std::ptr;
use wasmi_core::{
    LimiterError, MemoryError, RawRef, RefType, ResourceLimiter, ResourceLimiterRef, TableError, TypedRawRef,
};

/// What stands in the byte buffer before anything is written: not 0, so that missing zeros show.
const OLD_BYTE: u8 = 0xa5;

// ---------------------------------------------------------------- panics and allocations

thread_local! {
    static QUIET: Cell<bool> = const { Cell::new(false) };
    static REFUSING: Cell<bool> = const { Cell::new(false) };
}

/// Keeps the panics that `caught` expects off standard error.
pub fn hush_expected_panics() {
    let loud = panic::take_hook();
    panic::set_hook(Box::new(move |info| {
        if !QUIET.get() {
            loud(info)
        }
    }));
}

/// What `f` gives, or nothing if the crate panics in it.
pub fn caught<T>(f: impl FnOnce() -> T) -> Option<T> {
    QUIET.set(true);
    let result = panic::catch_unwind(AssertUnwindSafe(f));
    QUIET.set(false);
    result.ok()
}

/// The system's allocator, which can be told to refuse: so a table's room ends at the crate's own place.
struct Refusable;

unsafe impl GlobalAlloc for Refusable {
    unsafe fn alloc(&self, layout: Layout) -> *mut u8 {
        if REFUSING.get() { ptr::null_mut() } else { unsafe { System.alloc(layout) } }
    }
    unsafe fn dealloc(&self, place: *mut u8, layout: Layout) {
        unsafe { System.dealloc(place, layout) }
    }
    unsafe fn realloc(&self, place: *mut u8, layout: Layout, size: usize) -> *mut u8 {
        if REFUSING.get() { ptr::null_mut() } else { unsafe { System.realloc(place, layout, size) } }
    }
}

#[global_allocator]
static ALLOCATOR: Refusable = Refusable;

/// Runs `f`; every allocation in it fails where `refuse` says so.
pub fn allocating<T>(refuse: bool, f: impl FnOnce() -> T) -> T {
    REFUSING.set(refuse);
    let result = f();
    REFUSING.set(false);
    result
}

// ---------------------------------------------------------------- limiter, references, bytes

/// The limiter: answers from a script, 0 past its end.
#[derive(Default)]
pub struct Script {
    answers: Vec<u8>,
    place: usize,
    pub last: u8,
}

impl Script {
    pub fn new(answers: Vec<u8>) -> Script {
        Script { answers, ..Script::default() }
    }

    fn next(&mut self) -> u8 {
        self.last = self.answers.get(self.place).copied().unwrap_or(0);
        self.place = self.answers.len().min(self.place + 1);
        self.last
    }

    fn question(&mut self) -> Result<bool, LimiterError> {
        match self.next() {
            2 => Err(LimiterError::ResourceLimiterDeniedAllocation),
            answer => Ok(answer == 0),
        }
    }

    pub fn notice(&mut self) -> Result<(), LimiterError> {
        self.question().map(|_| ())
    }
}

impl ResourceLimiter for Script {
    fn memory_growing(&mut self, _: usize, _: usize, _: Option<usize>) -> Result<bool, LimiterError> {
        self.question()
    }
    fn table_growing(&mut self, _: usize, _: usize, _: Option<usize>) -> Result<bool, LimiterError> {
        self.question()
    }
    fn memory_grow_failed(&mut self, _: &MemoryError) -> Result<(), LimiterError> {
        self.notice()
    }
    fn table_grow_failed(&mut self, _: &TableError) -> Result<(), LimiterError> {
        self.notice()
    }
    fn instances(&self) -> usize {
        usize::MAX
    }
    fn tables(&self) -> usize {
        usize::MAX
    }
    fn memories(&self) -> usize {
        usize::MAX
    }
}

pub fn limiter(script: &mut Script) -> ResourceLimiterRef<'_> {
    ResourceLimiterRef::from(script as &mut dyn ResourceLimiter)
}

/// The crate's references have 32 bits: below 2^31 they are the bits themselves, from there on a number of this list.
#[derive(Default)]
pub struct References {
    bits: Vec<u64>,
    number: HashMap<u64, u32>,
}

const NUMBERED: u32 = 1 << 31;

impl References {
    pub fn raw(&mut self, bits: u64) -> RawRef {
        if bits < u64::from(NUMBERED) {
            return RawRef::from(bits as u32);
        }
        let known = &mut self.bits;
        let number = *self.number.entry(bits).or_insert_with(|| {
            known.push(bits);
            NUMBERED + known.len() as u32 - 1
        });
        RawRef::from(number)
    }

    pub fn typed(&mut self, kind: RefType, bits: u64) -> TypedRawRef {
        TypedRawRef::new(self.raw(bits), kind)
    }

    pub fn bits(&self, raw: RawRef) -> u64 {
        match u32::from(raw) {
            bits if bits < NUMBERED => u64::from(bits),
            number => self.bits[(number - NUMBERED) as usize],
        }
    }
}

/// The byte buffer; it outlives the memories, whose rooms the crate wants to be static.
pub struct Ground(*mut [u8]);

impl Ground {
    pub fn new() -> Ground {
        Ground(Box::into_raw(vec![OLD_BYTE; BYTES as usize].into_boxed_slice()))
    }

    /// The room of `length` bytes from `start` on, which lies inside the buffer and outside every other room.
    pub fn room(&self, start: u64, length: u64) -> &'static mut [u8] {
        assert!(start + length <= BYTES);
        unsafe { std::slice::from_raw_parts_mut((self.0 as *mut u8).add(start as usize), length as usize) }
    }
}

impl Drop for Ground {
    fn drop(&mut self) {
        drop(unsafe { Box::from_raw(self.0) });
    }
}
