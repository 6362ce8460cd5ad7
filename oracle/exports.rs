//! Compares every exported load, store and price with the crate's own functions, buffers byte for byte. Built and run by
//! `oracle/exports`.

mod face;

use face::*;
use machine::{load, store};
use std::fmt::Write;
use std::process::ExitCode;
use wasmi_core::{CustomFuelCosts, FuelCostsProvider};

/// In the order of the operation lines' kinds, by which the crate's functions are chosen too.
const LOADS: [(&str, Load); 14] = [
    ("ysh_load_i32", ysh_load_i32),
    ("ysh_load_i64", ysh_load_i64),
    ("ysh_load_f32", ysh_load_f32),
    ("ysh_load_f64", ysh_load_f64),
    ("ysh_load_i32_8s", ysh_load_i32_8s),
    ("ysh_load_i32_8u", ysh_load_i32_8u),
    ("ysh_load_i32_16s", ysh_load_i32_16s),
    ("ysh_load_i32_16u", ysh_load_i32_16u),
    ("ysh_load_i64_8s", ysh_load_i64_8s),
    ("ysh_load_i64_8u", ysh_load_i64_8u),
    ("ysh_load_i64_16s", ysh_load_i64_16s),
    ("ysh_load_i64_16u", ysh_load_i64_16u),
    ("ysh_load_i64_32s", ysh_load_i64_32s),
    ("ysh_load_i64_32u", ysh_load_i64_32u),
];

enum Store {
    Half(StoreHalf),
    Whole(StoreWhole),
}

use Store::*;

const STORES: [(&str, Store); 9] = [
    ("ysh_store_i32", Half(ysh_store_i32)),
    ("ysh_store_i64", Whole(ysh_store_i64)),
    ("ysh_store_f32", Half(ysh_store_f32)),
    ("ysh_store_f64", Whole(ysh_store_f64)),
    ("ysh_store_i32_8", Half(ysh_store_i32_8)),
    ("ysh_store_i32_16", Half(ysh_store_i32_16)),
    ("ysh_store_i64_8", Whole(ysh_store_i64_8)),
    ("ysh_store_i64_16", Whole(ysh_store_i64_16)),
    ("ysh_store_i64_32", Whole(ysh_store_i64_32)),
];

const OUTSIDE: u8 = 9;
const LARGEST: usize = 40;
/// Bytes behind the size that no store may touch.
const BEHIND: usize = 16;
const OLD: u64 = 0x5a5a_5a5a_5a5a_5a5a;

/// Signs, halves, infinities and NaNs with payloads, of 32 and of 64 bits.
const VALUES: [u64; 24] = [
    0,
    1,
    0x7f,
    0x80,
    0xff,
    0x7fff,
    0x8000,
    0xffff,
    0x7fff_ffff,
    0x8000_0000,
    0xffff_ffff,
    0x7f80_0000,
    0x7f80_0001,
    0x7fbf_ffff,
    0x7fc0_0000,
    0xffc1_2345,
    0x0123_4567_89ab_cdef,
    0x7ff0_0000_0000_0000,
    0x7ff0_0000_0000_0001,
    0x7ff7_ffff_ffff_ffff,
    0x7ff8_0000_0000_0000,
    0xfff8_1234_5678_9abc,
    0x8000_0000_0000_0000,
    u64::MAX,
];

/// Bytes to load from: all alike, signs in turn, NaNs of both widths at every fourth and eighth place, all different.
fn patterns() -> Vec<Vec<u8>> {
    let all = |f: &dyn Fn(usize) -> u8| (0..LARGEST).map(f).collect::<Vec<u8>>();
    let repeated = |bits: &[u8]| all(&|i| bits[i % bits.len()]);
    vec![
        all(&|_| 0),
        all(&|_| 0xff),
        all(&|_| 0x80),
        all(&|_| 0x7f),
        repeated(&[0x80, 0x7f]),
        repeated(&0x7f80_0001_u32.to_le_bytes()),
        repeated(&0xffc1_2345_u32.to_le_bytes()),
        repeated(&0x7ff0_0000_0000_0001_u64.to_le_bytes()),
        repeated(&0xfff8_1234_5678_9abc_u64.to_le_bytes()),
        all(&|i| (i * 37 + 101) as u8),
    ]
}

/// Around 2^32, 2^63 and 2^64, the last as far as a sum with a near number needs to come round to the size.
fn far(size: u64) -> Vec<u64> {
    let around = |middle: u64| middle - 9..=middle + 9;
    around(1 << 32).chain(around(1 << 63)).chain(u64::MAX - size - 9..=u64::MAX).collect()
}

/// All pointers and offsets that are tried at a size.
fn spots(size: u64) -> Vec<(u64, u64)> {
    let near: Vec<u64> = (0..size + 10).collect();
    let all: Vec<u64> = near.iter().copied().chain(far(size)).collect();
    all.iter().flat_map(|&pointer| all.iter().map(move |&offset| (pointer, offset))).collect()
}

#[derive(Default)]
struct Tally {
    loads: u64,
    stores: u64,
    refused: u64,
    prices: u64,
}

/// Where a call was made, for a difference.
fn call(name: &str, size: usize, (pointer, offset): (u64, u64)) -> String {
    format!("{name}, size {size}, pointer {pointer:x}, offset {offset:x}")
}

/// One load of both sides; answers the number.
fn compare_load(kind: usize, bytes: &[u8], spot: (u64, u64)) -> Result<u8, String> {
    let (name, ours) = LOADS[kind];
    let mut out = OLD;
    let number = unsafe { ours(bytes.as_ptr(), bytes.len(), spot.0, spot.1, &mut out) };
    let theirs = load(bytes, kind as u64, spot.0, spot.1);
    let (wanted, value) = theirs.map_or((OUTSIDE, OLD), |value| (0, value));
    if (number, out) == (wanted, value) {
        return Ok(number);
    }
    let call = call(name, bytes.len(), spot);
    Err(format!("{call}, bytes {}: {number} {out:x}, the crate {wanted} {value:x}", hex(bytes)))
}

fn compare_loads(tally: &mut Tally) -> Result<(), String> {
    let patterns = patterns();
    for size in 0..=LARGEST {
        for spot in spots(size as u64) {
            for bytes in &patterns {
                for kind in 0..LOADS.len() {
                    tally.refused += u64::from(compare_load(kind, &bytes[..size], spot)? == OUTSIDE);
                    tally.loads += 1;
                }
            }
        }
    }
    Ok(())
}

/// One store of both sides; answers the number.
fn compare_store(kind: usize, size: usize, spot: (u64, u64), value: u64) -> Result<u8, String> {
    let (name, ours) = &STORES[kind];
    let [mut our, mut their] = [[0xa5; LARGEST + BEHIND]; 2];
    let (place, bits) = (our.as_mut_ptr(), value & mask(ours));
    let number = match ours {
        Half(f) => unsafe { f(place, size, spot.0, spot.1, bits as u32) },
        Whole(f) => unsafe { f(place, size, spot.0, spot.1, bits) },
    };
    let wanted = store(&mut their[..size], kind as u64, spot.0, spot.1, bits).map_or(OUTSIDE, |_| 0);
    if number == wanted && our == their {
        return Ok(number);
    }
    let call = call(name, size, spot);
    Err(format!("{call}, bits {bits:x}: {number} {}, the crate {wanted} {}", hex(&our), hex(&their)))
}

fn compare_stores(tally: &mut Tally) -> Result<(), String> {
    for size in 0..=LARGEST {
        for spot in spots(size as u64) {
            for value in VALUES {
                for kind in 0..STORES.len() {
                    tally.refused += u64::from(compare_store(kind, size, spot, value)? == OUTSIDE);
                    tally.stores += 1;
                }
            }
        }
    }
    Ok(())
}

fn mask(store: &Store) -> u64 {
    match store {
        Half(_) => u64::from(u32::MAX),
        Whole(_) => u64::MAX,
    }
}

/// The crate's price takes a value's size from its type.
fn their_price(costs: &FuelCostsProvider, length: u64, size: u64) -> u64 {
    match size {
        0 => costs.fuel_for_copying_values::<[u8; 0]>(length),
        1 => costs.fuel_for_copying_values::<[u8; 1]>(length),
        3 => costs.fuel_for_copying_values::<[u8; 3]>(length),
        4 => costs.fuel_for_copying_values::<[u8; 4]>(length),
        8 => costs.fuel_for_copying_values::<[u8; 8]>(length),
        16 => costs.fuel_for_copying_values::<[u8; 16]>(length),
        _ => costs.fuel_for_copying_values::<[u8; 1 << 32]>(length),
    }
}

const SIZES: [u64; 7] = [0, 1, 3, 4, 8, 16, 1 << 32];

fn compare_prices(tally: &mut Tally) -> Result<(), String> {
    for per_unit in [0, 1, 2, 63, 64, 65, u32::MAX] {
        let costs = FuelCostsProvider::custom(CustomFuelCosts {
            bytes_copied_per_fuel: per_unit,
            fuel_per_bytes_translated: 0,
            fuel_per_bytes_validated: 0,
        });
        let powers = [32, 60, 61, 62, 63].map(|power| 1_u64 << power);
        let around = powers.into_iter().flat_map(|middle| middle - 130..=middle + 130);
        for length in (0..=1030).chain(around).chain(u64::MAX - 130..=u64::MAX) {
            let our = unsafe { ysh_price(length, per_unit) };
            let their = their_price(&costs, length, 1);
            if our != their {
                return Err(format!("ysh_price, {length:x} at {per_unit:x}: {our:x}, the crate {their:x}"));
            }
            tally.prices += 1;
            for size in SIZES {
                let our = unsafe { ysh_price_values(length, size, per_unit) };
                let their = their_price(&costs, length, size);
                if our != their {
                    return Err(format!(
                        "ysh_price_values, {length:x} of {size:x} at {per_unit:x}: {our:x}, the crate {their:x}"
                    ));
                }
                tally.prices += 1;
            }
        }
    }
    Ok(())
}

fn hex(bytes: &[u8]) -> String {
    bytes.iter().fold(String::new(), |mut text, byte| {
        let _ = write!(text, "{byte:02x}");
        text
    })
}

fn main() -> ExitCode {
    let mut tally = Tally::default();
    let result = [compare_loads, compare_stores, compare_prices].iter().try_for_each(|compare| compare(&mut tally));
    println!("{} loads and {} stores compared, {} of them refused", tally.loads, tally.stores, tally.refused);
    println!("{} prices compared", tally.prices);
    match result {
        Ok(()) => {
            println!("no difference");
            ExitCode::SUCCESS
        }
        Err(what) => {
            println!("first difference: {what}");
            ExitCode::FAILURE
        }
    }
}
