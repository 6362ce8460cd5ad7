//! What include/yshankelt.h declares of loads, stores and prices, for the Rust that links the archive libyshankelt.a.

pub type Load = unsafe extern "C" fn(*const u8, usize, u64, u64, *mut u64) -> u8;
pub type StoreHalf = unsafe extern "C" fn(*mut u8, usize, u64, u64, u32) -> u8;
pub type StoreWhole = unsafe extern "C" fn(*mut u8, usize, u64, u64, u64) -> u8;

unsafe extern "C" {
    pub fn ysh_load_i32(bytes: *const u8, len: usize, ptr: u64, offset: u64, out: *mut u64) -> u8;
    pub fn ysh_load_i64(bytes: *const u8, len: usize, ptr: u64, offset: u64, out: *mut u64) -> u8;
    pub fn ysh_load_f32(bytes: *const u8, len: usize, ptr: u64, offset: u64, out: *mut u64) -> u8;
    pub fn ysh_load_f64(bytes: *const u8, len: usize, ptr: u64, offset: u64, out: *mut u64) -> u8;
    pub fn ysh_load_i32_8s(bytes: *const u8, len: usize, ptr: u64, offset: u64, out: *mut u64) -> u8;
    pub fn ysh_load_i32_8u(bytes: *const u8, len: usize, ptr: u64, offset: u64, out: *mut u64) -> u8;
    pub fn ysh_load_i32_16s(bytes: *const u8, len: usize, ptr: u64, offset: u64, out: *mut u64) -> u8;
    pub fn ysh_load_i32_16u(bytes: *const u8, len: usize, ptr: u64, offset: u64, out: *mut u64) -> u8;
    pub fn ysh_load_i64_8s(bytes: *const u8, len: usize, ptr: u64, offset: u64, out: *mut u64) -> u8;
    pub fn ysh_load_i64_8u(bytes: *const u8, len: usize, ptr: u64, offset: u64, out: *mut u64) -> u8;
    pub fn ysh_load_i64_16s(bytes: *const u8, len: usize, ptr: u64, offset: u64, out: *mut u64) -> u8;
    pub fn ysh_load_i64_16u(bytes: *const u8, len: usize, ptr: u64, offset: u64, out: *mut u64) -> u8;
    pub fn ysh_load_i64_32s(bytes: *const u8, len: usize, ptr: u64, offset: u64, out: *mut u64) -> u8;
    pub fn ysh_load_i64_32u(bytes: *const u8, len: usize, ptr: u64, offset: u64, out: *mut u64) -> u8;
    pub fn ysh_store_i32(bytes: *mut u8, len: usize, ptr: u64, offset: u64, bits: u32) -> u8;
    pub fn ysh_store_i64(bytes: *mut u8, len: usize, ptr: u64, offset: u64, bits: u64) -> u8;
    pub fn ysh_store_f32(bytes: *mut u8, len: usize, ptr: u64, offset: u64, bits: u32) -> u8;
    pub fn ysh_store_f64(bytes: *mut u8, len: usize, ptr: u64, offset: u64, bits: u64) -> u8;
    pub fn ysh_store_i32_8(bytes: *mut u8, len: usize, ptr: u64, offset: u64, bits: u32) -> u8;
    pub fn ysh_store_i32_16(bytes: *mut u8, len: usize, ptr: u64, offset: u64, bits: u32) -> u8;
    pub fn ysh_store_i64_8(bytes: *mut u8, len: usize, ptr: u64, offset: u64, bits: u64) -> u8;
    pub fn ysh_store_i64_16(bytes: *mut u8, len: usize, ptr: u64, offset: u64, bits: u64) -> u8;
    pub fn ysh_store_i64_32(bytes: *mut u8, len: usize, ptr: u64, offset: u64, bits: u64) -> u8;
    pub fn ysh_price(len: u64, per_unit: u32) -> u64;
    pub fn ysh_price_values(len: u64, size: u64, per_unit: u32) -> u64;
}
