//! Stand-in: names that memory, table and fuel never call.
#[derive(Debug, Copy, Clone)]
pub struct F32(pub u32);
#[derive(Debug, Copy, Clone)]
pub struct F64(pub u64);
