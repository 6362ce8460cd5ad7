//! Stand-in: the raw value that references convert to; memory, table and fuel never call it.
#[derive(Debug, Copy, Clone, Default)]
pub struct RawVal(u64);
pub trait ReadAs<T> {
    fn read_as(&self) -> T;
}
pub trait WriteAs<T> {
    fn write_as(&mut self, value: T);
}
impl From<u32> for RawVal {
    fn from(value: u32) -> Self {
        Self(u64::from(value))
    }
}
impl From<RawVal> for u32 {
    fn from(value: RawVal) -> Self {
        value.0 as u32
    }
}
impl ReadAs<u32> for RawVal {
    fn read_as(&self) -> u32 {
        self.0 as u32
    }
}
impl WriteAs<u32> for RawVal {
    fn write_as(&mut self, value: u32) {
        self.0 = u64::from(value);
    }
}
