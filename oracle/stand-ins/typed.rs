//! Stand-in: the typed raw value that references convert to; memory, table and fuel never call it.
use crate::{RawVal, ValType};
pub trait Typed {
    const TY: ValType;
}
#[derive(Debug, Copy, Clone)]
pub struct TypedRawVal {
    ty: ValType,
    raw: RawVal,
}
impl TypedRawVal {
    pub fn new(ty: ValType, raw: RawVal) -> Self {
        Self { ty, raw }
    }
    pub fn ty(&self) -> ValType {
        self.ty
    }
    pub fn raw(&self) -> RawVal {
        self.raw
    }
}
