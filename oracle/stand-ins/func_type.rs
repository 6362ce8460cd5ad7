//! Stand-in: names that memory, table and fuel never call.
#[derive(Debug)]
pub struct FuncType;
#[derive(Debug)]
pub struct FuncTypeError;
