//! Stand-in: names that memory, table and fuel never call.
#[derive(Debug)]
pub struct Global;
#[derive(Debug)]
pub struct GlobalError;
#[derive(Debug)]
pub struct GlobalType;
#[derive(Debug)]
pub struct Mutability;
