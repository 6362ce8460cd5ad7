//! Stand-in: names that memory, table and fuel never call.
use core::{any::Any, fmt::{Debug, Display}};
pub trait HostError: 'static + Display + Debug + Any + Send + Sync {}
impl dyn HostError {
    pub fn is<T: HostError>(&self) -> bool {
        false
    }
    pub fn downcast_ref<T: HostError>(&self) -> Option<&T> {
        None
    }
    pub fn downcast_mut<T: HostError>(&mut self) -> Option<&mut T> {
        None
    }
    pub fn downcast<T: HostError>(self: alloc::boxed::Box<Self>) -> Result<alloc::boxed::Box<T>, alloc::boxed::Box<Self>> {
        Err(self)
    }
}
