//! Stand-in: the hints only steer the optimizer.
#[inline]
pub fn likely(b: bool) -> bool {
    b
}
#[inline]
pub fn unlikely(b: bool) -> bool {
    b
}
#[inline]
pub fn cold() {}
