#[derive(Clone, Copy)]
pub enum Destination {
    Bsp,
    Single(u32),
    LowestPriority,
    AllButSelf,
    All,
}

#[inline]
pub fn disable() -> bool {
    false
}

#[inline]
pub fn set(_state: bool) {}

#[inline]
pub fn with_disabled<T, F: FnOnce() -> T>(f: F) -> T {
    f()
}
