pub use std::sync::MutexGuard as LockGuard;

pub struct Mutex<T>(std::sync::Mutex<T>);

impl<T> Mutex<T> {
    pub const fn new(data: T) -> Self {
        Self(std::sync::Mutex::new(data))
    }

    pub fn lock(&self) -> LockGuard<'_, T> {
        self.0.lock().unwrap()
    }
}
