use super::{Thread, ThreadRef};

/// Questions of suspension get the answer no.
impl Thread {
    pub fn must_suspend(&self) -> bool {
        false
    }

    pub fn maybe_suspend_self(&self) {}

    pub fn suspend(self: &ThreadRef) {}
}
