pub mod sync {
    use crate::thread::ThreadRef;

    pub fn requeue_all() {}

    pub fn remove_from_requeue(_thread: &ThreadRef) {}
}
