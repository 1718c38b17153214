pub fn prep_smp() {}

pub mod context {
    use std::sync::Arc;

    use twizzler_abi::object::ObjID;

    pub struct Context;

    pub type ContextRef = Arc<Context>;

    pub trait UserContext {
        fn switch_to(&self, id: ObjID);
    }

    impl UserContext for Context {
        fn switch_to(&self, _id: ObjID) {}
    }
}
