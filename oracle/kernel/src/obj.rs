pub mod control {
    use twizzler_abi::object::ObjID;

    pub struct Object;

    impl Object {
        pub fn id(&self) -> ObjID {
            0.into()
        }

        pub fn wakeup_word(&self, _offset: usize, _count: usize) {}
    }

    pub struct ControlObjectCacher<T>(T);

    impl<T> ControlObjectCacher<T> {
        pub fn new(base: T) -> Self {
            Self(base)
        }

        pub fn base(&self) -> &T {
            &self.0
        }

        pub fn object(&self) -> Object {
            Object
        }
    }
}
