use twizzler_abi::object::ObjID;

pub struct SecCtxMgr;

impl SecCtxMgr {
    pub fn new_kernel() -> Self {
        Self
    }

    pub fn active_id(&self) -> ObjID {
        0.into()
    }
}
