#[derive(Clone, Copy)]
pub struct TlsInfo;
