//! Stub: the two codes of a NOTIFICATION, kept as they are.

#[derive(Debug, Clone, Copy, PartialEq, Eq)]
pub struct BgpError {
    code: u8,
    subcode: u8,
}

impl BgpError {
    pub fn new(code: u8, subcode: u8) -> Self {
        BgpError { code, subcode }
    }

    pub fn get_codes(&self) -> (u8, u8) {
        (self.code, self.subcode)
    }
}
