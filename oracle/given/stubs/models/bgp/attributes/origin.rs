//! Stub: the ORIGIN codes of RFC 4271.

use num_enum::TryFromPrimitive;

#[allow(clippy::upper_case_acronyms)]
#[derive(Debug, TryFromPrimitive, Copy, Clone, PartialEq, Eq, Hash)]
#[repr(u8)]
pub enum Origin {
    IGP = 0,
    EGP = 1,
    INCOMPLETE = 2,
}
