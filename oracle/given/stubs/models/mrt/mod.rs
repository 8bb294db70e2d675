//! Stub: the MRT types that error.rs and parser/mod.rs name. Not compared.

use num_enum::TryFromPrimitive;

#[derive(Debug, TryFromPrimitive, Copy, Clone, PartialEq, Eq)]
#[repr(u16)]
pub enum Bgp4MpType {
    StateChange = 0,
}

#[derive(Debug, TryFromPrimitive, Copy, Clone, PartialEq, Eq)]
#[repr(u16)]
pub enum BgpState {
    Idle = 1,
}

#[derive(Debug, TryFromPrimitive, Copy, Clone, PartialEq, Eq)]
#[repr(u16)]
pub enum EntryType {
    TableDump = 12,
}

#[derive(Debug, TryFromPrimitive, Copy, Clone, PartialEq, Eq)]
#[repr(u16)]
pub enum TableDumpV2Type {
    PeerIndexTable = 1,
}

#[derive(Debug)]
pub struct MrtRecord;
