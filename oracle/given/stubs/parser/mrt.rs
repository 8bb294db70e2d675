//! Stub: not compared.

pub mod mrt_elem {
    pub struct BgpUpdateElemIter;
    pub struct ElemError;
    pub struct Elementor;
    pub struct RecordElemIter;
}

pub mod mrt_record {
    use crate::error::ParserErrorWithBytes;
    use crate::models::MrtRecord;
    use std::io::Read;

    pub fn parse_mrt_record_with_zebra_compat(
        _reader: &mut impl Read,
    ) -> Result<(MrtRecord, bool), ParserErrorWithBytes> {
        Ok((MrtRecord, false))
    }
}
