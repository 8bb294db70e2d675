//! Stub: not compared.

pub fn parse_bmp_msg() {}
pub fn parse_openbmp_header() {}
pub fn parse_openbmp_msg() {}
