//! Stub: this attribute is left out; it is refused, so the crate keeps it raw.

use crate::error::{EncodingError, ParserError};
use crate::models::*;
use bytes::{Bytes, BytesMut};

pub fn parse_sfp(_input: Bytes) -> Result<AttributeValue, ParserError> {
    Err(ParserError::Unsupported("this attribute is not given".to_string()))
}

pub fn encode_sfp(_value: &SfpAttribute, _output: &mut BytesMut) -> Result<(), EncodingError> {
    unreachable!("no such value is ever read")
}
