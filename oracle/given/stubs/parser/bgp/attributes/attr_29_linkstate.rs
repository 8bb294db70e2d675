//! Stub: this attribute is left out; it is refused, so the crate keeps it raw.

use crate::error::{EncodingError, ParserError};
use crate::models::*;
use bytes::{Bytes, BytesMut};

pub fn parse_link_state_attribute(_input: Bytes) -> Result<AttributeValue, ParserError> {
    Err(ParserError::Unsupported("this attribute is not given".to_string()))
}

pub fn encode_link_state_attribute(_value: &LinkStateAttribute, _output: &mut BytesMut) -> Result<(), EncodingError> {
    unreachable!("no such value is ever read")
}

pub fn parse_link_state_nlri(
    _input: Bytes,
    _afi: Afi,
    _safi: Safi,
    _next_hop: Option<NextHopAddress>,
    _reachable: bool,
) -> Result<Nlri, ParserError> {
    Err(ParserError::Unsupported("the link-state family is not given".to_string()))
}
