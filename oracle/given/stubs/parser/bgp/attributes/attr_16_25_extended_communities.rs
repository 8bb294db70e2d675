//! Stub: extended communities are left out; they are refused, so the crate keeps them raw.

use crate::error::ParserError;
use crate::models::*;
use bytes::Bytes;

fn left_out() -> Result<AttributeValue, ParserError> {
    Err(ParserError::Unsupported("this attribute is not given".to_string()))
}

pub fn parse_extended_community(_input: Bytes) -> Result<AttributeValue, ParserError> {
    left_out()
}

pub fn parse_ipv6_extended_community(_input: Bytes) -> Result<AttributeValue, ParserError> {
    left_out()
}

pub fn encode_extended_communities(_communities: &[ExtendedCommunity]) -> Bytes {
    unreachable!("no such value is ever read")
}

pub fn encode_ipv6_extended_communities(_communities: &[Ipv6AddrExtCommunity]) -> Bytes {
    unreachable!("no such value is ever read")
}
