//! Stub: large communities are left out; they are refused, so the crate keeps them raw.

use crate::error::ParserError;
use crate::models::*;
use bytes::Bytes;

pub fn parse_large_communities(_input: Bytes) -> Result<AttributeValue, ParserError> {
    Err(ParserError::Unsupported("this attribute is not given".to_string()))
}

pub fn encode_large_communities(_communities: &[LargeCommunity]) -> Bytes {
    unreachable!("no such value is ever read")
}
