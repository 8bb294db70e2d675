//! Stub: ONLY_TO_CUSTOMER is left out; it is refused, so the crate keeps it raw.

use crate::error::{EncodingError, ParserError};
use crate::models::*;
use crate::oracle::private::{Inside, PrivateCalls};
use crate::parser::bgp::attributes::{attr_02_17_as_path, attr_03_next_hop, attr_07_18_aggregator, attr_14_15_nlri};
use bytes::{Bytes, BytesMut};
use std::net::IpAddr;

pub fn parse_only_to_customer(_input: Bytes) -> Result<AttributeValue, ParserError> {
    Err(ParserError::Unsupported("this attribute is not given".to_string()))
}

pub fn encode_only_to_customer(_asn: u32) -> Bytes {
    unreachable!("no such value is ever read")
}

impl PrivateCalls for Inside {
    fn parse_as_path(value: Bytes, width: &AsnLength) -> Result<AsPath, ParserError> {
        attr_02_17_as_path::parse_as_path(value, width)
    }

    fn parse_aggregator(value: Bytes, width: &AsnLength) -> Result<(Asn, BgpIdentifier), ParserError> {
        attr_07_18_aggregator::parse_aggregator(value, width)
    }

    fn encode_aggregator(asn: &Asn, address: &IpAddr, width: AsnLength) -> Result<Bytes, EncodingError> {
        attr_07_18_aggregator::encode_aggregator(asn, address, width)
    }

    fn encode_as_path(path: &AsPath, width: AsnLength, output: &mut BytesMut) -> Result<(), EncodingError> {
        attr_02_17_as_path::encode_as_path(path, width, output)
    }

    fn parse_mp_next_hop(value: Bytes) -> Result<Option<NextHopAddress>, ParserError> {
        attr_03_next_hop::parse_mp_next_hop(value)
    }

    fn encode_nlri(nlri: &Nlri, reachable: bool, add_path: bool, output: &mut BytesMut) -> Result<(), EncodingError> {
        attr_14_15_nlri::encode_nlri(nlri, reachable, add_path, output)
    }
}
