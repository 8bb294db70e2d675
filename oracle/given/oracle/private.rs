//! The crate's functions that only a neighbour of their module can call; the stub attr_35_otc.rs is one.

use crate::error::{EncodingError, ParserError};
use crate::models::{AsPath, Asn, AsnLength, BgpIdentifier, NextHopAddress, Nlri};
use bytes::{Bytes, BytesMut};
use std::net::IpAddr;

pub trait PrivateCalls {
    fn parse_as_path(value: Bytes, width: &AsnLength) -> Result<AsPath, ParserError>;
    fn parse_aggregator(value: Bytes, width: &AsnLength) -> Result<(Asn, BgpIdentifier), ParserError>;
    fn encode_aggregator(asn: &Asn, address: &IpAddr, width: AsnLength) -> Result<Bytes, EncodingError>;
    fn encode_as_path(path: &AsPath, width: AsnLength, output: &mut BytesMut) -> Result<(), EncodingError>;
    fn parse_mp_next_hop(value: Bytes) -> Result<Option<NextHopAddress>, ParserError>;
    fn encode_nlri(nlri: &Nlri, reachable: bool, add_path: bool, output: &mut BytesMut) -> Result<(), EncodingError>;
}

/// The crate, as its own modules see it.
pub struct Inside;
