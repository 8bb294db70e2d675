//! Stub: families, next hops and labelled prefixes as far as the given files name them. The numbers of the
//! families are IANA's.

mod asn;
mod prefix;

pub use asn::*;
pub use prefix::*;

use crate::error::ParserError;
use bytes::Bytes;
use ipnet::IpNet;
use num_enum::TryFromPrimitive;
use std::net::{IpAddr, Ipv4Addr, Ipv6Addr};

#[derive(Debug, TryFromPrimitive, Copy, Clone, PartialEq, Eq, Hash)]
#[repr(u16)]
pub enum Afi {
    Ipv4 = 1,
    Ipv6 = 2,
    LinkState = 16388,
}

#[derive(Debug, TryFromPrimitive, Copy, Clone, PartialEq, Eq, Hash)]
#[repr(u8)]
pub enum Safi {
    Unicast = 1,
    Multicast = 2,
    MplsLabel = 4,
    LinkState = 71,
    LinkStateVpn = 72,
    MplsVpn = 128,
    FlowSpec = 133,
    FlowSpecL3Vpn = 134,
}

#[derive(Debug, Copy, Clone, PartialEq, Eq)]
pub struct RouteDistinguisher(pub [u8; 8]);

#[derive(Debug, Copy, Clone, PartialEq, Eq)]
pub enum NextHopAddress {
    Ipv4(Ipv4Addr),
    Ipv6(Ipv6Addr),
    Ipv6LinkLocal(Ipv6Addr, Ipv6Addr),
    VpnIpv6(RouteDistinguisher, Ipv6Addr),
    VpnIpv6LinkLocal(RouteDistinguisher, Ipv6Addr, RouteDistinguisher, Ipv6Addr),
}

impl NextHopAddress {
    pub const fn global_addr(&self) -> IpAddr {
        match self {
            NextHopAddress::Ipv4(address) => IpAddr::V4(*address),
            NextHopAddress::Ipv6(address)
            | NextHopAddress::Ipv6LinkLocal(address, _)
            | NextHopAddress::VpnIpv6(_, address)
            | NextHopAddress::VpnIpv6LinkLocal(_, address, _, _) => IpAddr::V6(*address),
        }
    }
}

impl From<IpAddr> for NextHopAddress {
    fn from(address: IpAddr) -> Self {
        match address {
            IpAddr::V4(address) => NextHopAddress::Ipv4(address),
            IpAddr::V6(address) => NextHopAddress::Ipv6(address),
        }
    }
}

/// Labelled prefixes are left out: reading them is refused, so the crate keeps their attribute raw.
#[derive(Debug, Clone, PartialEq, Eq)]
pub struct LabeledNetworkPrefix {
    pub prefix: IpNet,
    pub labels: Vec<u32>,
    pub path_id: Option<u32>,
}

#[derive(Debug, Clone, Copy, PartialEq, Eq)]
pub enum LabeledNlriMode {
    SingleLabel,
    MultiLabel,
}

pub struct LabeledNlriConfig {
    pub add_path: bool,
    pub mode: LabeledNlriMode,
    pub max_labels: usize,
    pub peer_max_labels: Option<usize>,
}

fn labels_left_out() -> ParserError {
    ParserError::Unsupported("labelled prefixes are not given".to_string())
}

pub fn parse_labeled_nlri(
    _input: &mut Bytes,
    _afi: Afi,
    _config: &LabeledNlriConfig,
) -> Result<Vec<LabeledNetworkPrefix>, ParserError> {
    Err(labels_left_out())
}

pub fn parse_labeled_withdrawal_nlri(
    _input: &mut Bytes,
    _afi: Afi,
    _config: &LabeledNlriConfig,
) -> Result<Vec<NetworkPrefix>, ParserError> {
    Err(labels_left_out())
}

pub fn encode_labeled_prefix(
    _prefix: &LabeledNetworkPrefix,
    _mode: LabeledNlriMode,
    _add_path: bool,
    _peer_max_labels: Option<usize>,
) -> Result<Vec<u8>, ParserError> {
    Err(labels_left_out())
}
