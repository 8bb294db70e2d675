//! MP_REACH_NLRI and MP_UNREACH_NLRI of IPv6 unicast: RFC 4760 sections 3 and 4, next hops by RFC 2545 section 3, and the request's order of
//! checks.

use crate::routes::{self, Family, ReadRow, Reading};
use crate::{Refusal, MOST_BYTES};

/// The address family of two bytes, and the subsequent one of one.
const IPV6_UNICAST: [u8; 3] = [0, 2, 1];

/// The bytes of a global address, and of one with a link-local address after it.
const NEXT_HOP_LENGTHS: [usize; 2] = [16, 32];

/// An announcement that was read.
pub struct Reach<'a> {
    pub next_hop: &'a [u8],
    pub reserved: u8,
    pub rows: Vec<ReadRow>,
}

/// What comes after the families, which are judged once all of them is there.
fn after_families(value: &[u8]) -> Result<&[u8], Refusal> {
    if value.len() > MOST_BYTES {
        return Err(1);
    }
    if value.len() < IPV6_UNICAST.len() {
        return Err(2);
    }
    value.strip_prefix(&IPV6_UNICAST).ok_or(17)
}

fn judge_next_hop(length: usize) -> Result<(), Refusal> {
    if NEXT_HOP_LENGTHS.contains(&length) {
        Ok(())
    } else {
        Err(18)
    }
}

/// The value of MP_REACH_NLRI.
pub fn read_reach(value: &[u8], reading: Reading) -> Result<Reach<'_>, Refusal> {
    let (length, rest) = after_families(value)?.split_first().ok_or(2u32)?;
    let length = usize::from(*length);
    judge_next_hop(length)?;
    let next_hop = rest.get(..length).ok_or(2u32)?;
    let reserved = *rest.get(length).ok_or(2u32)?;
    let rows = routes::list(&rest[length + 1..], reading, Family::Ipv6)?;
    Ok(Reach { next_hop, reserved, rows })
}

/// The value of MP_UNREACH_NLRI.
pub fn read_unreach(value: &[u8], reading: Reading) -> Result<Vec<ReadRow>, Refusal> {
    routes::list(after_families(value)?, reading, Family::Ipv6)
}

/// The bytes of MP_REACH_NLRI; how many they may be is for the caller.
pub fn write_reach(next_hop: &[u8], rows: &[u32], with_id: bool) -> Result<Vec<u8>, Refusal> {
    judge_next_hop(next_hop.len())?;
    let list = routes::write(rows, with_id, Family::Ipv6)?;
    Ok([&IPV6_UNICAST[..], &[next_hop.len() as u8], next_hop, &[0], &list].concat())
}

/// The bytes of MP_UNREACH_NLRI, likewise.
pub fn write_unreach(rows: &[u32], with_id: bool) -> Result<Vec<u8>, Refusal> {
    let list = routes::write(rows, with_id, Family::Ipv6)?;
    Ok([&IPV6_UNICAST[..], &list].concat())
}
