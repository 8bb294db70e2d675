//! Stub: tunnel encapsulation; the type numbers are not kept, so such an attribute is not written back exactly.

use num_enum::FromPrimitive;

#[derive(Debug, FromPrimitive, Copy, Clone, PartialEq, Eq)]
#[repr(u16)]
pub enum TunnelType {
    #[num_enum(default)]
    Reserved = 0,
}

#[derive(Debug, FromPrimitive, Copy, Clone, PartialEq, Eq)]
#[repr(u16)]
pub enum SubTlvType {
    #[num_enum(default)]
    Reserved = 0,
}

#[derive(Debug, Clone, PartialEq, Eq)]
pub struct SubTlv {
    pub sub_tlv_type: SubTlvType,
    pub value: Vec<u8>,
}

impl SubTlv {
    pub fn new(sub_tlv_type: SubTlvType, value: Vec<u8>) -> Self {
        SubTlv { sub_tlv_type, value }
    }
}

#[derive(Debug, Clone, PartialEq, Eq)]
pub struct TunnelEncapTlv {
    pub tunnel_type: TunnelType,
    pub sub_tlvs: Vec<SubTlv>,
}

impl TunnelEncapTlv {
    pub fn new(tunnel_type: TunnelType) -> Self {
        TunnelEncapTlv { tunnel_type, sub_tlvs: Vec::new() }
    }

    pub fn add_sub_tlv(&mut self, sub_tlv: SubTlv) {
        self.sub_tlvs.push(sub_tlv);
    }
}

#[derive(Debug, Clone, PartialEq, Eq)]
pub struct TunnelEncapAttribute {
    pub tunnel_tlvs: Vec<TunnelEncapTlv>,
}

impl TunnelEncapAttribute {
    pub fn new() -> Self {
        TunnelEncapAttribute { tunnel_tlvs: Vec::new() }
    }

    pub fn add_tunnel_tlv(&mut self, tunnel_tlv: TunnelEncapTlv) {
        self.tunnel_tlvs.push(tunnel_tlv);
    }
}
