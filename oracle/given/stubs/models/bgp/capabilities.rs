//! Stub: capabilities of an OPEN. Each is refused, so the crate keeps it as raw bytes.

use crate::error::ParserError;
use bytes::Bytes;
use num_enum::{FromPrimitive, IntoPrimitive};

#[allow(non_camel_case_types)]
#[derive(Debug, FromPrimitive, IntoPrimitive, Copy, Clone, PartialEq, Eq, Hash)]
#[repr(u8)]
pub enum BgpCapabilityType {
    MULTIPROTOCOL_EXTENSIONS_FOR_BGP_4 = 1,
    ROUTE_REFRESH_CAPABILITY_FOR_BGP_4 = 2,
    EXTENDED_NEXT_HOP_ENCODING = 5,
    BGP_EXTENDED_MESSAGE = 6,
    BGP_ROLE = 9,
    GRACEFUL_RESTART_CAPABILITY = 64,
    SUPPORT_FOR_4_OCTET_AS_NUMBER_CAPABILITY = 65,
    ADD_PATH_CAPABILITY = 69,
    #[num_enum(catch_all)]
    Unknown(u8) = 254,
}

macro_rules! left_out_capability {
    ($($name:ident)*) => {$(
        #[derive(Debug, Clone, PartialEq, Eq)]
        pub enum $name {}

        impl $name {
            pub fn parse(_data: Bytes) -> Result<Self, ParserError> {
                Err(ParserError::Unsupported("capabilities are not given".to_string()))
            }

            pub fn encode(&self) -> Bytes {
                match *self {}
            }
        }
    )*};
}

left_out_capability!(
    AddPathCapability
    BgpExtendedMessageCapability
    BgpRoleCapability
    ExtendedNextHopCapability
    FourOctetAsCapability
    GracefulRestartCapability
    MultiprotocolExtensionsCapability
    RouteRefreshCapability
);
