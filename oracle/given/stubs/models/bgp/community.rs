//! Stub: communities as far as the given files name them.

use crate::models::Asn;

#[derive(Debug, PartialEq, Clone, Copy, Eq, Hash)]
pub enum Community {
    NoExport,
    NoAdvertise,
    NoExportSubConfed,
    Custom(Asn, u16),
}

macro_rules! left_out_community {
    ($($name:ident)*) => {$(
        #[derive(Debug, PartialEq, Clone, Copy, Eq, Hash)]
        pub enum $name {}
    )*};
}

left_out_community!(ExtendedCommunity Ipv6AddrExtCommunity LargeCommunity);

#[derive(Debug, PartialEq, Clone, Copy, Eq, Hash)]
pub enum MetaCommunity {
    Plain(Community),
    Extended(ExtendedCommunity),
    Large(LargeCommunity),
}
