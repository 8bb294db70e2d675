//! Stub: errors of the text forms. Not compared.

#[derive(Debug)]
pub enum BgpModelsError {
    PrefixParsingError(ipnet::AddrParseError),
}

impl From<ipnet::AddrParseError> for BgpModelsError {
    fn from(error: ipnet::AddrParseError) -> Self {
        BgpModelsError::PrefixParsingError(error)
    }
}
