//! Stub: flow specifications are left out.

use crate::error::EncodingError;

#[derive(Debug, Clone, PartialEq, Eq)]
pub enum FlowSpecNlri {}

pub fn encode_flowspec_nlri(nlri: &FlowSpecNlri) -> Result<Vec<u8>, EncodingError> {
    match *nlri {}
}
