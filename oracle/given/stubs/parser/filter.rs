//! Stub: not compared.

use crate::error::ParserError;

#[derive(Debug, Clone)]
pub struct Filter;

impl Filter {
    pub fn new(_filter_type: &str, _filter_value: &str) -> Result<Self, ParserError> {
        Ok(Filter)
    }
}
