//! The crate's files as given, compiled unchanged. Every file that is not given is a stub of ours: it has what the
//! given files name, and what it would read is refused (so that the crate keeps it raw) or left out.
#![allow(dead_code, unused_imports, private_interfaces, clippy::all)]

pub mod encoder;
pub mod error;
pub mod models;
pub mod parser;

pub mod oracle;

pub use crate::error::ParserError;
