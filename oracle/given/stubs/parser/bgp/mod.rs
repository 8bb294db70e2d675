pub mod attributes;
pub mod dissect;
pub mod messages;
