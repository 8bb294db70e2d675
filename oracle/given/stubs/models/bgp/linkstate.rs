//! Stub: the link-state family is left out.

#[derive(Debug, Clone, PartialEq, Eq)]
pub enum LinkStateAttribute {}

#[derive(Debug, Clone, Copy, PartialEq, Eq)]
pub enum NlriType {
    Node = 1,
}

#[derive(Debug, Clone, PartialEq, Eq)]
pub struct LinkStateNlri {
    pub nlri_type: NlriType,
}
