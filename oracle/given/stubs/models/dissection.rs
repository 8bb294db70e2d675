//! Stub: the tree that the crate's dissector fills. Not compared.

#[derive(Debug, Clone, PartialEq, Eq)]
pub struct DissectionNode {
    pub name: String,
    pub label: String,
    pub offset: u32,
    pub length: u32,
    pub children: Vec<DissectionNode>,
}

impl DissectionNode {
    pub fn new(name: impl Into<String>, label: impl Into<String>, offset: u32, length: u32) -> Self {
        DissectionNode { name: name.into(), label: label.into(), offset, length, children: Vec::new() }
    }
}
