//! Stub: the element that the crate makes of an UPDATE. Not compared.

#[derive(Debug, Clone)]
pub struct BgpElem;

impl From<&BgpElem> for crate::models::Attributes {
    fn from(_: &BgpElem) -> Self {
        crate::models::Attributes::default()
    }
}
