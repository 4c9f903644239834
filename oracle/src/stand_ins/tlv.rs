//! Values as they are after decoding: docs/RULES.md leaves the encoding out.
use crate::error::Error;

pub use tlv_derive::{FromTLV, ToTLV};

pub trait TLVBuilderParent {}

#[derive(Clone, Debug, PartialEq, Eq)]
pub struct Nullable<T>(Option<T>);

impl<T> Nullable<T> {
    pub fn some(value: T) -> Self {
        Self(Some(value))
    }
    pub fn none() -> Self {
        Self(None)
    }
    pub fn into_option(self) -> Option<T> {
        self.0
    }
    pub fn as_opt_ref(&self) -> Option<&T> {
        self.0.as_ref()
    }
    pub fn is_none(&self) -> bool {
        self.0.is_none()
    }
}

impl<T> From<Option<T>> for Nullable<T> {
    fn from(value: Option<T>) -> Self {
        Self(value)
    }
}

pub struct TLVArray<'a, T>(pub &'a [T]);

impl<T: Clone> TLVArray<'_, T> {
    pub fn iter(&self) -> impl Iterator<Item = Result<T, Error>> + '_ {
        self.0.iter().cloned().map(Ok)
    }
}
