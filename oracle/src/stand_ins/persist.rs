//! Storage that only records that it was called: docs/RULES.md leaves the key-value store and its delay out.
use crate::error::Error;
use crate::play;

pub trait KvBlobStoreAccess {}

pub struct Kv;
impl KvBlobStoreAccess for Kv {}

pub struct Persist;

impl Persist {
    pub fn new(_: impl KvBlobStoreAccess) -> Self {
        Self
    }
    /// Called at start-up alone, which is the first accepted event: nothing was stored before.
    pub fn load_tlv<T>(&mut self, _key: u16) -> Result<Option<T>, Error> {
        Ok(None)
    }
    pub fn store_tlv<T>(&mut self, _key: u16, _value: T) -> Result<(), Error> {
        play::act("K");
        Ok(())
    }
    pub fn remove(&mut self, _key: u16) -> Result<(), Error> {
        play::record_removed();
        Ok(())
    }
}
