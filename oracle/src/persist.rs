//! Stand-in for the persistence layer: one image in memory, with counters of writes and removals.
use std::cell::{Cell, RefCell};

use crate::error::Error;
use crate::tlv::{FromTLV, TLVElement, TLVTag, ToTLV};

pub const SCENES_KEY: u16 = 1;

pub trait KvBlobStore {
    fn load<R>(&mut self, key: u16, f: impl FnOnce(Option<&[u8]>) -> R) -> R;
    fn store(&mut self, key: u16, data: &[u8]) -> Result<(), Error>;
    fn remove(&mut self, key: u16, buf: &mut [u8]) -> Result<(), Error>;
}

impl<T: KvBlobStore> KvBlobStore for &mut T {
    fn load<R>(&mut self, key: u16, f: impl FnOnce(Option<&[u8]>) -> R) -> R {
        (**self).load(key, f)
    }
    fn store(&mut self, key: u16, data: &[u8]) -> Result<(), Error> {
        (**self).store(key, data)
    }
    fn remove(&mut self, key: u16, buf: &mut [u8]) -> Result<(), Error> {
        (**self).remove(key, buf)
    }
}

pub trait KvBlobStoreAccess {
    fn access<F, R>(&self, f: F) -> R
    where
        F: FnOnce(&mut MemStore<'_>, &mut [u8]) -> R;
}

#[derive(Default)]
pub struct Kv {
    pub image: RefCell<Option<Vec<u8>>>,
    pub writes: Cell<u32>,
    pub removes: Cell<u32>,
}

pub struct MemStore<'a>(&'a Kv);

impl KvBlobStore for MemStore<'_> {
    fn load<R>(&mut self, key: u16, f: impl FnOnce(Option<&[u8]>) -> R) -> R {
        assert_eq!(key, SCENES_KEY);
        f(self.0.image.borrow().as_deref())
    }
    fn store(&mut self, key: u16, data: &[u8]) -> Result<(), Error> {
        assert_eq!(key, SCENES_KEY);
        *self.0.image.borrow_mut() = Some(data.to_vec());
        self.0.writes.set(self.0.writes.get() + 1);
        Ok(())
    }
    fn remove(&mut self, key: u16, _buf: &mut [u8]) -> Result<(), Error> {
        assert_eq!(key, SCENES_KEY);
        *self.0.image.borrow_mut() = None;
        self.0.removes.set(self.0.removes.get() + 1);
        Ok(())
    }
}

impl KvBlobStoreAccess for &Kv {
    fn access<F, R>(&self, f: F) -> R
    where
        F: FnOnce(&mut MemStore<'_>, &mut [u8]) -> R,
    {
        f(&mut MemStore(self), &mut [])
    }
}

/// `store_tlv` writes the image at once (thermostat.rs calls it without `run`), `run` ends the
/// transaction.
pub struct Persist<S> {
    kv: S,
}

impl<S: KvBlobStoreAccess> Persist<S> {
    pub fn new(kv: S) -> Self {
        Self { kv }
    }

    pub fn load_tlv<T>(&mut self, key: u16) -> Result<Option<T>, Error>
    where
        T: for<'a> FromTLV<'a>,
    {
        self.kv.access(|store, _| store.load(key, |data| data.map(|d| T::from_tlv(&TLVElement::new(d))).transpose()))
    }

    pub fn store_tlv<T: ToTLV>(&mut self, key: u16, value: T) -> Result<(), Error> {
        let data = image_of(&value)?;
        self.kv.access(|store, _| store.store(key, &data))
    }

    pub fn run(self) -> Result<(), Error> {
        Ok(())
    }
}

pub fn image_of<T: ToTLV>(value: &T) -> Result<Vec<u8>, Error> {
    let mut sink = crate::sink::Sink::default();
    value.to_tlv(&TLVTag::Anonymous, &mut sink)?;
    Ok(sink.0)
}
