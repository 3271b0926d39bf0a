//! Storage. For the calls it writes nothing and has nothing, since what a save costs is left out there; for saves and loads it is a buffer
//! for one image.
use std::cell::{Cell, RefCell};

use crate::dm::HandlerContext;
use crate::error::{Error, ErrorCode};
use crate::tlv::{FromTLV, TLVElement, TLVTag, TLVWrite, ToTLV};

pub const SCENES_KEY: u16 = 1;

pub trait KvBlobStore {
    fn remove(&mut self, key: u16, buf: &mut [u8]) -> Result<(), Error>;
}

impl<T: KvBlobStore> KvBlobStore for &mut T {
    fn remove(&mut self, key: u16, buf: &mut [u8]) -> Result<(), Error> {
        (**self).remove(key, buf)
    }
}

pub trait KvBlobStoreAccess {
    fn access<F, R>(&self, f: F) -> R
    where
        F: FnOnce(&mut Nothing, &mut [u8]) -> R,
    {
        f(&mut Nothing, &mut [])
    }
    /// Reads the image, if there is one.
    fn load<R>(&self, _read: impl FnOnce(&[u8]) -> R) -> Option<R> {
        None
    }
    /// Writes an image, which answers its length.
    fn store(&self, _write: impl FnOnce(&mut [u8]) -> Result<usize, Error>) -> Result<(), Error> {
        Ok(())
    }
}

pub struct Nothing;

impl KvBlobStore for Nothing {
    fn remove(&mut self, _key: u16, _buf: &mut [u8]) -> Result<(), Error> {
        Ok(())
    }
}

impl KvBlobStoreAccess for &Nothing {}

/// A buffer, of which the front is an image.
pub struct Blob {
    buffer: RefCell<Vec<u8>>,
    len: Cell<usize>,
}

impl Blob {
    pub fn new(most: usize) -> Self {
        Self { buffer: RefCell::new(vec![0; most]), len: Cell::new(0) }
    }

    pub fn image(&self) -> Vec<u8> {
        self.buffer.borrow()[..self.len.get()].into()
    }

    pub fn put_image(&self, image: &[u8]) {
        self.buffer.borrow_mut()[..image.len()].copy_from_slice(image);
        self.len.set(image.len());
    }
}

impl KvBlobStoreAccess for &Blob {
    fn load<R>(&self, read: impl FnOnce(&[u8]) -> R) -> Option<R> {
        Some(read(&self.buffer.borrow()[..self.len.get()]))
    }
    fn store(&self, write: impl FnOnce(&mut [u8]) -> Result<usize, Error>) -> Result<(), Error> {
        self.len.set(write(&mut self.buffer.borrow_mut())?);
        Ok(())
    }
}

impl HandlerContext for &Blob {
    fn kv(&self) -> impl KvBlobStoreAccess + '_ {
        *self
    }
}

/// Where an image is written, the scene ids of a membership and field bytes that are copied: a byte costs a test and a write.
pub struct Out<B> {
    pub bytes: B,
    pub len: usize,
}

impl<B: AsMut<[u8]>> TLVWrite for Out<B> {
    type Position = usize;

    fn write(&mut self, byte: u8) -> Result<(), Error> {
        *self.bytes.as_mut().get_mut(self.len).ok_or(ErrorCode::NoSpace)? = byte;
        self.len += 1;
        Ok(())
    }
    fn get_tail(&self) -> usize {
        self.len
    }
    fn rewind_to(&mut self, pos: usize) {
        self.len = pos;
    }
}

/// A save as the handler makes it behind a change, on its own. quiet.rs has it for the published table.
pub trait Save {
    fn save(&self, ctx: &impl HandlerContext) -> Result<(), Error>;
}

pub struct Persist<S>(S);

impl<S: KvBlobStoreAccess> Persist<S> {
    pub fn new(kv: S) -> Self {
        Self(kv)
    }

    pub fn load_tlv<T: for<'a> FromTLV<'a>>(&mut self, _key: u16) -> Result<Option<T>, Error> {
        self.0.load(|image| T::from_tlv(&TLVElement::new(image))).transpose()
    }

    pub fn store_tlv<T: ToTLV>(&mut self, _key: u16, value: T) -> Result<(), Error> {
        self.0.store(|buffer| {
            let mut out = Out { bytes: buffer, len: 0 };
            value.to_tlv(&TLVTag::Anonymous, &mut out)?;
            Ok(out.len)
        })
    }

    pub fn run(self) -> Result<(), Error> {
        Ok(())
    }
}
