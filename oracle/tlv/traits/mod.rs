//! Stand-in for rs-matter-tlv/src/traits.rs: the traits `FromTLV` and `ToTLV`, and the modules.
//! container.rs, maybe.rs and vec.rs are the published files; slice.rs, primitive.rs and builder.rs
//! are stand-ins.
use crate::error::Error;
use crate::utils::init::{init_from_closure, Init};

use super::{EitherIter, TLVElement, TLVSequenceIter, TLVTag, TLVValueType, TLVWrite, TLV};

pub use builder::*;
pub use container::*;
pub use maybe::*;

mod builder;
mod container;
mod maybe;
mod primitive;
mod slice;
mod vec;

pub trait FromTLV<'a>: Sized + 'a {
    fn from_tlv(element: &TLVElement<'a>) -> Result<Self, Error>;

    fn init_from_tlv(element: TLVElement<'a>) -> impl Init<Self, Error> {
        unsafe {
            init_from_closure(move |slot: *mut Self| {
                core::ptr::write(slot, Self::from_tlv(&element)?);
                Ok(())
            })
        }
    }

    /// The published integers may narrow their range here; see primitive.rs and ../../README.md.
    fn nullable_from_tlv(element: &TLVElement<'a>) -> Result<Self, Error> {
        Self::from_tlv(element)
    }

    fn init_nullable_from_tlv(element: TLVElement<'a>) -> impl Init<Self, Error> {
        Self::init_from_tlv(element)
    }
}

pub trait ToTLV {
    fn to_tlv<W: TLVWrite>(&self, tag: &TLVTag, tw: W) -> Result<(), Error>;

    fn tlv_iter(&self, tag: TLVTag) -> impl Iterator<Item = Result<TLV<'_>, Error>>;

    fn nullable_to_tlv<W: TLVWrite>(&self, tag: &TLVTag, tw: W) -> Result<(), Error> {
        self.to_tlv(tag, tw)
    }

    fn nullable_tlv_iter(&self, tag: TLVTag) -> impl Iterator<Item = Result<TLV<'_>, Error>> {
        self.tlv_iter(tag)
    }
}

impl<T: ToTLV + ?Sized> ToTLV for &T {
    fn to_tlv<W: TLVWrite>(&self, tag: &TLVTag, tw: W) -> Result<(), Error> {
        (**self).to_tlv(tag, tw)
    }

    fn tlv_iter(&self, tag: TLVTag) -> impl Iterator<Item = Result<TLV<'_>, Error>> {
        (**self).tlv_iter(tag)
    }
}

impl<'a> FromTLV<'a> for TLVElement<'a> {
    fn from_tlv(element: &TLVElement<'a>) -> Result<Self, Error> {
        Ok(element.clone())
    }
}

impl ToTLV for TLVElement<'_> {
    fn to_tlv<W: TLVWrite>(&self, tag: &TLVTag, mut tw: W) -> Result<(), Error> {
        // not used by scenes.rs; strings would need their length written
        let control = self.control()?;
        tw.raw_value(tag, control.value_type, self.raw_value()?)
    }

    fn tlv_iter(&self, _tag: TLVTag) -> impl Iterator<Item = Result<TLV<'_>, Error>> {
        core::iter::empty()
    }
}

/// Not published: switches for what the missing files may do either way.
pub mod oracle {
    use core::sync::atomic::{AtomicBool, Ordering};

    static NULLABLE_REDUCED: AtomicBool = AtomicBool::new(false);

    /// From now on an integer under `Nullable` may not be its null value (255 for u8, and so on).
    pub fn reduce_nullable() {
        NULLABLE_REDUCED.store(true, Ordering::Relaxed);
    }

    pub fn nullable_is_reduced() -> bool {
        NULLABLE_REDUCED.load(Ordering::Relaxed)
    }

    static ORDERED: AtomicBool = AtomicBool::new(false);

    /// From now on a derived structure is read with its members in the order of their tags.
    pub fn read_in_order() {
        ORDERED.store(true, Ordering::Relaxed);
    }

    pub fn is_read_in_order() -> bool {
        ORDERED.load(Ordering::Relaxed)
    }
}
