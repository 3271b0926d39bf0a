//! Stand-in for rs-matter-tlv/src/traits/primitive.rs: each primitive reads and writes itself by
//! the published method of its own name (`TLVElement::u8`, `TLVWrite::u8`, ...).
use core::num::NonZeroU8;

use crate::error::{Error, ErrorCode};

use super::{FromTLV, TLVElement, TLVTag, TLVWrite, ToTLV, TLV};

macro_rules! primitives {
    ($($t:ident: $null:expr;)*) => { $(
        impl<'a> FromTLV<'a> for $t {
            fn from_tlv(element: &TLVElement<'a>) -> Result<Self, Error> {
                element.$t()
            }

            fn nullable_from_tlv(element: &TLVElement<'a>) -> Result<Self, Error> {
                nullable(Self::from_tlv(element)?, $null)
            }
        }

        impl ToTLV for $t {
            fn to_tlv<W: TLVWrite>(&self, tag: &TLVTag, mut tw: W) -> Result<(), Error> {
                tw.$t(tag, *self)
            }

            fn tlv_iter(&self, tag: TLVTag) -> impl Iterator<Item = Result<TLV<'_>, Error>> {
                TLV::$t(tag, *self).into_tlv_iter()
            }

            fn nullable_to_tlv<W: TLVWrite>(&self, tag: &TLVTag, tw: W) -> Result<(), Error> {
                nullable(*self, $null)?.to_tlv(tag, tw)
            }
        }
    )* };
}

primitives! {
    i8: Some(i8::MIN); i16: Some(i16::MIN); i32: Some(i32::MIN); i64: Some(i64::MIN);
    u8: Some(u8::MAX); u16: Some(u16::MAX); u32: Some(u32::MAX); u64: Some(u64::MAX);
    bool: None;
}

/// Refuses the null value where the option --nullable-reduced asks for it.
fn nullable<T: PartialEq>(value: T, null: Option<T>) -> Result<T, Error> {
    if super::oracle::nullable_is_reduced() && Some(&value) == null.as_ref() {
        return Err(ErrorCode::NullableRange.into());
    }
    Ok(value)
}

impl<'a> FromTLV<'a> for NonZeroU8 {
    fn from_tlv(element: &TLVElement<'a>) -> Result<Self, Error> {
        NonZeroU8::new(element.u8()?).ok_or(ErrorCode::Invalid.into())
    }
}

impl ToTLV for NonZeroU8 {
    fn to_tlv<W: TLVWrite>(&self, tag: &TLVTag, mut tw: W) -> Result<(), Error> {
        tw.u8(tag, self.get())
    }

    fn tlv_iter(&self, tag: TLVTag) -> impl Iterator<Item = Result<TLV<'_>, Error>> {
        TLV::u8(tag, self.get()).into_tlv_iter()
    }
}

impl ToTLV for str {
    fn to_tlv<W: TLVWrite>(&self, tag: &TLVTag, mut tw: W) -> Result<(), Error> {
        tw.utf8(tag, self)
    }

    fn tlv_iter(&self, tag: TLVTag) -> impl Iterator<Item = Result<TLV<'_>, Error>> {
        TLV::utf8(tag, self).into_tlv_iter()
    }
}
