//! Stand-in for rs-matter-tlv/src/traits/slice.rs: a slice is written as a TLV array of anonymous
//! elements.
use crate::error::Error;

use super::{TLVTag, TLVWrite, ToTLV, TLV};

impl<T: ToTLV> ToTLV for [T] {
    fn to_tlv<W: TLVWrite>(&self, tag: &TLVTag, mut tw: W) -> Result<(), Error> {
        tw.start_array(tag)?;
        for item in self {
            item.to_tlv(&TLVTag::Anonymous, &mut tw)?;
        }
        tw.end_container()
    }

    fn tlv_iter(&self, tag: TLVTag) -> impl Iterator<Item = Result<TLV<'_>, Error>> {
        tlv_array_iter(tag, self.iter())
    }
}

pub(crate) fn tlv_array_iter<'s, T, I>(tag: TLVTag, it: I) -> impl Iterator<Item = Result<TLV<'s>, Error>>
where
    T: ToTLV + 's,
    I: Iterator<Item = &'s T> + 's,
{
    TLV::array(tag)
        .into_tlv_iter()
        .chain(it.flat_map(|item| item.tlv_iter(TLVTag::Anonymous)))
        .chain(TLV::end_container().into_tlv_iter())
}
