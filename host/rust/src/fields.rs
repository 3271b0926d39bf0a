//! Raw field bytes: their clusters and attributes, item by item, and their pairs.
use crate::answers::Error;
use crate::ffi::{self, Cursor};
use crate::requests::pair;
use crate::table::MAX_FIELDS;
use core::iter::FusedIterator;

/// No so many field bytes hold more pairs: each takes five bytes at least.
///
/// ```
/// assert_eq!(scenes::pairs_max(128), 25);
/// ```
pub const fn pairs_max(bytes: usize) -> usize {
    bytes / 5
}

/// What an add by raw field bytes hands over, once its pairs are read and each was asked about.
pub(crate) enum Asked<'a> {
    /// The bytes, and these pair bytes for their pairs.
    Read(&'a [u8]),
    /// The bytes, and these pair bytes by themselves.
    Listed(&'a [u8]),
}

/// Asks about each pair, in order, and writes the answers to a buffer that is long enough for the fields of a scene. Of bytes that are no list
/// of field sets nothing is asked: the library refuses them, whatever the pair bytes.
pub(crate) fn ask_pairs<'a>(
    fields: &[u8],
    buffer: &'a mut [u8; pairs_max(MAX_FIELDS)],
    mut ask: impl FnMut(u32, u32) -> u8,
) -> Asked<'a> {
    let Ok(count) = field_pairs(fields).try_fold(0, |n: usize, pair| pair.map(|_| n + 1)) else {
        return Asked::Read(&[]);
    };
    let asked = field_pairs(fields).flatten().map(|(cluster, attribute)| ask(cluster, attribute));
    if buffer.len() < count {
        // So many pairs take more bytes than a scene has, and the add is refused. It is the add with listed pairs, of whose bytes the
        // first that is neither 1 nor 2 decides.
        let refused = asked.filter(|&byte| byte != pair::SCENABLE && byte != pair::CLUSTER_UNKNOWN);
        let Some(first) = refused.reduce(|first, _| first) else {
            return Asked::Listed(&[]);
        };
        buffer[0] = first;
        return Asked::Listed(&buffer[..1]);
    }
    let pairs = buffer.get_mut(..count).unwrap_or_default();
    pairs.iter_mut().zip(asked).for_each(|(byte, answer)| *byte = answer);
    Asked::Read(pairs)
}

/// What stands in field bytes: extension field sets, each a cluster and then its attributes.
#[derive(Clone, Copy, Debug, PartialEq, Eq, Hash)]
pub enum FieldItem {
    /// The number of a cluster.
    Cluster(u32),
    /// The number of an attribute of the cluster that came last.
    Attribute(u32),
}

impl FieldItem {
    pub(crate) const DONE: u8 = 0;
    pub(crate) const CLUSTER: u8 = 1;
    pub(crate) const ATTRIBUTE: u8 = 2;
}

/// The clusters and the attributes in field bytes, in order. Bytes that are no list of field sets end it with [`Error::BadFieldSets`],
/// which may come behind the items of sets in front of the mistake. No bytes hold no sets.
///
/// ```
/// use scenes::{field_items, Error, FieldItem};
///
/// let fields = b"\x15\x24\x00\x06\x36\x01\x15\x24\x00\x01\x18\x15\x24\x00\x02\x18\x18\x18\x18";
/// let items = [FieldItem::Cluster(6), FieldItem::Attribute(1), FieldItem::Attribute(2)];
/// assert!(field_items(fields).eq(items.map(Ok)));
/// assert_eq!(field_items(b"\x15").next(), Some(Err(Error::BadFieldSets)));
/// assert_eq!(field_items(b"").next(), None);
/// ```
pub fn field_items(bytes: &[u8]) -> FieldItems<'_> {
    FieldItems { bytes, cursor: Cursor { pair: 0, left: 0, set: 0 }, refused: false }
}

/// The items of [`field_items`].
#[must_use = "items are read as they are asked for"]
#[derive(Clone, Debug)]
pub struct FieldItems<'a> {
    bytes: &'a [u8],
    cursor: Cursor,
    refused: bool,
}

impl Iterator for FieldItems<'_> {
    type Item = Result<FieldItem, Error>;

    fn next(&mut self) -> Option<Self::Item> {
        if self.refused {
            return None;
        }
        let item = ffi::next_item(self.bytes, self.cursor);
        self.cursor = item.cursor;
        match item.kind {
            FieldItem::DONE => None,
            FieldItem::CLUSTER => Some(Ok(FieldItem::Cluster(item.number))),
            FieldItem::ATTRIBUTE => Some(Ok(FieldItem::Attribute(item.number))),
            _ => {
                self.refused = true;
                Some(Err(Error::BadFieldSets))
            }
        }
    }
}

impl FusedIterator for FieldItems<'_> {}

/// The pairs in field bytes, in order: a cluster and one of its attributes each. It ends as [`field_items`] does.
///
/// ```
/// use scenes::{field_pairs, Error};
///
/// let fields = b"\x15\x24\x00\x06\x36\x01\x15\x24\x00\x01\x18\x15\x24\x00\x02\x18\x18\x18\x18";
/// assert!(field_pairs(fields).eq([Ok((6, 1)), Ok((6, 2))]));
/// assert_eq!(field_pairs(&fields[..18]).last(), Some(Err(Error::BadFieldSets)));
/// ```
pub fn field_pairs(bytes: &[u8]) -> FieldPairs<'_> {
    FieldPairs { items: field_items(bytes), cluster: 0 }
}

/// The pairs of [`field_pairs`].
#[must_use = "pairs are read as they are asked for"]
#[derive(Clone, Debug)]
pub struct FieldPairs<'a> {
    items: FieldItems<'a>,
    cluster: u32,
}

impl Iterator for FieldPairs<'_> {
    type Item = Result<(u32, u32), Error>;

    fn next(&mut self) -> Option<Self::Item> {
        loop {
            match self.items.next()? {
                Ok(FieldItem::Cluster(cluster)) => self.cluster = cluster,
                Ok(FieldItem::Attribute(attribute)) => return Some(Ok((self.cluster, attribute))),
                Err(error) => return Some(Err(error)),
            }
        }
    }
}

impl FusedIterator for FieldPairs<'_> {}

/// The pairs in field bytes, in order, one word each, written to the front of a buffer: [`pair_of_word`] takes a word apart.
/// [`pairs_max`] words are always enough; a refusal writes nothing.
///
/// ```
/// use scenes::{list_pairs, pair_of_word, Error};
///
/// let fields = b"\x15\x24\x00\x06\x36\x01\x15\x24\x00\x01\x18\x15\x24\x00\x02\x18\x18\x18\x18";
/// let mut words = [0; 3];
/// let pairs = list_pairs(fields, &mut words)?;
/// assert_eq!((pairs.len(), pair_of_word(pairs[1])), (2, (6, 2)));
/// assert_eq!(list_pairs(fields, &mut [0]), Err(Error::BufferTooShort));
/// # Ok::<(), Error>(())
/// ```
pub fn list_pairs<'a>(bytes: &[u8], words: &'a mut [u64]) -> Result<&'a [u64], Error> {
    let read = ffi::list_pairs(bytes, words);
    if read.status != 0 {
        return Err(Error::of(read.status));
    }
    Ok(words.get(..read.len).unwrap_or(&[]))
}

/// The cluster and the attribute of a word of [`list_pairs`].
///
/// ```
/// assert_eq!(scenes::pair_of_word(0x0000_0006_0000_0001), (6, 1));
/// ```
pub const fn pair_of_word(word: u64) -> (u32, u32) {
    ((word >> 32) as u32, word as u32)
}
