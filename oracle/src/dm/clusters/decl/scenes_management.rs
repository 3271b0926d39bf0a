//! Stand-in for the code that rs-matter generates from the Matter IDL for cluster 0x0062, Scenes
//! Management.  Requests are views of TLV structures, read by the published `TLVElement::read` and
//! `read_opt`; responses write TLV and record what was set.  Tags are those of the IDL.
use core::num::NonZeroU8;

use crate::dm::{AttrId, Cluster, ClusterId};
use crate::error::{Error, ErrorCode};
use crate::sink::{rec, rec_pos};
use crate::tlv::{
    FromTLV, Nullable, OptionalBuilder, TLVArray, TLVBuilder, TLVBuilderParent, TLVContainerIter, TLVElement, TLVTag,
    TLVWrite, ToTLV, ToTLVArrayBuilder,
};

pub const FULL_CLUSTER: Cluster<'static> = Cluster("ScenesManagement");

#[repr(u32)]
pub enum AttributeId {
    SceneTableSize = 1,
    FabricSceneInfo = 2,
}

mod handler;
pub use handler::{ClusterAsyncHandler, HandlerAsyncAdaptor};

// Requests.

macro_rules! structs {
    ($($name:ident { $($f:ident : $t:ty = $tag:literal),* $(,)? })*) => { $(
        #[derive(Clone)]
        pub struct $name<'a>(TLVElement<'a>);

        impl<'a> $name<'a> {
            pub const fn new(element: TLVElement<'a>) -> Self {
                Self(element)
            }
            $( pub fn $f(&self) -> Result<$t, Error> {
                self.0.read($tag)
            } )*
        }

        impl<'a> FromTLV<'a> for $name<'a> {
            fn from_tlv(element: &TLVElement<'a>) -> Result<Self, Error> {
                Ok(Self::new(element.clone()))
            }
        }
    )* };
}

structs! {
    ViewSceneRequest { group_id: u16 = 0, scene_id: u8 = 1 }
    RemoveSceneRequest { group_id: u16 = 0, scene_id: u8 = 1 }
    RemoveAllScenesRequest { group_id: u16 = 0 }
    StoreSceneRequest { group_id: u16 = 0, scene_id: u8 = 1 }
    RecallSceneRequest { group_id: u16 = 0, scene_id: u8 = 1 }
    GetSceneMembershipRequest { group_id: u16 = 0 }
    CopySceneRequest {
        mode: CopyModeBitmap = 0,
        group_identifier_from: u16 = 1,
        scene_identifier_from: u8 = 2,
        group_identifier_to: u16 = 3,
        scene_identifier_to: u8 = 4,
    }
    ExtensionFieldSetStruct {
        cluster_id: ClusterId = 0,
        attribute_value_list: TLVArray<'a, AttributeValuePairStruct<'a>> = 1,
    }
    AttributeValuePairStruct { attribute_id: AttrId = 0 }
}

impl RecallSceneRequest<'_> {
    pub fn transition_time(&self) -> Result<Option<Nullable<u32>>, Error> {
        self.0.read_opt(2)
    }
}

#[derive(Clone, Copy)]
pub struct CopyModeBitmap(u8);

impl CopyModeBitmap {
    pub const fn bits(&self) -> u8 {
        self.0
    }
}

impl<'a> FromTLV<'a> for CopyModeBitmap {
    fn from_tlv(element: &TLVElement<'a>) -> Result<Self, Error> {
        // unknown bits are kept
        Ok(Self(element.u8()?))
    }
}

/// `AddSceneRequest`, with a second way to say what the extension field sets are: `Given` gives
/// `raw_value()` bytes and a number of pairs, independent of one another.
#[derive(Clone)]
pub struct AddSceneRequest<'a>(TLVElement<'a>, Option<Given<'a>>);

#[derive(Clone, Copy)]
pub struct Given<'a> {
    pub raw: &'a [u8],
    pub pairs: usize,
}

impl<'a> AddSceneRequest<'a> {
    pub const fn new(element: TLVElement<'a>) -> Self {
        Self(element, None)
    }
    pub const fn given(element: TLVElement<'a>, given: Given<'a>) -> Self {
        Self(element, Some(given))
    }
    pub fn group_id(&self) -> Result<u16, Error> {
        self.0.read(0)
    }
    pub fn scene_id(&self) -> Result<u8, Error> {
        self.0.read(1)
    }
    pub fn transition_time(&self) -> Result<u32, Error> {
        self.0.read(2)
    }
    pub fn extension_field_set_structs(&self) -> Result<EfsArray<'a>, Error> {
        Ok(match self.1 {
            // published code: TLVArray's `from_tlv`
            None => EfsArray::Real(self.0.read(4)?),
            Some(d) => EfsArray::Given(d),
        })
    }
}

pub enum EfsArray<'a> {
    Real(TLVArray<'a, ExtensionFieldSetStruct<'a>>),
    Given(Given<'a>),
}

impl<'a> EfsArray<'a> {
    pub fn element(&self) -> EfsElement<'a> {
        match self {
            Self::Real(a) => EfsElement::Real(a.element().clone()),
            Self::Given(d) => EfsElement::Given(*d),
        }
    }
    pub fn iter(&self) -> EfsIter<'a> {
        match self {
            Self::Real(a) => EfsIter::Real(a.iter()),
            Self::Given(d) => EfsIter::Given(Some(*d)),
        }
    }
}

pub enum EfsElement<'a> {
    Real(TLVElement<'a>),
    Given(Given<'a>),
}

impl<'a> EfsElement<'a> {
    pub fn raw_value(&self) -> Result<&'a [u8], Error> {
        match self {
            Self::Real(e) => e.raw_value(),
            Self::Given(d) => Ok(d.raw),
        }
    }
}

pub enum EfsIter<'a> {
    Real(TLVContainerIter<'a, ExtensionFieldSetStruct<'a>>),
    Given(Option<Given<'a>>),
}

impl<'a> Iterator for EfsIter<'a> {
    type Item = Result<Efs<'a>, Error>;

    fn next(&mut self) -> Option<Self::Item> {
        match self {
            Self::Real(i) => Some(i.next()?.map(Efs::Real)),
            // one set of cluster 0 with all the pairs
            Self::Given(d) => d.take().map(|d| Ok(Efs::Given(d))),
        }
    }
}

pub enum Efs<'a> {
    Real(ExtensionFieldSetStruct<'a>),
    Given(Given<'a>),
}

impl<'a> Efs<'a> {
    pub fn cluster_id(&self) -> Result<ClusterId, Error> {
        match self {
            Self::Real(e) => e.cluster_id(),
            Self::Given(_) => Ok(0),
        }
    }
    pub fn attribute_value_list(&self) -> Result<AvpArray<'a>, Error> {
        Ok(match self {
            Self::Real(e) => AvpArray::Real(e.attribute_value_list()?),
            Self::Given(d) => AvpArray::Given(d.pairs),
        })
    }
}

pub enum AvpArray<'a> {
    Real(TLVArray<'a, AttributeValuePairStruct<'a>>),
    Given(usize),
}

impl<'a> AvpArray<'a> {
    pub fn iter(&self) -> AvpIter<'a> {
        match self {
            Self::Real(a) => AvpIter::Real(a.iter()),
            Self::Given(n) => AvpIter::Given(0, *n),
        }
    }
}

pub enum AvpIter<'a> {
    Real(TLVContainerIter<'a, AttributeValuePairStruct<'a>>),
    Given(usize, usize),
}

impl<'a> Iterator for AvpIter<'a> {
    type Item = Result<Avp<'a>, Error>;

    fn next(&mut self) -> Option<Self::Item> {
        match self {
            Self::Real(i) => Some(i.next()?.map(Avp::Real)),
            Self::Given(at, n) => (*at < *n).then(|| {
                *at += 1;
                Ok(Avp::Given(*at as AttrId - 1))
            }),
        }
    }
}

pub enum Avp<'a> {
    Real(AttributeValuePairStruct<'a>),
    Given(AttrId),
}

impl Avp<'_> {
    pub fn attribute_id(&self) -> Result<AttrId, Error> {
        match self {
            Self::Real(a) => a.attribute_id(),
            Self::Given(a) => Ok(*a),
        }
    }
}

// Response builders.

/// What the recorder notes of a value.
pub trait Seen {
    fn seen(&self) -> Option<u64>;
}
macro_rules! seen {
    ($($t:ty)*) => { $(
        impl Seen for $t {
            fn seen(&self) -> Option<u64> {
                Some(*self as u64)
            }
        }
    )* };
}
seen!(u8 u16 u32 u64 i8 i16 i32 i64 bool);
impl Seen for &str {
    fn seen(&self) -> Option<u64> {
        Some(self.len() as u64)
    }
}
impl<T: Seen> Seen for Option<T> {
    fn seen(&self) -> Option<u64> {
        self.as_ref().and_then(|v| v.seen())
    }
}
impl<T: Seen> Seen for Nullable<T> {
    fn seen(&self) -> Option<u64> {
        self.as_opt_ref().and_then(|v| v.seen())
    }
}

/// A structure builder. The published ones carry the number of the next member in their type, so
/// that members are set in order and each once; scenes.rs was compiled against those already.
macro_rules! builders {
    ($($name:ident { $($f:ident : $t:ty = $tag:literal),* $(,)? })*) => { $(
        pub struct $name<P> {
            p: P,
        }

        impl<P: TLVBuilderParent> TLVBuilder<P> for $name<P> {
            fn new(mut p: P, tag: &TLVTag) -> Result<Self, Error> {
                p.writer().start_struct(tag)?;
                Ok(Self { p })
            }
        }

        impl<P: TLVBuilderParent> TLVBuilderParent for $name<P> {
            type Write = P::Write;

            fn writer(&mut self) -> &mut P::Write {
                self.p.writer()
            }
        }

        impl<P: TLVBuilderParent> $name<P> {
            $( pub fn $f(mut self, value: $t) -> Result<Self, Error> {
                rec(stringify!($f), value.seen());
                self.p.writer().write_ctx($tag, &value)?;
                Ok(self)
            } )*

            pub fn end(mut self) -> Result<P, Error> {
                rec_pos("end_at");
                self.p.writer().end_container()?;
                Ok(self.p)
            }
        }
    )* };
}

builders! {
    AddSceneResponseBuilder { status: u8 = 0, group_id: u16 = 1, scene_id: u8 = 2 }
    ViewSceneResponseBuilder {
        status: u8 = 0,
        group_id: u16 = 1,
        scene_id: u8 = 2,
        transition_time: Option<u32> = 3,
        scene_name: Option<&str> = 4,
    }
    RemoveSceneResponseBuilder { status: u8 = 0, group_id: u16 = 1, scene_id: u8 = 2 }
    RemoveAllScenesResponseBuilder { status: u8 = 0, group_id: u16 = 1 }
    StoreSceneResponseBuilder { status: u8 = 0, group_id: u16 = 1, scene_id: u8 = 2 }
    GetSceneMembershipResponseBuilder { status: u8 = 0, capacity: Nullable<u8> = 1, group_id: u16 = 2 }
    CopySceneResponseBuilder { status: u8 = 0, group_identifier_from: u16 = 1, scene_identifier_from: u8 = 2 }
    SceneInfoStructBuilder {
        scene_count: u8 = 0,
        current_scene: Option<u8> = 1,
        current_group: Option<u16> = 2,
        scene_valid: Option<bool> = 3,
        remaining_capacity: u8 = 4,
        fabric_index: Option<u8> = 254,
    }
    ExtensionFieldSetStructBuilder { cluster_id: ClusterId = 0 }
    AttributeValuePairStructBuilder {
        attribute_id: AttrId = 0,
        value_unsigned_8: Option<u8> = 1,
        value_signed_8: Option<i8> = 2,
        value_unsigned_16: Option<u16> = 3,
        value_signed_16: Option<i16> = 4,
        value_unsigned_32: Option<u32> = 5,
        value_signed_32: Option<i32> = 6,
        value_unsigned_64: Option<u64> = 7,
        value_signed_64: Option<i64> = 8,
    }
}

impl<P: TLVBuilderParent> ViewSceneResponseBuilder<P> {
    pub fn extension_field_set_structs(
        self,
    ) -> Result<OptionalBuilder<Self, ExtensionFieldSetStructArrayBuilder<Self>>, Error> {
        rec_pos("efs_at");
        Ok(OptionalBuilder::new(self, TLVTag::Context(5)))
    }
}

impl<P: TLVBuilderParent> GetSceneMembershipResponseBuilder<P> {
    pub fn scene_list(self) -> Result<OptionalBuilder<Self, ToTLVArrayBuilder<Self, u8>>, Error> {
        rec_pos("list_at");
        Ok(OptionalBuilder::new(self, TLVTag::Context(3)))
    }
}

impl<P: TLVBuilderParent> ExtensionFieldSetStructBuilder<P> {
    pub fn attribute_value_list(self) -> Result<AttributeValuePairStructArrayBuilder<Self>, Error> {
        AttributeValuePairStructArrayBuilder::new(self, &TLVTag::Context(1))
    }
}

macro_rules! array_builders {
    ($($name:ident of $item:ident)*) => { $(
        pub struct $name<P> {
            p: P,
        }

        impl<P: TLVBuilderParent> TLVBuilder<P> for $name<P> {
            fn new(mut p: P, tag: &TLVTag) -> Result<Self, Error> {
                p.writer().start_array(tag)?;
                Ok(Self { p })
            }
        }

        impl<P: TLVBuilderParent> TLVBuilderParent for $name<P> {
            type Write = P::Write;

            fn writer(&mut self) -> &mut P::Write {
                self.p.writer()
            }
        }

        impl<P: TLVBuilderParent> $name<P> {
            pub fn push(self) -> Result<$item<Self>, Error> {
                $item::new(self, &TLVTag::Anonymous)
            }

            pub fn end(mut self) -> Result<P, Error> {
                self.p.writer().end_container()?;
                Ok(self.p)
            }
        }
    )* };
}

array_builders! {
    ExtensionFieldSetStructArrayBuilder of ExtensionFieldSetStructBuilder
    AttributeValuePairStructArrayBuilder of AttributeValuePairStructBuilder
    SceneInfoStructArrayBuilder of SceneInfoStructBuilder
}
