//! Stand-in for the code that rs-matter generates for Scenes Management, without TLV but for raw field bytes: a request is its numbers, a
//! response keeps its status, and lists of ids go to a buffer. So both sides of the comparison take numbers and answer numbers.
use core::marker::PhantomData;
use core::sync::atomic::{AtomicU8, Ordering::Relaxed};

use crate::dm::{AttrId, Cluster, ClusterId};
use crate::driver::FieldSets;
use crate::error::Error;
use crate::tlv::{FromTLV, Nullable, OptionalBuilder, TLVArray, TLVBuilder, TLVBuilderParent, TLVElement, TLVTag, TLVWrite};

pub const FULL_CLUSTER: Cluster<'static> = Cluster("ScenesManagement");

#[repr(u32)]
pub enum AttributeId {
    FabricSceneInfo = 2,
}

mod handler;
pub use handler::{ClusterAsyncHandler, HandlerAsyncAdaptor};

// Requests.

macro_rules! requests {
    ($($name:ident { $($f:ident: $t:ty),* })*) => { $(
        #[derive(Clone, Copy, Default)]
        pub struct $name<'a> {
            $(pub $f: $t,)*
            pub life: PhantomData<&'a ()>,
        }

        impl $name<'_> {
            $(pub fn $f(&self) -> Result<$t, Error> {
                Ok(self.$f)
            })*
        }
    )* };
}

requests! {
    ViewSceneRequest { group_id: u16, scene_id: u8 }
    RemoveSceneRequest { group_id: u16, scene_id: u8 }
    RemoveAllScenesRequest { group_id: u16 }
    StoreSceneRequest { group_id: u16, scene_id: u8 }
    RecallSceneRequest { group_id: u16, scene_id: u8 }
    GetSceneMembershipRequest { group_id: u16 }
    CopySceneRequest {
        mode: CopyModeBitmap,
        group_identifier_from: u16,
        scene_identifier_from: u8,
        group_identifier_to: u16,
        scene_identifier_to: u8
    }
}

impl RecallSceneRequest<'_> {
    pub fn transition_time(&self) -> Result<Option<Nullable<u32>>, Error> {
        Ok(None)
    }
}

#[derive(Clone, Copy, Default)]
pub struct CopyModeBitmap(pub u8);

impl CopyModeBitmap {
    pub const fn bits(&self) -> u8 {
        self.0
    }
}

#[derive(Clone)]
pub struct AddSceneRequest<'a> {
    pub group: u16,
    pub scene: u8,
    pub time: u32,
    pub sets: FieldSets<'a>,
}

impl<'a> AddSceneRequest<'a> {
    pub fn group_id(&self) -> Result<u16, Error> {
        Ok(self.group)
    }
    pub fn scene_id(&self) -> Result<u8, Error> {
        Ok(self.scene)
    }
    pub fn transition_time(&self) -> Result<u32, Error> {
        Ok(self.time)
    }
    pub fn extension_field_set_structs(&self) -> Result<FieldSets<'a>, Error> {
        Ok(self.sets.clone())
    }
}

/// Field bytes, and how many pairs they have: one set of cluster 0 with all of them.
#[derive(Clone, Copy)]
pub struct Sets<'a> {
    pub fields: &'a [u8],
    pub pairs: u32,
}

impl<'a> Sets<'a> {
    pub fn element(&self) -> Sets<'a> {
        *self
    }
    pub fn raw_value(&self) -> Result<&'a [u8], Error> {
        Ok(self.fields)
    }
    pub fn iter(&self) -> impl Iterator<Item = Result<Sets<'a>, Error>> {
        core::iter::once(Ok(*self))
    }
    pub fn cluster_id(&self) -> Result<ClusterId, Error> {
        Ok(0)
    }
    pub fn attribute_value_list(&self) -> Result<Pairs, Error> {
        Ok(Pairs(self.pairs))
    }
}

pub struct Pairs(u32);

impl Pairs {
    pub fn iter(&self) -> impl Iterator<Item = Result<Pair, Error>> {
        (0..self.0).map(|at| Ok(Pair(at)))
    }
}

pub struct Pair(AttrId);

impl Pair {
    pub fn attribute_id(&self) -> Result<AttrId, Error> {
        Ok(self.0)
    }
}

/// What a recall walks, and an add by raw field bytes: published code reads it.
#[derive(Clone)]
pub struct ExtensionFieldSetStruct<'a>(TLVElement<'a>);

impl<'a> ExtensionFieldSetStruct<'a> {
    pub const fn new(element: TLVElement<'a>) -> Self {
        Self(element)
    }
    pub fn cluster_id(&self) -> Result<ClusterId, Error> {
        self.0.read(0)
    }
    pub fn attribute_value_list(&self) -> Result<TLVArray<'a, AttributeValuePairStruct<'a>>, Error> {
        self.0.read(1)
    }
}

impl<'a> FromTLV<'a> for ExtensionFieldSetStruct<'a> {
    fn from_tlv(element: &TLVElement<'a>) -> Result<Self, Error> {
        Ok(Self(element.clone()))
    }
}

#[derive(Clone)]
pub struct AttributeValuePairStruct<'a>(TLVElement<'a>);

impl AttributeValuePairStruct<'_> {
    pub fn attribute_id(&self) -> Result<AttrId, Error> {
        self.0.read(0)
    }
}

impl<'a> FromTLV<'a> for AttributeValuePairStruct<'a> {
    fn from_tlv(element: &TLVElement<'a>) -> Result<Self, Error> {
        Ok(Self(element.clone()))
    }
}

// Responses.

static STATUS: AtomicU8 = AtomicU8::new(0);

/// The status of the last response.
pub fn status() -> u8 {
    STATUS.load(Relaxed)
}

macro_rules! builders {
    ($($name:ident { $($f:ident: $t:ty),* })*) => { $(
        pub struct $name<P> {
            p: P,
        }

        impl<P: TLVBuilderParent> TLVBuilder<P> for $name<P> {
            fn new(p: P, _tag: &TLVTag) -> Result<Self, Error> {
                Ok(Self { p })
            }
        }

        impl<P: TLVBuilderParent> TLVBuilderParent for $name<P> {
            type Write = P::Write;

            fn writer(&mut self) -> &mut P::Write {
                self.p.writer()
            }
        }

        impl<P: TLVBuilderParent> $name<P> {
            $(pub fn $f(self, _value: $t) -> Result<Self, Error> {
                Ok(self)
            })*

            pub fn end(self) -> Result<P, Error> {
                Ok(self.p)
            }
        }
    )* };
}

builders! {
    AddSceneResponseBuilder { group_id: u16, scene_id: u8 }
    ViewSceneResponseBuilder { group_id: u16, scene_id: u8, transition_time: Option<u32>, scene_name: Option<&str> }
    RemoveSceneResponseBuilder { group_id: u16, scene_id: u8 }
    RemoveAllScenesResponseBuilder { group_id: u16 }
    StoreSceneResponseBuilder { group_id: u16, scene_id: u8 }
    GetSceneMembershipResponseBuilder { capacity: Nullable<u8>, group_id: u16 }
    CopySceneResponseBuilder { group_identifier_from: u16, scene_identifier_from: u8 }
    SceneInfoStructBuilder {
        scene_count: u8,
        current_scene: Option<u8>,
        current_group: Option<u16>,
        scene_valid: Option<bool>,
        remaining_capacity: u8,
        fabric_index: Option<u8>
    }
    ExtensionFieldSetStructBuilder { cluster_id: ClusterId }
    AttributeValuePairStructBuilder {
        attribute_id: AttrId,
        value_unsigned_8: Option<u8>,
        value_signed_8: Option<i8>,
        value_unsigned_16: Option<u16>,
        value_signed_16: Option<i16>,
        value_unsigned_32: Option<u32>,
        value_signed_32: Option<i32>,
        value_unsigned_64: Option<u64>,
        value_signed_64: Option<i64>
    }
}

macro_rules! statuses {
    ($($name:ident)*) => { $(
        impl<P: TLVBuilderParent> $name<P> {
            pub fn status(self, value: u8) -> Result<Self, Error> {
                STATUS.store(value, Relaxed);
                Ok(self)
            }
        }
    )* };
}

statuses! {
    AddSceneResponseBuilder
    ViewSceneResponseBuilder
    RemoveSceneResponseBuilder
    RemoveAllScenesResponseBuilder
    StoreSceneResponseBuilder
    GetSceneMembershipResponseBuilder
    CopySceneResponseBuilder
}

impl<P: TLVBuilderParent> ViewSceneResponseBuilder<P> {
    pub fn extension_field_set_structs(self) -> Result<OptionalBuilder<Self, ExtensionFieldSetStructArrayBuilder<Self>>, Error> {
        Ok(OptionalBuilder::new(self, TLVTag::Context(5)))
    }
}

impl<P: TLVBuilderParent> GetSceneMembershipResponseBuilder<P> {
    pub fn scene_list(self) -> Result<OptionalBuilder<Self, IdsBuilder<Self>>, Error> {
        Ok(OptionalBuilder::new(self, TLVTag::Context(3)))
    }
}

impl<P: TLVBuilderParent> ExtensionFieldSetStructBuilder<P> {
    pub fn attribute_value_list(self) -> Result<AttributeValuePairStructArrayBuilder<Self>, Error> {
        AttributeValuePairStructArrayBuilder::new(self, &TLVTag::Context(1))
    }
}

macro_rules! array_builders {
    ($($name:ident of $item:ident)*) => {
        builders! { $($name {})* }
        $(impl<P: TLVBuilderParent> $name<P> {
            pub fn push(self) -> Result<$item<Self>, Error> {
                $item::new(self, &TLVTag::Anonymous)
            }
        })*
    };
}

array_builders! {
    ExtensionFieldSetStructArrayBuilder of ExtensionFieldSetStructBuilder
    AttributeValuePairStructArrayBuilder of AttributeValuePairStructBuilder
    SceneInfoStructArrayBuilder of SceneInfoStructBuilder
}

builders! { IdsBuilder {} }

impl<P: TLVBuilderParent> IdsBuilder<P> {
    pub fn push(mut self, id: &u8) -> Result<Self, Error> {
        self.p.writer().write(*id)?;
        Ok(self)
    }
}
