//! Stand-in for the data model: the ids, contexts and traits that scenes.rs names.
use core::num::NonZeroU8;

use crate::error::Error;
use crate::persist::KvBlobStoreAccess;

pub mod clusters;

pub type AttrId = u32;
pub type ClusterId = u32;
pub type EndptId = u16;
pub type SceneId = u8;

pub struct Cluster<'a>(pub &'a str);

pub struct Dataver(core::cell::Cell<u32>);

impl Dataver {
    pub const fn new(v: u32) -> Self {
        Self(core::cell::Cell::new(v))
    }
    pub fn get(&self) -> u32 {
        self.0.get()
    }
    pub fn changed(&self) -> u32 {
        self.0.set(self.0.get().wrapping_add(1));
        self.0.get()
    }
}

pub trait GroupMembership {
    fn is_member(&self, fab_idx: NonZeroU8, group_id: u16, endpoint_id: EndptId) -> Result<bool, Error>;
}

pub enum ArrayAttributeRead<A, B> {
    ReadAll(A),
    ReadNone(A),
    ReadOne(u16, B),
}

pub enum LifecycleOp {
    Startup,
    FactoryReset,
    FailSafeCommit,
    FailSafeExpiry,
    FabricRemoval { fab_idx: NonZeroU8 },
}

pub struct CmdDetails {
    pub endpoint_id: EndptId,
    pub fab_idx: u8,
}

pub struct AttrDetails {
    pub endpoint_id: EndptId,
    pub fab_idx: u8,
}

pub trait HandlerContext {
    fn kv(&self) -> impl KvBlobStoreAccess + '_;
}

pub trait InvokeContext: HandlerContext {
    fn cmd(&self) -> &CmdDetails;
    fn notify_own_attr_changed(&self, attr: AttrId);
}

pub trait ReadContext: HandlerContext {
    fn attr(&self) -> &AttrDetails;
}
