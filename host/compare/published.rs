//! The handlers of the published scenes.rs. But for the rows of saves and loads a save writes nothing; the host always says yes, and requests
//! and responses have no TLV, but for raw field bytes.
use std::future::Future;
use std::marker::PhantomData;
use std::num::NonZeroU8;
use std::pin::pin;
use std::task::{Context, Poll, Waker};

use crate::dm::clusters::scenes::*;
use crate::dm::{
    ArrayAttributeRead, AttrDetails, AttrId, ClusterId, CmdDetails, Dataver, EndptId, GroupMembership, HandlerContext,
    InvokeContext, LifecycleOp, ReadContext,
};
use crate::driver::{self, Fields};
use crate::error::{Error, ErrorCode};
use crate::persist::{Blob, KvBlobStoreAccess, Nothing, Out, Save};
use crate::requests::{CopyRequest, GroupKey, SceneKey};
use crate::rows::{image_max, Side, FIELDS, TIME};
use crate::tlv::{TLVArray, TLVBuilder, TLVBuilderParent, TLVTag, TLVWrite, TLVWriteParent};

struct Ctx {
    cmd: CmdDetails,
    attr: AttrDetails,
}

impl HandlerContext for Ctx {
    fn kv(&self) -> impl KvBlobStoreAccess + '_ {
        &Nothing
    }
}

impl InvokeContext for Ctx {
    fn cmd(&self) -> &CmdDetails {
        &self.cmd
    }
    fn notify_own_attr_changed(&self, _attr: AttrId) {}
}

impl ReadContext for Ctx {
    fn attr(&self) -> &AttrDetails {
        &self.attr
    }
}

fn ctx(fabric: u8, endpoint: u16) -> Ctx {
    Ctx { cmd: CmdDetails { endpoint_id: endpoint, fab_idx: fabric }, attr: AttrDetails { endpoint_id: endpoint, fab_idx: fabric } }
}

/// Every endpoint is in every group, every attribute is scenable, and every scene is applied.
struct Host;

impl GroupMembership for Host {
    fn is_member(&self, _fabric: NonZeroU8, _group: u16, _endpoint: EndptId) -> Result<bool, Error> {
        Ok(true)
    }
}

impl SceneClusters for Host {
    fn capture<P: TLVBuilderParent>(&self, _endpoint: EndptId, mut parent: P) -> Result<P, Error> {
        parent.writer().write_raw_data(FIELDS[..15].iter().copied())?;
        Ok(parent)
    }
    fn check_scenable(&self, _cluster: ClusterId, _attribute: AttrId) -> Option<bool> {
        Some(true)
    }
    async fn apply<C: HandlerContext>(
        &self,
        _ctx: &C,
        _endpoint: EndptId,
        _cluster: ClusterId,
        _list: &TLVArray<'_, AttributeValuePairStruct<'_>>,
        _time: u32,
    ) -> Result<bool, Error> {
        Ok(true)
    }
}

/// Where the field bytes of a view go: nowhere, as our view hands out a position.
struct Nowhere;

impl TLVWrite for Nowhere {
    type Position = ();

    fn write(&mut self, _byte: u8) -> Result<(), Error> {
        Ok(())
    }
    fn get_tail(&self) {}
    fn rewind_to(&mut self, _pos: ()) {}
}

/// Nothing here ever waits.
fn at_once<F: Future>(future: F) -> F::Output {
    match pin!(future).poll(&mut Context::from_waker(Waker::noop())) {
        Poll::Ready(result) => result,
        Poll::Pending => unreachable!(),
    }
}

pub struct Published<const N: usize> {
    now: ScenesState<N>,
    kept: ScenesState<N>,
    ids: Out<[u8; 1024]>,
    blob: Blob,
}

/// The status of a call with a response that is dropped.
macro_rules! answered {
    ($self:ident, $at:expr, $method:ident, $builder:ident, $request:expr) => {{
        let response = $builder::new(TLVWriteParent::new("", Nowhere), &TLVTag::Anonymous).unwrap();
        match at_once($self.handler().$method(ctx($at.fabric, $at.endpoint), $request, response)) {
            Ok(_) => status(),
            Err(_) => u8::MAX,
        }
    }};
}

/// The status of a call whose response has bytes, which go to the buffer.
macro_rules! written {
    ($self:ident, $at:expr, $method:ident, $builder:ident, $request:expr) => {{
        $self.ids.len = 0;
        let handler = ScenesHandler::new(Dataver::new(0), &Host, &$self.now, Host);
        let response = $builder::new(TLVWriteParent::new("", &mut $self.ids), &TLVTag::Anonymous).unwrap();
        match at_once(handler.$method(ctx($at.fabric, $at.endpoint), $request, response)) {
            Ok(_) => status(),
            Err(_) => u8::MAX,
        }
    }};
}

impl<const N: usize> Published<N> {
    pub fn new() -> Self {
        let ids = Out { bytes: [0; 1024], len: 0 };
        Self { now: ScenesState::new(), kept: ScenesState::new(), ids, blob: Blob::new(image_max(N)) }
    }

    fn handler(&self) -> ScenesHandler<'_, N, Host> {
        ScenesHandler::new(Dataver::new(0), &Host, &self.now, Host)
    }
}

impl<const N: usize> Side for Published<N> {
    #[inline(never)]
    fn add(&mut self, key: SceneKey, fields: Fields) -> u8 {
        let request = AddSceneRequest { group: key.group, scene: key.scene, time: TIME, sets: driver::sets(fields) };
        answered!(self, key, handle_add_scene, AddSceneResponseBuilder, request)
    }
    #[inline(never)]
    fn store(&mut self, key: SceneKey) -> u8 {
        let request = StoreSceneRequest { group_id: key.group, scene_id: key.scene, life: PhantomData };
        answered!(self, key, handle_store_scene, StoreSceneResponseBuilder, request)
    }
    #[inline(never)]
    fn view(&mut self, key: SceneKey) -> u8 {
        let request = ViewSceneRequest { group_id: key.group, scene_id: key.scene, life: PhantomData };
        answered!(self, key, handle_view_scene, ViewSceneResponseBuilder, request)
    }
    #[inline(never)]
    fn view_fields(&mut self, key: SceneKey) -> u8 {
        let request = ViewSceneRequest { group_id: key.group, scene_id: key.scene, life: PhantomData };
        written!(self, key, handle_view_scene, ViewSceneResponseBuilder, request)
    }
    #[inline(never)]
    fn remove(&mut self, key: SceneKey) -> u8 {
        let request = RemoveSceneRequest { group_id: key.group, scene_id: key.scene, life: PhantomData };
        answered!(self, key, handle_remove_scene, RemoveSceneResponseBuilder, request)
    }
    #[inline(never)]
    fn remove_all(&mut self, key: GroupKey) -> u8 {
        let request = RemoveAllScenesRequest { group_id: key.group, life: PhantomData };
        answered!(self, key, handle_remove_all_scenes, RemoveAllScenesResponseBuilder, request)
    }
    #[inline(never)]
    fn copy(&mut self, copy: CopyRequest) -> u8 {
        let request = CopySceneRequest {
            mode: CopyModeBitmap(copy.mode),
            group_identifier_from: copy.from.group,
            scene_identifier_from: copy.from.scene,
            group_identifier_to: copy.to.group,
            scene_identifier_to: copy.to.scene,
            life: PhantomData,
        };
        answered!(self, copy, handle_copy_scene, CopySceneResponseBuilder, request)
    }
    #[inline(never)]
    fn recall(&mut self, key: SceneKey) -> u8 {
        let request = RecallSceneRequest { group_id: key.group, scene_id: key.scene, life: PhantomData };
        match at_once(self.handler().handle_recall_scene(ctx(key.fabric, key.endpoint), request)) {
            Ok(()) => 0,
            Err(e) if e.code() == ErrorCode::NotFound => 0x8B,
            Err(_) => u8::MAX,
        }
    }
    #[inline(never)]
    fn membership(&mut self, key: GroupKey) -> u8 {
        let request = GetSceneMembershipRequest { group_id: key.group, life: PhantomData };
        written!(self, key, handle_get_scene_membership, GetSceneMembershipResponseBuilder, request)
    }
    #[inline(never)]
    fn info(&mut self, key: GroupKey) -> u8 {
        let all = SceneInfoStructArrayBuilder::new(TLVWriteParent::new("", Nowhere), &TLVTag::Anonymous).unwrap();
        let read = at_once(self.handler().fabric_scene_info(ctx(key.fabric, key.endpoint), ArrayAttributeRead::ReadAll(all)));
        if read.is_ok() {
            0
        } else {
            u8::MAX
        }
    }
    #[inline(never)]
    fn notice(&mut self, endpoint: u16) -> u8 {
        self.now.scenable_attribute_changed(endpoint);
        0
    }
    #[inline(never)]
    fn remove_fabric(&mut self, fabric: u8) -> u8 {
        let Some(fab_idx) = NonZeroU8::new(fabric) else { return 1 };
        if self.handler().lifecycle(ctx(0, 0), LifecycleOp::FabricRemoval { fab_idx }).is_ok() {
            0
        } else {
            u8::MAX
        }
    }
    #[inline(never)]
    fn save(&mut self) -> u8 {
        if self.now.save(&&self.blob).is_ok() {
            0
        } else {
            u8::MAX
        }
    }
    #[inline(never)]
    fn load(&mut self) -> u8 {
        if self.handler().lifecycle(&self.blob, LifecycleOp::Startup).is_ok() {
            0
        } else {
            u8::MAX
        }
    }
    fn image(&self) -> Vec<u8> {
        self.blob.image()
    }
    fn put_image(&mut self, image: &[u8]) {
        self.blob.put_image(image);
    }
    fn keep(&mut self) {
        // SAFETY: a table is numbers and arrays of them, with nothing that a copy would share.
        unsafe { std::ptr::copy_nonoverlapping(&self.now, &mut self.kept, 1) }
    }
    fn restore(&mut self) {
        // SAFETY: as above.
        unsafe { std::ptr::copy_nonoverlapping(&self.kept, &mut self.now, 1) }
    }
}
