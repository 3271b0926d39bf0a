//! What scenes.rs implements: one function for each command and attribute. host/compare uses it too, with requests and responses of its own.
use core::future::Future;

use super::{
    AddSceneRequest, AddSceneResponseBuilder, CopySceneRequest, CopySceneResponseBuilder, GetSceneMembershipRequest,
    GetSceneMembershipResponseBuilder, RecallSceneRequest, RemoveAllScenesRequest, RemoveAllScenesResponseBuilder,
    RemoveSceneRequest, RemoveSceneResponseBuilder, SceneInfoStructArrayBuilder, SceneInfoStructBuilder, StoreSceneRequest,
    StoreSceneResponseBuilder, ViewSceneRequest, ViewSceneResponseBuilder,
};
use crate::dm::{ArrayAttributeRead, Cluster, HandlerContext, InvokeContext, LifecycleOp, ReadContext};
use crate::error::Error;
use crate::tlv::TLVBuilderParent;

pub struct HandlerAsyncAdaptor<T>(pub T);

pub trait ClusterAsyncHandler {
    const CLUSTER: Cluster<'static>;

    fn dataver(&self) -> u32;
    fn dataver_changed(&self);
    fn lifecycle(&self, ctx: impl HandlerContext, op: LifecycleOp) -> Result<(), Error>;
    fn scene_table_size(&self, ctx: impl ReadContext) -> impl Future<Output = Result<u16, Error>>;
    fn fabric_scene_info<P: TLVBuilderParent>(
        &self,
        ctx: impl ReadContext,
        builder: ArrayAttributeRead<SceneInfoStructArrayBuilder<P>, SceneInfoStructBuilder<P>>,
    ) -> impl Future<Output = Result<P, Error>>;
    fn handle_add_scene<P: TLVBuilderParent>(
        &self,
        ctx: impl InvokeContext,
        request: AddSceneRequest<'_>,
        response: AddSceneResponseBuilder<P>,
    ) -> impl Future<Output = Result<P, Error>>;
    fn handle_view_scene<P: TLVBuilderParent>(
        &self,
        ctx: impl InvokeContext,
        request: ViewSceneRequest<'_>,
        response: ViewSceneResponseBuilder<P>,
    ) -> impl Future<Output = Result<P, Error>>;
    fn handle_remove_scene<P: TLVBuilderParent>(
        &self,
        ctx: impl InvokeContext,
        request: RemoveSceneRequest<'_>,
        response: RemoveSceneResponseBuilder<P>,
    ) -> impl Future<Output = Result<P, Error>>;
    fn handle_remove_all_scenes<P: TLVBuilderParent>(
        &self,
        ctx: impl InvokeContext,
        request: RemoveAllScenesRequest<'_>,
        response: RemoveAllScenesResponseBuilder<P>,
    ) -> impl Future<Output = Result<P, Error>>;
    fn handle_store_scene<P: TLVBuilderParent>(
        &self,
        ctx: impl InvokeContext,
        request: StoreSceneRequest<'_>,
        response: StoreSceneResponseBuilder<P>,
    ) -> impl Future<Output = Result<P, Error>>;
    fn handle_recall_scene(
        &self,
        ctx: impl InvokeContext,
        request: RecallSceneRequest<'_>,
    ) -> impl Future<Output = Result<(), Error>>;
    fn handle_get_scene_membership<P: TLVBuilderParent>(
        &self,
        ctx: impl InvokeContext,
        request: GetSceneMembershipRequest<'_>,
        response: GetSceneMembershipResponseBuilder<P>,
    ) -> impl Future<Output = Result<P, Error>>;
    fn handle_copy_scene<P: TLVBuilderParent>(
        &self,
        ctx: impl InvokeContext,
        request: CopySceneRequest<'_>,
        response: CopySceneResponseBuilder<P>,
    ) -> impl Future<Output = Result<P, Error>>;
}
