//! What the host answers to scenes.rs, taken from the script: group membership, the registry of
//! clusters, storage and notices.
use std::cell::{Cell, RefCell};
use std::collections::VecDeque;
use std::num::NonZeroU8;

use crate::dm::clusters::scenes::{AttributeId, AttributeValuePairStruct, SceneClusters};
use crate::dm::{
    AttrDetails, AttrId, ClusterId, CmdDetails, EndptId, GroupMembership, HandlerContext, InvokeContext, ReadContext,
};
use crate::error::{Error, ErrorCode};
use crate::persist::{Kv, KvBlobStoreAccess};
use crate::tlv::{TLVArray, TLVBuilderParent, TLVWrite};

/// Membership answers (1 yes, 0 no, else failed) in the order in which they are to be consulted.
pub struct Groups {
    answers: RefCell<VecDeque<(u16, u8)>>,
    fab: u8,
    ep: u16,
    pub said_no: Cell<bool>,
}

impl Groups {
    /// Group 0 is never consulted.
    pub fn new(fab: u8, ep: u16, answers: &[(u16, u8)]) -> Self {
        Self {
            answers: RefCell::new(answers.iter().copied().filter(|(group, _)| *group != 0).collect()),
            fab,
            ep,
            said_no: Cell::new(false),
        }
    }
}

impl GroupMembership for Groups {
    fn is_member(&self, fab: NonZeroU8, group: u16, ep: EndptId) -> Result<bool, Error> {
        let next = self.answers.borrow_mut().pop_front();
        let (asked, answer) = next.expect("membership consulted once too often");
        assert_eq!((fab.get(), group, ep), (self.fab, asked, self.ep), "membership of another group");
        self.said_no.set(answer == 0);
        match answer {
            0 => Ok(false),
            1 => Ok(true),
            _ => Err(ErrorCode::HostMembership.into()),
        }
    }
}

/// What `apply` was given.
pub struct Apply {
    pub ep: u16,
    pub cluster: u32,
    pub pairs: Vec<u8>,
    pub time: u32,
}

/// The registry of clusters: pair digits, captured bytes, applied or failed.
#[derive(Default)]
pub struct Clusters {
    pub pairs: Vec<u8>,
    /// The cluster and the attribute of each pair that was asked about, in order.
    pub asked: RefCell<Vec<(ClusterId, AttrId)>>,
    pub above_2: Cell<bool>,
    pub captured: Vec<u8>,
    pub applied: bool,
    pub applies: RefCell<Vec<Apply>>,
}

impl SceneClusters for &Clusters {
    fn capture<P: TLVBuilderParent>(&self, _ep: EndptId, mut parent: P) -> Result<P, Error> {
        parent.writer().write_raw_data(self.captured.iter().copied())?;
        Ok(parent)
    }

    fn check_scenable(&self, cluster: ClusterId, attribute: AttrId) -> Option<bool> {
        let at = self.asked.borrow().len();
        self.asked.borrow_mut().push((cluster, attribute));
        match self.pairs.get(at) {
            Some(0) => Some(false),
            Some(1) => Some(true),
            Some(2) | None => None,
            Some(_) => {
                // The Rust has no such answer: the walk is ended, and the harness answers fault 7.
                self.above_2.set(true);
                Some(false)
            }
        }
    }

    async fn apply<C: HandlerContext>(
        &self,
        _ctx: &C,
        ep: EndptId,
        cluster: ClusterId,
        list: &TLVArray<'_, AttributeValuePairStruct<'_>>,
        time: u32,
    ) -> Result<bool, Error> {
        let pairs = list.element().raw_value().map(|bytes| bytes.to_vec()).unwrap_or_default();
        self.applies.borrow_mut().push(Apply { ep, cluster, pairs, time });
        if self.applied {
            Ok(true)
        } else {
            Err(ErrorCode::HostApply.into())
        }
    }
}

pub struct Ctx<'a> {
    kv: &'a Kv,
    cmd: CmdDetails,
    attr: AttrDetails,
    notified: &'a Cell<u32>,
}

impl<'a> Ctx<'a> {
    pub fn new(kv: &'a Kv, notified: &'a Cell<u32>, fab: u8, ep: u16) -> Self {
        Self {
            kv,
            cmd: CmdDetails { endpoint_id: ep, fab_idx: fab },
            attr: AttrDetails { endpoint_id: ep, fab_idx: fab },
            notified,
        }
    }
}

impl HandlerContext for Ctx<'_> {
    fn kv(&self) -> impl KvBlobStoreAccess + '_ {
        self.kv
    }
}

impl InvokeContext for Ctx<'_> {
    fn cmd(&self) -> &CmdDetails {
        &self.cmd
    }

    fn notify_own_attr_changed(&self, attr: AttrId) {
        assert_eq!(attr, AttributeId::FabricSceneInfo as u32);
        self.notified.set(self.notified.get() + 1);
    }
}

impl ReadContext for Ctx<'_> {
    fn attr(&self) -> &AttrDetails {
        &self.attr
    }
}
