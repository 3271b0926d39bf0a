//! What a host asks of the table. The structs have the library's layout, so that they cross the boundary as they are.

/// A scene, as a command names it.
#[repr(C)]
#[derive(Clone, Copy, Debug, PartialEq, Eq, Hash)]
pub struct SceneKey {
    /// The fabric's index; 0 is none and is refused.
    pub fabric: u8,
    /// The endpoint.
    pub endpoint: u16,
    /// The group; 0 needs no membership.
    pub group: u16,
    /// The scene's id; 0 and 255 are reserved and refused.
    pub scene: u8,
}

/// A group of a fabric on an endpoint.
#[repr(C)]
#[derive(Clone, Copy, Debug, PartialEq, Eq, Hash)]
pub struct GroupKey {
    /// The fabric's index.
    pub fabric: u8,
    /// The endpoint.
    pub endpoint: u16,
    /// The group.
    pub group: u16,
}

/// A group and a scene in it: one end of a copy.
#[repr(C)]
#[derive(Clone, Copy, Debug, PartialEq, Eq, Hash)]
pub struct GroupScene {
    /// The group.
    pub group: u16,
    /// The scene's id, which a copy of a whole group does not look at.
    pub scene: u8,
}

/// What a copy asks for.
#[repr(C)]
#[derive(Clone, Copy, Debug, PartialEq, Eq, Hash)]
pub struct CopyRequest {
    /// The fabric's index.
    pub fabric: u8,
    /// The endpoint.
    pub endpoint: u16,
    /// The mode as it is sent: only [`CopyRequest::ALL`] counts.
    pub mode: u8,
    /// The source.
    pub from: GroupScene,
    /// The target.
    pub to: GroupScene,
}

impl CopyRequest {
    /// Bit 0 of the mode: all scenes of the group.
    pub const ALL: u8 = 1;
}

/// What the host's group table says of an endpoint's membership in a group. It is looked at where a command consults it, and for group 0
/// not at all.
#[derive(Clone, Copy, Debug, PartialEq, Eq)]
pub enum Membership {
    /// The endpoint is in the group.
    Yes,
    /// It is not.
    No,
    /// The host could not tell.
    Failed,
}

impl Membership {
    pub(crate) fn number(self) -> u8 {
        match self {
            Membership::No => 0,
            Membership::Yes => 1,
            Membership::Failed => 2,
        }
    }
}

/// Whether the host applied a recalled scene.
#[derive(Clone, Copy, Debug, PartialEq, Eq)]
pub enum Applied {
    /// It did.
    Yes,
    /// It could not.
    Failed,
}

impl Applied {
    pub(crate) fn number(self) -> u8 {
        match self {
            Applied::Failed => 0,
            Applied::Yes => 1,
        }
    }
}

/// The transition time of a recall.
#[derive(Clone, Copy, Debug, PartialEq, Eq)]
pub enum Transition {
    /// The scene's own.
    Stored,
    /// The request's override, in milliseconds.
    Given(u32),
}

impl Transition {
    pub(crate) fn numbers(self) -> (u8, u32) {
        match self {
            Transition::Stored => (0, 0),
            Transition::Given(time) => (1, time),
        }
    }
}

/// The pair bytes of an add: what the host says of each attribute that the scene sets. A byte above 2 is refused.
pub mod pair {
    /// The attribute is not scenable: the add is refused.
    pub const NOT_SCENABLE: u8 = 0;
    /// It is scenable.
    pub const SCENABLE: u8 = 1;
    /// The endpoint has no such cluster.
    pub const CLUSTER_UNKNOWN: u8 = 2;
}

/// The modes of a table, which are fixed when it is made. The bits that have no name here mean nothing, and are kept too.
pub mod modes {
    /// The share mode: an add or a store of a new scene is refused by 0x89 when the fabric's remaining capacity is 0, as a copy always is.
    /// One that overwrites a scene is not refused for it.
    pub const SHARE: u8 = 1;
}
