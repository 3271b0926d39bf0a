//! What the table answers.
use core::fmt;

/// A refusal, with the number that the table answers.
#[repr(u8)]
#[derive(Clone, Copy, Debug, PartialEq, Eq, Hash)]
pub enum Error {
    /// Fabric 0.
    NoFabric = 1,
    /// The host could not tell the membership.
    MembershipFailed = 2,
    /// Captured bytes over 127.
    CaptureTooLong = 3,
    /// The host could not apply a recalled scene.
    ApplyFailed = 4,
    /// Info asked for one list element.
    SingleElement = 5,
    /// A head or the memory is not that of a table, or of memberships.
    Unsound = 6,
    /// A pair byte above 2.
    BadPair = 7,
    /// The buffer is shorter than the scene list, than the image or than the list of pairs.
    BufferTooShort = 8,
    /// No image, or one of a larger table.
    BadImage = 9,
    /// An image with a key twice, with two records of a fabric, or with scene 0 or 255.
    ClashingImage = 10,
    /// Field bytes that are no list of extension field sets, or another number of pairs than of pair bytes.
    BadFieldSets = 11,
    /// All memberships are taken, and the one that is to be joined is new.
    MembershipsFull = 12,
    /// Not a member of the group; an attribute that is not scenable. A status of Matter, as the three below.
    InvalidCommand = 0x85,
    /// Scene 0 or 255; a time above 60,000,000; group 0 joined or left.
    ConstraintError = 0x87,
    /// Fields over 128 bytes; no place; a copy, in share mode any new scene, with nothing remaining.
    InsufficientSpace = 0x89,
    /// No such scene, or no such membership.
    NotFound = 0x8B,
}

impl Error {
    const ALL: [Error; 16] = [
        Error::NoFabric,
        Error::MembershipFailed,
        Error::CaptureTooLong,
        Error::ApplyFailed,
        Error::SingleElement,
        Error::Unsound,
        Error::BadPair,
        Error::BufferTooShort,
        Error::BadImage,
        Error::ClashingImage,
        Error::BadFieldSets,
        Error::MembershipsFull,
        Error::InvalidCommand,
        Error::ConstraintError,
        Error::InsufficientSpace,
        Error::NotFound,
    ];

    /// The number of the refusal.
    ///
    /// ```
    /// assert_eq!(scenes::Error::NotFound.number(), 0x8B);
    /// ```
    pub const fn number(self) -> u8 {
        self as u8
    }

    /// The status of Matter that the refusal is sent as, if it is one: the others are for the host.
    ///
    /// ```
    /// use scenes::Error;
    ///
    /// assert_eq!(Error::NotFound.status(), Some(0x8B));
    /// assert_eq!(Error::Unsound.status(), None);
    /// ```
    pub const fn status(self) -> Option<u8> {
        let number = self.number();
        if number < 0x80 {
            None
        } else {
            Some(number)
        }
    }

    // The calls are proved to answer no number but these; what answered another would not be this library, and is not to be trusted.
    pub(crate) fn of(status: u8) -> Error {
        let mut rest = Error::ALL.iter();
        *rest.find(|e| e.number() == status).unwrap_or(&Error::Unsound)
    }
}

impl fmt::Display for Error {
    fn fmt(&self, f: &mut fmt::Formatter<'_>) -> fmt::Result {
        f.write_str(match self {
            Error::NoFabric => "no fabric",
            Error::MembershipFailed => "the membership could not be told",
            Error::CaptureTooLong => "captured bytes over 127",
            Error::ApplyFailed => "the scene could not be applied",
            Error::SingleElement => "one list element was asked for",
            Error::Unsound => "the table or the memberships are not sound",
            Error::BadPair => "a pair byte above 2",
            Error::BufferTooShort => "the buffer is too short",
            Error::BadImage => "no image of a table of this size",
            Error::ClashingImage => "an image that contradicts itself",
            Error::BadFieldSets => "no field sets, or not a pair byte for each pair",
            Error::MembershipsFull => "all memberships are taken",
            Error::InvalidCommand => "not in the group, or not scenable",
            Error::ConstraintError => "a scene id or a time out of range, or group 0 joined or left",
            Error::InsufficientSpace => "no room",
            Error::NotFound => "no such scene or membership",
        })
    }
}

impl core::error::Error for Error {}

/// A call succeeded.
#[must_use = "the host saves the table where `save` says so"]
#[derive(Clone, Copy, Debug, PartialEq, Eq)]
pub struct Done {
    /// Whether the host has to save the table.
    pub save: bool,
}

/// A store succeeded.
#[must_use = "the host saves the table where `save` says so"]
#[derive(Clone, Copy, Debug, PartialEq, Eq)]
pub struct Stored {
    /// Whether the host has to save the table.
    pub save: bool,
    /// How many key words were held against the wanted one: up to the first match, or all of them. For the host alone, no part of the answer
    /// to a member.
    pub compared: usize,
}

/// A scene in the table.
#[derive(Clone, Copy, Debug, PartialEq, Eq)]
pub struct Scene<'a> {
    /// Its transition time in milliseconds; of a recall's lookup, the one that counts.
    pub time: u32,
    /// Its position, which holds until the table is next written.
    pub at: usize,
    /// Its field bytes.
    pub fields: &'a [u8],
}

/// The scenes of a group.
#[derive(Clone, Copy, Debug, PartialEq, Eq)]
pub struct SceneList<'a> {
    /// The remaining capacity of the fabric, at most [`MAX_REMAINING`](crate::MAX_REMAINING).
    pub remaining: u8,
    /// The scene ids, in table order.
    pub ids: &'a [u8],
}

/// A fabric's row of FabricSceneInfo.
#[derive(Clone, Copy, Debug, PartialEq, Eq)]
pub struct InfoRow {
    /// How many scenes the fabric has on the endpoint, at most 255.
    pub count: u8,
    /// The current scene's group, 0 without one.
    pub group: u16,
    /// The current scene, 0 without one.
    pub scene: u8,
    /// Whether it is valid.
    pub valid: bool,
    /// The remaining capacity, at most [`MAX_REMAINING`](crate::MAX_REMAINING).
    pub remaining: u8,
    /// The fabric's index.
    pub fabric: u8,
}
