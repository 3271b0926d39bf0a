//! The scene table of Scenes Management, as a Matter device keeps it: rs-matter's `scenes.rs`, ported to Rattle and proved.
//!
//! [`Scenes`] owns the table's memory and has a method for each call of the proved library. There is no heap, no global and no panic:
//! each call answers, whatever its inputs. A refusal is an [`Error`] with the number that the table's requirements give it, and changes
//! nothing, apart from a whole-group copy that runs out midway.
//!
//! ```
//! use scenes::{Error, Membership, SceneKey, Scenes};
//!
//! let mut table = Scenes::<16>::new();
//! let key = SceneKey { fabric: 1, endpoint: 1, group: 0, scene: 5 };
//!
//! let stored = table.store(key, Membership::Yes, b"\x15\x18")?;
//! assert!(stored.save);
//! assert_eq!(table.view(key, Membership::Yes)?.fields, b"\x15\x18\x18");
//!
//! table.remove_fabric(1)?;
//! assert_eq!(table.view(key, Membership::Yes), Err(Error::NotFound));
//! # Ok::<(), Error>(())
//! ```
//!
//! A host that has raw field bytes and no list of their pairs adds by [`Scenes::add_read`], which reads the pairs out of them and asks
//! about each; [`field_items`], [`field_pairs`] and [`list_pairs`] read them without a table.
//!
//! A table in share mode, in which a fabric's share limits every new scene, is made by [`Scenes::with_modes`].
//!
//! A host without a group cluster has the memberships held beside the table: [`GroupedScenes`] owns both, and its commands take no membership.
//!
//! [`Scenes`] begins sound, alone writes its memory, and so never has it tested: that each call leaves a sound table sound is proved. Memory
//! that comes from outside is tested, by [`Scenes::from_memory`] and [`Scenes::load`].
//!
//! What the proofs do not reach is the boundary itself: that the declarations in this crate are those of the library. Tests hold the
//! layouts and every argument.
#![cfg_attr(not(test), no_std)]
#![deny(missing_docs, unsafe_code)]

mod answers;
mod ffi;
mod fields;
#[cfg(test)]
mod group_tests;
mod groups;
mod requests;
mod table;
#[cfg(test)]
mod tests;

pub use answers::{Done, Error, InfoRow, Scene, SceneList, Stored};
pub use fields::{field_items, field_pairs, list_pairs, pair_of_word, pairs_max, FieldItem, FieldItems, FieldPairs};
pub use groups::{GroupedScenes, MAX_MEMBERSHIPS};
pub use requests::{modes, pair, Applied, CopyRequest, GroupKey, GroupScene, Membership, SceneKey, Transition};
pub use table::{image_max, library_version, Memory, Scenes, MAX_FIELDS, MAX_REMAINING, MAX_SCENES, MAX_TIME, STRIDE, VERSION};
