//! The functions of libhost.a, libhost_fields.a, libhost_unchecked.a and libhost_groups.a, declared as host/scenes.h, host/scenes_unchecked.h
//! and host/scenes_groups.h declare them, each behind a function of Rust: a safe one, but for the calls that ask that the table is sound.
//!
//! What the library asks of its callers across the boundary is that a pointer is valid for its count, that no two arrays overlap and that
//! nobody else touches them meanwhile: slices and exclusive references have all that.
#![allow(unsafe_code)]
use crate::requests::{CopyRequest, GroupKey, SceneKey};

/// The head of a table.
#[repr(C)]
#[derive(Clone, Copy, Debug, PartialEq, Eq)]
pub(crate) struct State {
    pub size: usize,
    pub entries: usize,
    pub recorded: usize,
    pub dataver: u32,
    pub modes: u8,
}

// A truth value comes as a byte, 0 or 1. Reading it as a number asks nothing of it.

#[repr(C)]
#[derive(Clone, Copy, Debug, PartialEq, Eq)]
pub(crate) struct Outcome {
    pub state: State,
    pub status: u8,
    pub save: u8,
}

#[repr(C)]
#[derive(Clone, Copy, Debug, PartialEq, Eq)]
pub(crate) struct Stored {
    pub state: State,
    pub status: u8,
    pub save: u8,
    pub compared: usize,
}

#[repr(C)]
#[derive(Clone, Copy, Debug, PartialEq, Eq)]
pub(crate) struct SceneRead {
    pub state: State,
    pub status: u8,
    pub time: u32,
    pub at: usize,
    pub len: usize,
}

#[repr(C)]
#[derive(Clone, Copy, Debug, PartialEq, Eq)]
pub(crate) struct ListRead {
    pub state: State,
    pub status: u8,
    pub remaining: u8,
    pub len: usize,
}

#[repr(C)]
#[derive(Clone, Copy, Debug, PartialEq, Eq)]
pub(crate) struct InfoRead {
    pub state: State,
    pub status: u8,
    pub present: u8,
    pub count: u8,
    pub group: u16,
    pub scene: u8,
    pub valid: u8,
    pub remaining: u8,
    pub fabric: u8,
}

#[repr(C)]
#[derive(Clone, Copy, Debug, PartialEq, Eq)]
pub(crate) struct ImageSaved {
    pub state: State,
    pub status: u8,
    pub len: usize,
}

#[repr(C)]
#[derive(Clone, Copy, Debug, PartialEq, Eq)]
pub(crate) struct FieldBytes {
    pub offset: usize,
    pub len: usize,
}

/// Where the reader of field bytes stands: all zeros at the start.
#[repr(C)]
#[derive(Clone, Copy, Debug, PartialEq, Eq)]
pub(crate) struct Cursor {
    pub pair: usize,
    pub left: usize,
    pub set: usize,
}

#[repr(C)]
#[derive(Clone, Copy, Debug, PartialEq, Eq)]
pub(crate) struct FieldItem {
    pub kind: u8,
    pub number: u32,
    pub cursor: Cursor,
}

#[repr(C)]
#[derive(Clone, Copy)]
pub(crate) struct PairsRead {
    pub status: u8,
    pub len: usize,
}

/// The head of memberships.
#[repr(C)]
#[derive(Clone, Copy, Debug, PartialEq, Eq)]
pub(crate) struct GroupsState {
    pub held: usize,
}

#[repr(C)]
#[derive(Clone, Copy, Debug, PartialEq, Eq)]
pub(crate) struct GroupsOutcome {
    pub status: u8,
    pub state: GroupsState,
}

#[repr(C)]
#[derive(Clone, Copy, Debug, PartialEq, Eq)]
pub(crate) struct GroupRead {
    pub status: u8,
    pub held: u8,
}

#[repr(C)]
#[derive(Clone, Copy, Debug, PartialEq, Eq)]
pub(crate) struct BothOutcome {
    pub state: State,
    pub groups: GroupsState,
    pub status: u8,
    pub save: u8,
}

/// The lent memory, to be read.
#[derive(Clone, Copy)]
pub(crate) struct Lent<'a> {
    pub keys: &'a [u64],
    pub times: &'a [u32],
    pub fields: &'a [u8],
    pub records: &'a [u64],
}

/// The lent memory, to be written.
pub(crate) struct LentMut<'a> {
    pub keys: &'a mut [u64],
    pub times: &'a mut [u32],
    pub fields: &'a mut [u8],
    pub records: &'a mut [u64],
}

/// Lent memberships with their head, to be read.
#[derive(Clone, Copy)]
pub(crate) struct Groups<'a> {
    pub state: GroupsState,
    pub words: &'a [u64],
}

/// The same, to be written.
pub(crate) struct GroupsMut<'a> {
    pub state: GroupsState,
    pub words: &'a mut [u64],
}

extern "C" {
    fn scenes_version() -> u32;
    fn scenes_new(size: usize) -> State;
    fn scenes_new_with_modes(size: usize, modes: u8) -> State;
    fn scenes_next_item(bytes: *const u8, bytes_len: usize, cursor: Cursor) -> FieldItem;
    fn scenes_list_pairs(bytes: *const u8, bytes_len: usize, pairs: *mut u64, pairs_len: usize) -> PairsRead;
}

/// The version of the library.
pub(crate) fn version() -> u32 {
    // SAFETY: nothing goes in, and any number is a version.
    unsafe { scenes_version() }
}

/// The head of an empty table without modes.
pub(crate) fn new(size: usize) -> State {
    // SAFETY: a number goes in, and any bytes are a head.
    unsafe { scenes_new(size) }
}

/// The head of an empty table with modes.
pub(crate) fn new_with_modes(size: usize, modes: u8) -> State {
    // SAFETY: two numbers go in, and any bytes are a head.
    unsafe { scenes_new_with_modes(size, modes) }
}

/// The item of field bytes at a cursor.
pub(crate) fn next_item(bytes: &[u8], cursor: Cursor) -> FieldItem {
    // SAFETY: the pointer and the count are a slice's, any numbers are a cursor, and any bytes are an item.
    unsafe { scenes_next_item(bytes.as_ptr(), bytes.len(), cursor) }
}

/// The pairs of field bytes, into the front of a buffer.
pub(crate) fn list_pairs(bytes: &[u8], pairs: &mut [u64]) -> PairsRead {
    // SAFETY: pointers and counts are two slices', of which the one that is written is borrowed exclusively; any bytes are an answer.
    unsafe { scenes_list_pairs(bytes.as_ptr(), bytes.len(), pairs.as_mut_ptr(), pairs.len()) }
}

// The declaration of a call: the head, the lent memory, and what else it takes.
macro_rules! declared {
    ($p:ident: $symbol:ident($($as:ty),*) -> $answer:ty) => {
        extern "C" {
            fn $symbol(
                state: State,
                keys: $p!(u64),
                keys_len: usize,
                times: $p!(u32),
                times_len: usize,
                fields: $p!(u8),
                fields_len: usize,
                records: $p!(u64),
                records_len: usize,
                $(_: $as),*
            ) -> $answer;
        }
    };
}

macro_rules! read {
    ($of:ty) => { *const $of };
}

macro_rules! write {
    ($of:ty) => { *mut $of };
}

// The calls of a table, twice: `tested` has those of host/scenes.h, which answer 6 if the table is not sound, and `unchecked` those of
// host/scenes_unchecked.h, which ask that it is. Behind the equals sign stand both symbols, and what is passed for each of their parameters
// beyond the head and the lent memory. SAFETY of either: each pointer comes from a slice, with that slice's length; what is written is
// borrowed exclusively; and every byte pattern is a value of an answer. They are inlined, also into the crates of hosts: a call is then one call.
macro_rules! calls {
    ($($lent:ident, $at:ident, $p:ident: {
        $(fn $name:ident($($arg:ident: $ty:ty),*) -> $answer:ty = $tested:ident, $unchecked:ident($($passed:expr => $as:ty),*);)*
    })*) => {
        /// The calls that test the table. But for a load they are here for the tests.
        #[allow(dead_code)]
        pub(crate) mod tested {
            use super::*;

            $($(declared! { $p: $tested($($as),*) -> $answer }

            #[inline]
            pub(crate) fn $name(state: State, lent: $lent<'_>, $($arg: $ty),*) -> $answer {
                let (k, t, f, r) = (lent.keys, lent.times, lent.fields, lent.records);
                unsafe { $tested(state, k.$at(), k.len(), t.$at(), t.len(), f.$at(), f.len(), r.$at(), r.len(), $($passed),*) }
            })*)*
        }

        /// The calls that do not test the table. Whoever makes one says why it is sound.
        #[allow(dead_code)]
        pub(crate) mod unchecked {
            use super::*;

            $($(declared! { $p: $unchecked($($as),*) -> $answer }

            #[inline]
            pub(crate) unsafe fn $name(state: State, lent: $lent<'_>, $($arg: $ty),*) -> $answer {
                let (k, t, f, r) = (lent.keys, lent.times, lent.fields, lent.records);
                $unchecked(state, k.$at(), k.len(), t.$at(), t.len(), f.$at(), f.len(), r.$at(), r.len(), $($passed),*)
            })*)*
        }
    };
}

declared! { read: scenes_is_sound() -> u8 }

/// Whether a table is sound.
#[inline]
pub(crate) fn is_sound(state: State, lent: Lent<'_>) -> bool {
    let Lent { keys: k, times: t, fields: f, records: r } = lent;
    // SAFETY: as above.
    unsafe { scenes_is_sound(state, k.as_ptr(), k.len(), t.as_ptr(), t.len(), f.as_ptr(), f.len(), r.as_ptr(), r.len()) != 0 }
}

calls! {
    Lent, as_ptr, read: {
        fn view(key: SceneKey, member: u8) -> SceneRead = scenes_view, scenes_view_unchecked(key => SceneKey, member => u8);
        fn recall_lookup(key: SceneKey, member: u8, given: u8, time: u32) -> SceneRead
            = scenes_recall_lookup, scenes_recall_lookup_unchecked(key => SceneKey, member => u8, given => u8, time => u32);
        fn get_membership(ids: &mut [u8], key: GroupKey, member: u8) -> ListRead
            = scenes_get_membership, scenes_get_membership_unchecked(ids.as_mut_ptr() => *mut u8, ids.len() => usize, key => GroupKey, member => u8);
        fn read_info(fabric: u8, endpoint: u16, single: u8) -> InfoRead
            = scenes_read_info, scenes_read_info_unchecked(fabric => u8, endpoint => u16, single => u8);
        fn field_bytes(at: usize) -> FieldBytes = scenes_field_bytes, scenes_field_bytes_unchecked(at => usize);
        fn save_image(buffer: &mut [u8]) -> ImageSaved
            = scenes_save_image, scenes_save_image_unchecked(buffer.as_mut_ptr() => *mut u8, buffer.len() => usize);
        fn factory_reset() -> Outcome = scenes_factory_reset, scenes_factory_reset_unchecked();
        fn startup() -> Outcome = scenes_startup, scenes_startup_unchecked();
        fn fail_safe_commit() -> Outcome = scenes_fail_safe_commit, scenes_fail_safe_commit_unchecked();
        fn fail_safe_expiry() -> Outcome = scenes_fail_safe_expiry, scenes_fail_safe_expiry_unchecked();
    }

    // A recall and an attribute notice write the records alone; for them the header has the other three as constant.
    LentMut, as_mut_ptr, write: {
        fn add(key: SceneKey, time: u32, member: u8, pairs: &[u8], ext: &[u8]) -> Outcome
            = scenes_add, scenes_add_unchecked(
                key => SceneKey, time => u32, member => u8,
                pairs.as_ptr() => *const u8, pairs.len() => usize, ext.as_ptr() => *const u8, ext.len() => usize
            );
        fn add_read(key: SceneKey, time: u32, member: u8, pairs: &[u8], ext: &[u8]) -> Outcome
            = scenes_add_read, scenes_add_read_unchecked(
                key => SceneKey, time => u32, member => u8,
                pairs.as_ptr() => *const u8, pairs.len() => usize, ext.as_ptr() => *const u8, ext.len() => usize
            );
        fn store(key: SceneKey, member: u8, captured: &[u8]) -> Stored
            = scenes_store, scenes_store_unchecked(key => SceneKey, member => u8, captured.as_ptr() => *const u8, captured.len() => usize);
        fn recall(key: SceneKey, member: u8, applied: u8) -> Outcome
            = scenes_recall, scenes_recall_unchecked(key => SceneKey, member => u8, applied => u8);
        fn remove(key: SceneKey, member: u8) -> Outcome = scenes_remove, scenes_remove_unchecked(key => SceneKey, member => u8);
        fn remove_all(key: GroupKey, member: u8) -> Outcome = scenes_remove_all, scenes_remove_all_unchecked(key => GroupKey, member => u8);
        fn copy(request: CopyRequest, source: u8, target: u8) -> Outcome
            = scenes_copy, scenes_copy_unchecked(request => CopyRequest, source => u8, target => u8);
        fn attribute_changed(endpoint: u16) -> Outcome = scenes_attribute_changed, scenes_attribute_changed_unchecked(endpoint => u16);
        fn remove_fabric(fabric: u8) -> Outcome = scenes_remove_fabric, scenes_remove_fabric_unchecked(fabric => u8);
        fn load_image(image: &[u8]) -> Outcome
            = scenes_load_image, scenes_load_image_unchecked(image.as_ptr() => *const u8, image.len() => usize);
    }
}

extern "C" {
    fn scenes_groups_new() -> GroupsState;
    fn scenes_groups_is_sound(groups: GroupsState, words: *const u64, words_len: usize) -> u8;
    fn scenes_join(groups: GroupsState, words: *mut u64, words_len: usize, key: GroupKey) -> GroupsOutcome;
    fn scenes_is_member(groups: GroupsState, words: *const u64, words_len: usize, key: GroupKey) -> GroupRead;
}

// The calls of memberships and of a table beside them: all of host/scenes_groups.h. Each tests what it is lent. SAFETY: as above. The words are
// borrowed exclusively where they are written.
macro_rules! group_calls {
    ($($lent:ident, $at:ident, $p:ident, $groups:ident, $words_at:ident, $words_p:ident: {
        $(fn $name:ident($($arg:ident: $ty:ty),*) -> $answer:ty = $symbol:ident($($passed:expr => $as:ty),*);)*
    })*) => {
        /// The calls that are lent memberships.
        #[allow(dead_code)]
        pub(crate) mod groups {
            use super::*;

            /// The head of no memberships.
            pub(crate) fn new() -> GroupsState {
                // SAFETY: nothing goes in, and any bytes are a head.
                unsafe { scenes_groups_new() }
            }

            /// Whether memberships are sound.
            pub(crate) fn is_sound(groups: Groups<'_>) -> bool {
                unsafe { scenes_groups_is_sound(groups.state, groups.words.as_ptr(), groups.words.len()) != 0 }
            }

            /// Joins a group.
            pub(crate) fn join(groups: GroupsMut<'_>, key: GroupKey) -> GroupsOutcome {
                unsafe { scenes_join(groups.state, groups.words.as_mut_ptr(), groups.words.len(), key) }
            }

            /// Whether a membership is held.
            pub(crate) fn is_member(groups: Groups<'_>, key: GroupKey) -> GroupRead {
                unsafe { scenes_is_member(groups.state, groups.words.as_ptr(), groups.words.len(), key) }
            }

            $($(declared! { $p: $symbol(GroupsState, $words_p!(u64), usize $(, $as)*) -> $answer }

            #[inline]
            pub(crate) fn $name(state: State, lent: $lent<'_>, groups: $groups<'_>, $($arg: $ty),*) -> $answer {
                let (k, t, f, r, w) = (lent.keys, lent.times, lent.fields, lent.records, groups.words);
                unsafe {
                    $symbol(
                        state, k.$at(), k.len(), t.$at(), t.len(), f.$at(), f.len(), r.$at(), r.len(),
                        groups.state, w.$words_at(), w.len(), $($passed),*
                    )
                }
            })*)*
        }
    };
}

group_calls! {
    Lent, as_ptr, read, Groups, as_ptr, read: {
        fn view(key: SceneKey) -> SceneRead = scenes_view_asking(key => SceneKey);
        fn recall_lookup(key: SceneKey, given: u8, time: u32) -> SceneRead
            = scenes_recall_lookup_asking(key => SceneKey, given => u8, time => u32);
        fn get_membership(ids: &mut [u8], key: GroupKey) -> ListRead
            = scenes_get_membership_asking(ids.as_mut_ptr() => *mut u8, ids.len() => usize, key => GroupKey);
        fn factory_reset() -> BothOutcome = scenes_factory_reset_and_groups();
    }

    // A recall writes the records alone; for it the header has the other three as constant.
    LentMut, as_mut_ptr, write, Groups, as_ptr, read: {
        fn add(key: SceneKey, time: u32, pairs: &[u8], ext: &[u8]) -> Outcome
            = scenes_add_asking(
                key => SceneKey, time => u32,
                pairs.as_ptr() => *const u8, pairs.len() => usize, ext.as_ptr() => *const u8, ext.len() => usize
            );
        fn add_read(key: SceneKey, time: u32, pairs: &[u8], ext: &[u8]) -> Outcome
            = scenes_add_read_asking(
                key => SceneKey, time => u32,
                pairs.as_ptr() => *const u8, pairs.len() => usize, ext.as_ptr() => *const u8, ext.len() => usize
            );
        fn store(key: SceneKey, captured: &[u8]) -> Stored
            = scenes_store_asking(key => SceneKey, captured.as_ptr() => *const u8, captured.len() => usize);
        fn recall(key: SceneKey, applied: u8) -> Outcome = scenes_recall_asking(key => SceneKey, applied => u8);
        fn remove(key: SceneKey) -> Outcome = scenes_remove_asking(key => SceneKey);
        fn remove_all(key: GroupKey) -> Outcome = scenes_remove_all_asking(key => GroupKey);
        fn copy(request: CopyRequest) -> Outcome = scenes_copy_asking(request => CopyRequest);
    }

    LentMut, as_mut_ptr, write, GroupsMut, as_mut_ptr, write: {
        fn leave(key: GroupKey) -> BothOutcome = scenes_leave(key => GroupKey);
        fn remove_fabric(fabric: u8) -> BothOutcome = scenes_remove_fabric_and_groups(fabric => u8);
    }
}
