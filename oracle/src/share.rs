//! Share mode: whether the share, and nothing else, refuses an add or a store. The Rust has no such mode; this is decided
//! here, by the definition.
//!
//! Document 02, Q-5: "Add and store gain a share mode, fixed when the box is made. In it a new key is refused with 0x89, at the
//! place where a full table is, when the remaining capacity is 0; an add or store that overwrites is never refused for this."
use crate::probe::{Entry, Probe};
use crate::script::{Add, Address, Call};

/// Bit 0 of a table's modes. The other bits mean nothing.
pub fn is_share_mode(modes: u8) -> bool {
    modes % 2 == 1
}

/// min(sat(sat(N - 1) / 2 - used), N - entries), not cut. Used counts the fabric's entries on all endpoints.
fn room(size: usize, entries: &[Entry], fab: u8) -> usize {
    let used = entries.iter().filter(|e| e.fab == fab).count();
    let share = size.saturating_sub(1) / 2;
    share.saturating_sub(used).min(size - entries.len())
}

/// What add and store both test on the request alone: fabric 0 is fault 1, scene 0 or 255 is 0x87, membership no is 0x85 and
/// failed fault 2. Group 0 needs no membership answer.
fn may_write(at: &Address, member: u8) -> bool {
    at.fab != 0 && at.scene != 0 && at.scene != 255 && (at.group == 0 || member == 1)
}

/// Besides: time above 60,000,000 is 0x87, a pair byte other than 1 and 2 is 0x85 or fault 7, fields over 128 are 0x89.
fn add_passes(add: &Add) -> bool {
    may_write(&add.at, add.member)
        && add.time <= 60_000_000
        && add.pairs.iter().all(|pair| matches!(pair, 1 | 2))
        && add.fields.len() <= 128
}

/// Besides: captured bytes over 127 are fault 3.
fn store_passes(at: &Address, member: u8, captured: &[u8]) -> bool {
    may_write(at, member) && captured.len() <= 127
}

/// The key of an add or a store that passes every test on the request alone. What is left is upsert.
fn upserted(call: &Call) -> Option<&Address> {
    match call {
        Call::Add(add) if add_passes(add) => Some(&add.at),
        Call::Store(at, member, captured) if store_passes(at, *member, captured) => Some(at),
        _ => None,
    }
}

/// Whether in a table in share mode only the share refuses a call: the request passes, its key is new, the table is not full,
/// and the fabric has no room.
pub fn alone_refuses(call: &Call, size: usize, table: &impl Probe) -> bool {
    let Some(at) = upserted(call) else {
        return false;
    };
    let entries = table.dump().entries;
    let is_known = entries.iter().any(|e| (e.fab, e.ep, e.group, e.scene) == (at.fab, at.ep, at.group, at.scene));
    !is_known && entries.len() < size && room(size, &entries, at.fab) == 0
}
