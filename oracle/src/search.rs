//! Stores: how many key words one held against the wanted one. The Rust tells no such count; it is decided here, by the
//! definition.
//!
//! Document 02, Q-6: "A store also tells the host how many key words it held against the wanted one: the first match's position,
//! from 0, plus 1, or the entry count without one, and 0 at any refusal. This is no part of a member's answer."
use crate::probe::Probe;
use crate::script::Call;

/// What a store would tell if it is taken, from the table before it; none of any other call.
pub fn held(call: &Call, table: &impl Probe) -> Option<usize> {
    let Call::Store(at, ..) = call else {
        return None;
    };
    let position = table.find_position(at.fab, at.ep, at.group, at.scene);
    Some(position.map_or(table.counts().0, |position| position + 1))
}

/// What it tells, by the status that it was answered. Every status but 00 is a refusal.
pub fn told(held: usize, status: &str) -> usize {
    if status == "00" {
        held
    } else {
        0
    }
}
