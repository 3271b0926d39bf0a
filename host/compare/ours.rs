//! The exported calls: those that test the table, and those that leave that to its owner. A recall is its two calls.
use std::sync::atomic::{compiler_fence, Ordering};

use crate::driver::{self, Fields};
use crate::ffi::{self, tested, unchecked, Lent, LentMut, Outcome, State};
use crate::requests::modes::SHARE;
use crate::requests::{CopyRequest, GroupKey, SceneKey};
use crate::rows::{image_max, Side, FIELDS};

const STRIDE: usize = 129;
pub const YES: u8 = 1;

#[derive(Clone)]
struct Table {
    state: State,
    keys: Vec<u64>,
    times: Vec<u32>,
    fields: Vec<u8>,
    records: Vec<u64>,
}

/// A table that is tested at every call, or one whose owner alone writes it.
pub struct Ours<const TESTED: bool> {
    now: Table,
    kept: Table,
    ids: [u8; 1024],
    buffer: Vec<u8>,
    len: usize,
}

// SAFETY of an unchecked call: the table begins empty, and only calls write it.
macro_rules! call {
    ($name:ident($($passed:expr),*)) => {
        if TESTED { tested::$name($($passed),*) } else { unsafe { unchecked::$name($($passed),*) } }
    };
}

impl<const TESTED: bool> Ours<TESTED> {
    pub fn new(size: usize) -> Self {
        let now = Table {
            state: ffi::new(size),
            keys: vec![0; size],
            times: vec![0; size],
            fields: vec![0; size * STRIDE],
            records: vec![0; size],
        };
        Self { kept: now.clone(), now, ids: [0; 1024], buffer: vec![0; image_max(size)], len: 0 }
    }

    fn lend(&mut self) -> (State, LentMut<'_>) {
        let Table { state, keys, times, fields, records } = &mut self.now;
        (*state, LentMut { keys, times, fields, records })
    }

    fn lent(&self) -> Lent<'_> {
        let Table { keys, times, fields, records, .. } = &self.now;
        Lent { keys, times, fields, records }
    }

    // Keeps the head that came back, as `Scenes` of host/rust does: its counts are read one by one.
    fn keep_head(&mut self, state: State) {
        let head = &mut self.now.state;
        head.entries = state.entries;
        compiler_fence(Ordering::SeqCst);
        head.recorded = state.recorded;
        head.dataver = state.dataver;
        head.modes = state.modes;
    }

    fn done(&mut self, outcome: Outcome) -> u8 {
        self.keep_head(outcome.state);
        outcome.status
    }
}

impl<const TESTED: bool> Side for Ours<TESTED> {
    fn add(&mut self, key: SceneKey, fields: Fields) -> u8 {
        let (state, lent) = self.lend();
        let done = driver::add::<TESTED>(state, lent, key, fields);
        self.done(done)
    }
    fn add_shared(&mut self, key: SceneKey, fields: Fields) -> u8 {
        let (state, lent) = self.lend();
        let done = driver::add::<TESTED>(State { modes: SHARE, ..state }, lent, key, fields);
        self.done(done)
    }
    fn store(&mut self, key: SceneKey) -> u8 {
        let (state, lent) = self.lend();
        let stored = call!(store(state, lent, key, YES, &FIELDS[..15]));
        self.keep_head(stored.state);
        stored.status
    }
    fn view(&mut self, key: SceneKey) -> u8 {
        call!(view(self.now.state, self.lent(), key, YES)).status
    }
    fn view_fields(&mut self, key: SceneKey) -> u8 {
        let read = call!(view(self.now.state, self.lent(), key, YES));
        if read.status == 0 {
            self.ids[..read.len].copy_from_slice(&self.now.fields[read.at * STRIDE + 1..][..read.len]);
        }
        read.status
    }
    fn remove(&mut self, key: SceneKey) -> u8 {
        let (state, lent) = self.lend();
        let done = call!(remove(state, lent, key, YES));
        self.done(done)
    }
    fn remove_all(&mut self, key: GroupKey) -> u8 {
        let (state, lent) = self.lend();
        let done = call!(remove_all(state, lent, key, YES));
        self.done(done)
    }
    fn copy(&mut self, request: CopyRequest) -> u8 {
        let (state, lent) = self.lend();
        let done = call!(copy(state, lent, request, YES, YES));
        self.done(done)
    }
    fn recall(&mut self, key: SceneKey) -> u8 {
        let found = call!(recall_lookup(self.now.state, self.lent(), key, YES, 0, 0));
        if found.status != 0 {
            return found.status;
        }
        let (state, lent) = self.lend();
        let done = call!(recall(state, lent, key, YES, 1));
        self.done(done)
    }
    fn membership(&mut self, key: GroupKey) -> u8 {
        let Table { state, keys, times, fields, records } = &self.now;
        call!(get_membership(*state, Lent { keys, times, fields, records }, &mut self.ids, key, YES)).status
    }
    fn info(&mut self, key: GroupKey) -> u8 {
        call!(read_info(self.now.state, self.lent(), key.fabric, key.endpoint, 0)).status
    }
    fn notice(&mut self, endpoint: u16) -> u8 {
        let (state, lent) = self.lend();
        let done = call!(attribute_changed(state, lent, endpoint));
        self.done(done)
    }
    fn remove_fabric(&mut self, fabric: u8) -> u8 {
        let (state, lent) = self.lend();
        let done = call!(remove_fabric(state, lent, fabric));
        self.done(done)
    }
    fn save(&mut self) -> u8 {
        let Table { state, keys, times, fields, records } = &self.now;
        let saved = call!(save_image(*state, Lent { keys, times, fields, records }, &mut self.buffer));
        self.len = saved.len;
        saved.status
    }
    fn load(&mut self) -> u8 {
        let Table { state, keys, times, fields, records } = &mut self.now;
        let done = call!(load_image(*state, LentMut { keys, times, fields, records }, &self.buffer[..self.len]));
        self.done(done)
    }
    fn image(&self) -> Vec<u8> {
        self.buffer[..self.len].into()
    }
    fn put_image(&mut self, image: &[u8]) {
        self.buffer[..image.len()].copy_from_slice(image);
        self.len = image.len();
    }
    fn keep(&mut self) {
        self.kept = self.now.clone();
    }
    fn restore(&mut self) {
        let (now, kept) = (&mut self.now, &self.kept);
        now.state = kept.state;
        now.keys.copy_from_slice(&kept.keys);
        now.times.copy_from_slice(&kept.times);
        now.fields.copy_from_slice(&kept.fields);
        now.records.copy_from_slice(&kept.records);
    }
}
