//! What nothing checks across the boundary: layouts, arguments, lengths; and a table whose memory was damaged.
// The digits of a key word are grouped by its parts.
#![allow(clippy::unusual_byte_groupings, unsafe_code)]
use crate::ffi::{
    self, BothOutcome, Cursor, FieldBytes, GroupRead, GroupsOutcome, GroupsState, ImageSaved, InfoRead, Lent, LentMut, ListRead,
    Outcome, PairsRead, SceneRead, State, Stored,
};
use crate::*;
use core::mem::{offset_of, size_of};

// The numbers are those that host/scenes.h and host/scenes_groups.h hold the C compiler to.
#[test]
fn layouts_are_those_of_the_header() {
    assert_eq!((size_of::<State>(), offset_of!(State, size), offset_of!(State, entries)), (32, 0, 8));
    assert_eq!((offset_of!(State, recorded), offset_of!(State, dataver), offset_of!(State, modes)), (16, 24, 28));
    assert_eq!((size_of::<SceneKey>(), offset_of!(SceneKey, fabric), offset_of!(SceneKey, endpoint)), (8, 0, 2));
    assert_eq!((offset_of!(SceneKey, group), offset_of!(SceneKey, scene)), (4, 6));
    assert_eq!((size_of::<GroupKey>(), offset_of!(GroupKey, endpoint), offset_of!(GroupKey, group)), (6, 2, 4));
    assert_eq!((size_of::<GroupScene>(), offset_of!(GroupScene, group), offset_of!(GroupScene, scene)), (4, 0, 2));
    assert_eq!((size_of::<CopyRequest>(), offset_of!(CopyRequest, endpoint), offset_of!(CopyRequest, mode)), (14, 2, 4));
    assert_eq!((offset_of!(CopyRequest, from), offset_of!(CopyRequest, to)), (6, 10));
    assert_eq!((size_of::<Outcome>(), offset_of!(Outcome, status), offset_of!(Outcome, save)), (40, 32, 33));
    assert_eq!((offset_of!(Outcome, state), offset_of!(SceneRead, state)), (0, 0));
    assert_eq!((size_of::<Stored>(), offset_of!(Stored, state), offset_of!(Stored, status)), (48, 0, 32));
    assert_eq!((offset_of!(Stored, save), offset_of!(Stored, compared)), (33, 40));
    assert_eq!((offset_of!(ListRead, state), offset_of!(InfoRead, state)), (0, 0));
    assert_eq!((size_of::<SceneRead>(), offset_of!(SceneRead, status), offset_of!(SceneRead, time)), (56, 32, 36));
    assert_eq!((offset_of!(SceneRead, at), offset_of!(SceneRead, len), offset_of!(ListRead, len)), (40, 48, 40));
    assert_eq!((size_of::<ListRead>(), offset_of!(ListRead, status), offset_of!(ListRead, remaining)), (48, 32, 33));
    assert_eq!((size_of::<InfoRead>(), offset_of!(InfoRead, status), offset_of!(InfoRead, present)), (48, 32, 33));
    assert_eq!((offset_of!(InfoRead, count), offset_of!(InfoRead, group), offset_of!(InfoRead, scene)), (34, 36, 38));
    assert_eq!((offset_of!(InfoRead, valid), offset_of!(InfoRead, remaining), offset_of!(InfoRead, fabric)), (39, 40, 41));
    assert_eq!((size_of::<ImageSaved>(), offset_of!(ImageSaved, status), offset_of!(ImageSaved, len)), (48, 32, 40));
    assert_eq!(offset_of!(ImageSaved, state), 0);
    assert_eq!((size_of::<FieldBytes>(), offset_of!(FieldBytes, offset), offset_of!(FieldBytes, len)), (16, 0, 8));
    assert_eq!((size_of::<Cursor>(), offset_of!(Cursor, pair), offset_of!(Cursor, left), offset_of!(Cursor, set)), (24, 0, 8, 16));
    assert_eq!((size_of::<ffi::FieldItem>(), offset_of!(ffi::FieldItem, kind)), (32, 0));
    assert_eq!((offset_of!(ffi::FieldItem, number), offset_of!(ffi::FieldItem, cursor)), (4, 8));
    assert_eq!((size_of::<PairsRead>(), offset_of!(PairsRead, status), offset_of!(PairsRead, len)), (16, 0, 8));
    assert_eq!((size_of::<GroupsState>(), offset_of!(GroupsState, held)), (8, 0));
    assert_eq!((size_of::<GroupsOutcome>(), offset_of!(GroupsOutcome, status), offset_of!(GroupsOutcome, state)), (16, 0, 8));
    assert_eq!((size_of::<GroupRead>(), offset_of!(GroupRead, status), offset_of!(GroupRead, held)), (2, 0, 1));
    assert_eq!((size_of::<BothOutcome>(), offset_of!(BothOutcome, state), offset_of!(BothOutcome, groups)), (48, 0, 32));
    assert_eq!((offset_of!(BothOutcome, status), offset_of!(BothOutcome, save)), (40, 41));
}

#[test]
fn the_memory_of_a_table_is_its_arrays() {
    assert_eq!(size_of::<Memory<16>>(), 16 * (8 + 4 + 129 + 8) + 24);
    assert_eq!(Scenes::<16>::new().lent().fields.len(), 16 * STRIDE);
}

// Sixteen places, a scene of fabric 0x12 that is its current one, and a scene of fabric 0x34.
fn two() -> Scenes<16> {
    let mut table = Scenes::new();
    let first = SceneKey { fabric: 0x12, endpoint: 0x3456, group: 0x789A, scene: 0xBC };
    let second = SceneKey { fabric: 0x34, endpoint: 0x5678, group: 0x9ABC, scene: 0xDE };
    assert!(table.store(first, Membership::Yes, &[1, 2, 3]).is_ok());
    assert!(table.add(second, 0x0123_4567 >> 1, Membership::Yes, &[1], &[7; MAX_FIELDS]).is_ok());
    table
}

// Every part of a key has another byte, so that a part at the wrong place would show.
#[test]
fn keys_and_times_arrive_whole() {
    let memory = two().memory;
    assert_eq!(memory.keys[..2], [0x12_3456_789A_BC, 0x34_5678_9ABC_DE]);
    assert_eq!(memory.times[..2], [0, 0x0123_4567 >> 1]);
    assert_eq!(memory.fields[0][..5], [4, 1, 2, 3, 0x18]);
    assert_eq!(memory.fields[1][..], [&[128][..], &[7; 128]].concat());
    assert_eq!(memory.records[0], 0x1_12_3456_789A_BC);
    assert_eq!((memory.entries, memory.recorded, memory.dataver), (2, 1, 1));
}

#[test]
fn the_head_comes_back_whole() {
    let mut table = two();
    table.memory.dataver = u32::MAX;
    table.memory.modes = 0xA5;
    let read = ffi::tested::view(table.state(), table.lent(), SceneKey { fabric: 9, endpoint: 9, group: 0, scene: 9 }, 1);
    assert_eq!((read.status, read.time, read.at, read.len), (0x8B, 0, MAX_SCENES, 0));
    assert_eq!(read.state, State { size: 16, entries: 2, recorded: 1, dataver: u32::MAX, modes: 0xA5 });
    assert!(table.factory_reset().is_ok());
    assert_eq!(table.state(), State { size: 16, entries: 0, recorded: 0, dataver: 0, modes: 0xA5 });
}

// Every byte is the head's modes as it was handed over, and bit 0 alone decides: three places give a fabric one.
#[test]
fn modes_arrive() {
    let key = |scene| SceneKey { fabric: 0x12, endpoint: 0x3456, group: 0x789A, scene };
    for modes in 0..=255 {
        let mut table = Scenes::<3>::with_modes(modes);
        assert_eq!(table.state(), State { size: 3, entries: 0, recorded: 0, dataver: 0, modes });
        assert!(table.add(key(1), 0, Membership::Yes, &[], &[]).is_ok());
        let second = table.add(key(2), 0, Membership::Yes, &[], &[]);
        assert_eq!(second.map_err(Error::number), if modes % 2 == 0 { Ok(Done { save: true }) } else { Err(0x89) });
        assert_eq!(table.modes(), modes);
    }
    assert_eq!(ffi::new_with_modes(usize::MAX, 0xA5), State { size: usize::MAX, entries: 0, recorded: 0, dataver: 0, modes: 0xA5 });
    assert_eq!(ffi::new(3), ffi::new_with_modes(3, 0));
}

// A refused store of a scene that is there, and one for which there is no place, count nothing.
#[test]
fn a_refused_store_counts_none() {
    let (keys, times, fields, records) = (&mut [0; 2], &mut [0; 2], &mut [0; 2 * STRIDE], &mut [0; 2]);
    let mut state = ffi::new(2);
    let mut stored = |scene, member, captured: &[u8]| {
        let key = SceneKey { fabric: 0x12, endpoint: 0x3456, group: 0x789A, scene };
        let done = ffi::tested::store(state, LentMut { keys, times, fields, records }, key, member, captured);
        state = done.state;
        (done.status, done.save, done.compared)
    };
    assert_eq!([stored(1, 1, &[]), stored(2, 1, &[])], [(0, 1, 0), (0, 1, 1)]);
    assert_eq!([stored(2, 0, &[]), stored(2, 2, &[]), stored(2, 1, &[0; 128])], [(0x85, 0, 0), (2, 0, 0), (3, 0, 0)]);
    assert_eq!([stored(3, 1, &[]), stored(2, 1, &[])], [(0x89, 0, 0), (0, 1, 2)]);
}

// The length that a view and a lookup hand over is that of the field bytes at their position.
#[test]
fn lengths_of_fields_arrive() {
    let table = two();
    let first = SceneKey { fabric: 0x12, endpoint: 0x3456, group: 0x789A, scene: 0xBC };
    let second = SceneKey { fabric: 0x34, endpoint: 0x5678, group: 0x9ABC, scene: 0xDE };
    for (key, at, len) in [(first, 0, 4), (second, 1, MAX_FIELDS)] {
        let view = ffi::tested::view(table.state(), table.lent(), key, 1);
        let lookup = ffi::tested::recall_lookup(table.state(), table.lent(), key, 1, 0, 0);
        assert_eq!((view.at, view.len), (at, len));
        assert_eq!((lookup.at, lookup.len), (at, len));
        assert_eq!(table.view(key, Membership::Yes).map(|scene| scene.fields), Ok(table.field_bytes(at)));
    }
}

#[test]
fn a_copy_arrives_whole() {
    let mut table = two();
    let from = GroupScene { group: 0x789A, scene: 0xBC };
    let to = GroupScene { group: 0xFEDC, scene: 0xA9 };
    let request = CopyRequest { fabric: 0x12, endpoint: 0x3456, mode: 0xF0, from, to };
    assert_eq!(table.copy(request, Membership::Yes, Membership::Yes), Ok(Done { save: true }));
    assert_eq!(table.memory.keys[2], 0x12_3456_FEDC_A9);
    assert_eq!(table.memory.fields[2], table.memory.fields[0]);
}

// What each number means that is no name in Rust.
#[test]
fn every_number_means_something() {
    let table = two();
    let key = SceneKey { fabric: 0x12, endpoint: 0x3456, group: 0x789A, scene: 0xBC };
    for member in 0..=255 {
        let status = ffi::tested::view(table.state(), table.lent(), key, member).status;
        assert_eq!(status, [0x85, 0, 2][usize::from(member.min(2))]);
    }
    for given in 0..=255 {
        let time = ffi::tested::recall_lookup(table.state(), table.lent(), key, 1, given, 0x89AB_CDEF).time;
        assert_eq!(time, if given == 0 { 0 } else { 0x89AB_CDEF });
    }
    for applied in 0..=255 {
        let mut copy = two();
        let memory = &mut copy.memory;
        let state = State { size: 16, entries: 2, recorded: 1, dataver: 1, modes: 0 };
        let lent = LentMut {
            keys: &mut memory.keys,
            times: &mut memory.times,
            fields: memory.fields.as_flattened_mut(),
            records: &mut memory.records,
        };
        assert_eq!(ffi::tested::recall(state, lent, key, 1, applied).status, if applied == 1 { 0 } else { 4 });
    }
    for single in 0..=255 {
        assert_eq!(
            ffi::tested::read_info(table.state(), table.lent(), 0x12, 0x3456, single).status,
            if single == 0 { 0 } else { 5 }
        );
    }
}

// Cluster 0x12345678 without attributes, then cluster 0x9ABCDEF0 with attribute 0xFEDCBA98.
const WIDE: &[u8] = b"\x15\x26\x00\x78\x56\x34\x12\x36\x01\x18\x18\
    \x15\x26\x00\xF0\xDE\xBC\x9A\x36\x01\x15\x26\x00\x98\xBA\xDC\xFE\x18\x18\x18\x18";

// Each kind of item, with the cursor to go on with, which has another number in each part.
#[test]
fn items_and_cursors_arrive_whole() {
    let next = |bytes: &[u8], pair, left, set| {
        let item = ffi::next_item(bytes, Cursor { pair, left, set });
        (item.kind, item.number, item.cursor.pair, item.cursor.left, item.cursor.set)
    };
    assert_eq!(next(WIDE, 0, 0, 0), (1, 0x1234_5678, 9, 0, 11));
    assert_eq!(next(WIDE, 9, 0, 11), (1, 0x9ABC_DEF0, 20, 1, 30));
    assert_eq!(next(WIDE, 20, 1, 30), (2, 0xFEDC_BA98, 28, 0, 30));
    assert_eq!(next(WIDE, 28, 0, 30), (0, 0, 28, 0, 30));
    assert_eq!(next(&WIDE[..30], 28, 0, 30), (3, 0, 28, 0, 30));
    assert_eq!(next(&[], 5, 0, 7), (0, 0, 5, 0, 7));
    assert_eq!(next(&[], 5, 6, 7), (3, 0, 5, 6, 7));
}

// Whatever a cursor holds, there is an answer.
#[test]
fn every_cursor_is_answered() {
    let parts = [0, 1, 2, 9, 11, 20, 28, 30, 31, 32, usize::MAX / 2, usize::MAX - 1, usize::MAX];
    for pair in parts {
        for left in parts {
            for set in parts {
                let cursor = Cursor { pair, left, set };
                let item = ffi::next_item(WIDE, cursor);
                assert!(matches!(item.kind, 1 | 2) || matches!(item.kind, 0 | 3) && (item.number, item.cursor) == (0, cursor));
            }
        }
    }
}

// A set of cluster 7 with so many pairs.
pub(crate) fn pairs_of_seven(count: usize) -> Vec<u8> {
    [&b"\x15\x24\x00\x07\x36\x01"[..], &b"\x15\x24\x00\x01\x18".repeat(count), b"\x18\x18\x18"].concat()
}

// So many pairs: bytes that say scenable, then this one, then others.
fn asking_is_as_answered(count: usize, at: usize, byte: u8, member: Membership) {
    let key = SceneKey { fabric: 0x12, endpoint: 0x3456, group: 0x789A, scene: 0xBD };
    let fields = pairs_of_seven(count);
    let mut pairs = vec![1; count];
    pairs.iter_mut().skip(at).for_each(|pair| *pair = byte);
    pairs.iter_mut().skip(at + 1).for_each(|pair| *pair = 3 - byte.min(3));
    let (mut answered, mut asking) = (two(), two());
    let mut asked = 0;
    let answer = asking.add_read(key, 5, member, &fields, |cluster, attribute| {
        assert_eq!((cluster, attribute), (7, 1));
        asked += 1;
        pairs[asked - 1]
    });
    assert_eq!(asked, count);
    assert_eq!(answer, answered.add_answered(key, 5, member, &pairs, &fields));
    assert_eq!(asking, answered);
}

// The pairs that a scene has room for, and more: an add that asks is the library's add with all the pair bytes.
#[test]
fn an_add_that_asks_is_the_one_that_is_answered() {
    for count in [0, 1, 2, 23, 24, 25, 26, 27, 100, 1000] {
        for at in [0, 1, count / 2, count] {
            for byte in [0, 1, 2, 3, 255] {
                for member in [Membership::No, Membership::Yes, Membership::Failed] {
                    asking_is_as_answered(count, at, byte, member);
                }
            }
        }
    }
}

// Each slice one element short of N, and each exactly N.
#[test]
fn lengths_arrive() {
    let table = two();
    let whole = table.lent();
    let sound = |lent| ffi::is_sound(table.state(), lent);
    assert!(sound(whole));
    assert!(!sound(Lent { keys: &whole.keys[1..], ..whole }));
    assert!(!sound(Lent { times: &whole.times[1..], ..whole }));
    assert!(!sound(Lent { fields: &whole.fields[..16 * STRIDE - 1], ..whole }));
    assert!(!sound(Lent { records: &whole.records[1..], ..whole }));
    assert!(!sound(Lent { keys: &[], times: &[], fields: &[], records: &[] }));
    assert!(ffi::is_sound(ffi::new(0), Lent { keys: &[], times: &[], fields: &[], records: &[] }));
}

// What makes memory unsound, one after the other.
fn damaged() -> [Scenes<16>; 8] {
    let damages: [fn(&mut Memory<16>); 8] = [
        |memory| memory.entries = 17,
        |memory| memory.recorded = 17,
        |memory| memory.keys[1] = 1 << 48,
        |memory| memory.keys[1] = 5,
        |memory| memory.fields[0][0] = 129,
        |memory| memory.records[0] = 1 << 49,
        |memory| memory.records[0] = 1 << 48,
        |memory| memory.entries = usize::MAX,
    ];
    damages.map(|damage| {
        let mut table = two();
        table.memory.modes = 0xA5;
        damage(&mut table.memory);
        table
    })
}

// The memory is damaged from inside the crate, where it can be: the tested calls answer 6 and write nothing. It comes before every other
// refusal, so that the inputs here, which have others, do not matter.
#[test]
fn a_damaged_table_is_refused_by_every_tested_call() {
    for before in damaged() {
        let mut table = before.clone();
        assert!(!table.is_sound());
        assert_eq!(Scenes::from_memory(before.memory.clone()), Err(Error::Unsound));
        assert_eq!(table.load(&[]), Err(Error::Unsound));
        let key = SceneKey { fabric: 0, endpoint: 0, group: 1, scene: 0 };
        let group = GroupKey { fabric: 0, endpoint: 0, group: 1 };
        let end = GroupScene { group: 1, scene: 0 };
        let request = CopyRequest { fabric: 0, endpoint: 0, mode: 0, from: end, to: end };
        macro_rules! writes {
            ($($name:ident($($passed:expr),*);)*) => {$({
                let (state, lent) = table.lend();
                let answer = ffi::tested::$name(state, lent, $($passed),*);
                assert_eq!((answer.status, answer.save, answer.state), (6, 0, state), stringify!($name));
            })*};
        }
        macro_rules! reads {
            ($($name:ident($($passed:expr),*);)*) => {$({
                let answer = ffi::tested::$name(table.state(), table.lent(), $($passed),*);
                assert_eq!((answer.status, answer.state), (6, table.state()), stringify!($name));
            })*};
        }
        writes! {
            add(key, 0, 2, &[9], &[0; 200]);
            add_read(key, 0, 2, &[9], &[0; 200]);
            store(key, 2, &[0; 200]);
            recall(key, 2, 0);
            remove(key, 2);
            remove_all(group, 2);
            copy(request, 2, 2);
            attribute_changed(0);
            remove_fabric(0);
            load_image(&[]);
        }
        reads! {
            view(key, 2);
            recall_lookup(key, 2, 0, 0);
            get_membership(&mut [], group, 2);
            read_info(0, 0, 1);
            save_image(&mut []);
            factory_reset();
            startup();
            fail_safe_commit();
            fail_safe_expiry();
        }
        assert_eq!(ffi::tested::field_bytes(table.state(), table.lent(), 0), FieldBytes { offset: 0, len: 0 });
        assert_eq!(table, before);
    }
}

// Numbers below a bound, the same at every run.
pub(crate) struct Numbers(pub(crate) u64);

impl Numbers {
    pub(crate) fn below(&mut self, bound: u64) -> u64 {
        self.0 = self.0.wrapping_mul(6_364_136_223_846_793_005).wrapping_add(1_442_695_040_888_963_407);
        (self.0 >> 33) % bound
    }
}

// A tested call on one table and the unchecked one on another: the same answer, and the same memory afterwards.
macro_rules! alike {
    ($lend:ident, $tested:expr, $owned:expr, $name:ident($($passed:expr),*)) => {{
        let (state, lent) = $lend($tested);
        let tested = ffi::tested::$name(state, lent, $($passed),*);
        let (state, lent) = $lend($owned);
        // SAFETY: the table began empty, and only calls have written it.
        let unchecked = unsafe { ffi::unchecked::$name(state, lent, $($passed),*) };
        assert_eq!(tested, unchecked, stringify!($name));
        $tested.keep(tested.state);
        $owned.keep(unchecked.state);
    }};
}

fn to_write(table: &mut Scenes<5>) -> (State, LentMut<'_>) {
    table.lend()
}

fn to_read(table: &mut Scenes<5>) -> (State, Lent<'_>) {
    (table.state(), table.lent())
}

#[test]
fn unchecked_calls_answer_as_the_tested_ones() {
    let (tested, owned) = (&mut Scenes::<5>::new(), &mut Scenes::<5>::new());
    let n = &mut Numbers(20);
    let (mut buffer, mut len, mut ids) = ([0; Scenes::<5>::IMAGE_MAX], 0, [0; 5]);
    for call in 0..40_000 {
        let fabric = n.below(3) as u8;
        let (endpoint, group, scene) = (n.below(2) as u16, n.below(3) as u16, [0, 1, 2, 3, 255][n.below(5) as usize]);
        let key = SceneKey { fabric, endpoint, group, scene };
        let group_key = GroupKey { fabric, endpoint, group };
        let from = GroupScene { group, scene };
        let to = GroupScene { group: n.below(3) as u16, scene: n.below(4) as u8 };
        let (time, member, other) = ([0, 7, MAX_TIME + 1][n.below(3) as usize], n.below(8).min(2) as u8 ^ 1, n.below(3) as u8);
        let request = CopyRequest { fabric, endpoint, mode: n.below(2) as u8, from, to };
        let bytes = &[7; 130][..n.below(131) as usize];
        match n.below(22) {
            0..=2 => alike!(to_write, tested, owned, add(key, time, member, &[other], bytes)),
            3 => alike!(to_write, tested, owned, add_read(key, time, member, &[other], &pairs_of_seven(1))),
            4..=5 => alike!(to_write, tested, owned, store(key, member, bytes)),
            6 => alike!(to_read, tested, owned, view(key, member)),
            7 => alike!(to_read, tested, owned, recall_lookup(key, member, other, time)),
            8 => alike!(to_write, tested, owned, recall(key, member, other)),
            9 => alike!(to_write, tested, owned, remove(key, member)),
            10 => alike!(to_write, tested, owned, remove_all(group_key, member)),
            11..=12 => alike!(to_write, tested, owned, copy(request, member, other)),
            13 => alike!(to_read, tested, owned, get_membership(&mut ids[..usize::from(other) * 2], group_key, member)),
            14 => alike!(to_read, tested, owned, read_info(fabric, endpoint, other / 2)),
            15 => alike!(to_write, tested, owned, attribute_changed(endpoint)),
            16 => {
                alike!(to_read, tested, owned, save_image(&mut buffer));
                len = owned.save(&mut buffer).map_or(0, <[u8]>::len);
            }
            17 => alike!(to_write, tested, owned, load_image(&buffer[..len.saturating_sub(usize::from(other / 2))])),
            18 => alike!(to_read, tested, owned, fail_safe_commit()),
            19 => alike!(to_read, tested, owned, fail_safe_expiry()),
            20 => alike!(to_write, tested, owned, remove_fabric(fabric)),
            _ if call % 50 == 0 => alike!(to_read, tested, owned, factory_reset()),
            _ if call % 50 == 1 => alike!(to_read, tested, owned, startup()),
            _ => {
                let at = n.below(7) as usize;
                let places = ffi::tested::field_bytes(tested.state(), tested.lent(), at);
                // SAFETY: the table began empty, and only calls have written it.
                assert_eq!(places, unsafe { ffi::unchecked::field_bytes(owned.state(), owned.lent(), at) });
            }
        }
        assert_eq!(tested, owned);
    }
}

#[test]
fn refusals_have_their_numbers() {
    let numbers = [1, 2, 3, 4, 5, 6, 7, 8, 9, 10, 11, 12, 0x85, 0x87, 0x89, 0x8B];
    for number in numbers {
        assert_eq!(Error::of(number).number(), number);
    }
    for number in 0..=255 {
        assert!(numbers.contains(&number) || Error::of(number) == Error::Unsound);
    }
}
