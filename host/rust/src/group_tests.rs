//! Memberships beside a table: every answer, damage, and long runs against a table that is told the answers of a plain list.
// The digits of a word are grouped by its parts.
#![allow(clippy::unusual_byte_groupings)]
use crate::ffi::{self, Groups, GroupsMut, GroupsState};
use crate::tests::{pairs_of_seven, Numbers};
use crate::*;
use std::collections::BTreeSet;

fn member(fabric: u8, group: u16) -> GroupKey {
    GroupKey { fabric, endpoint: 0x3456, group }
}

fn word(key: GroupKey) -> u64 {
    u64::from(key.fabric) << 40 | u64::from(key.endpoint) << 24 | u64::from(key.group) << 8
}

// Memberships of fabric 1, as words.
fn many(count: u16) -> Vec<u64> {
    (1..=count).map(|group| word(member(1, group))).collect()
}

// A table whose memberships were written raw.
fn raw(words: &[u64]) -> Result<GroupedScenes<5>, Error> {
    GroupedScenes::from_words(Scenes::new(), words)
}

// ---- Long runs

// A table that is told its memberships, and a plain list of them.
struct Told {
    scenes: Scenes<5>,
    list: Vec<GroupKey>,
}

impl Told {
    fn is_member(&self, key: GroupKey) -> Result<bool, Error> {
        match key.fabric {
            0 => Err(Error::NoFabric),
            _ => Ok(key.group != 0 && self.list.contains(&key)),
        }
    }

    fn told(&self, key: GroupKey) -> Membership {
        match self.is_member(key) {
            Ok(true) => Membership::Yes,
            _ => Membership::No,
        }
    }

    fn told_of(&self, key: SceneKey) -> Membership {
        let SceneKey { fabric, endpoint, group, .. } = key;
        self.told(GroupKey { fabric, endpoint, group })
    }

    fn told_in(&self, request: CopyRequest, end: GroupScene) -> Membership {
        self.told(GroupKey { fabric: request.fabric, endpoint: request.endpoint, group: end.group })
    }

    fn join(&mut self, key: GroupKey) -> Result<(), Error> {
        match (key.fabric, key.group) {
            (0, _) => Err(Error::NoFabric),
            (_, 0) => Err(Error::ConstraintError),
            _ if self.list.contains(&key) => Ok(()),
            _ if self.list.len() == 256 => Err(Error::MembershipsFull),
            _ => {
                self.list.push(key);
                Ok(())
            }
        }
    }

    fn leave(&mut self, key: GroupKey) -> Result<Done, Error> {
        match (key.fabric, key.group) {
            (0, _) => Err(Error::NoFabric),
            (_, 0) => Err(Error::ConstraintError),
            _ if !self.list.contains(&key) => Err(Error::NotFound),
            _ => {
                self.list.retain(|&held| held != key);
                self.scenes.remove_all(key, Membership::Yes)
            }
        }
    }

    fn remove_fabric(&mut self, fabric: u8) -> Result<Done, Error> {
        self.list.retain(|held| held.fabric != fabric || fabric == 0);
        self.scenes.remove_fabric(fabric)
    }
}

// What a call is given.
struct Given {
    key: SceneKey,
    group: GroupKey,
    request: CopyRequest,
    time: u32,
    other: u8,
    len: usize,
}

fn given(n: &mut Numbers, groups: u64) -> Given {
    let (fabric, endpoint, group) = (n.below(4) as u8, n.below(2) as u16, n.below(4) as u16);
    let scene = [0, 1, 2, 3, 255][n.below(5) as usize];
    let from = GroupScene { group, scene };
    let to = GroupScene { group: n.below(4) as u16, scene: n.below(4) as u8 };
    Given {
        key: SceneKey { fabric, endpoint, group, scene },
        group: GroupKey { fabric, endpoint, group: if n.below(2) == 0 { group } else { n.below(groups) as u16 } },
        request: CopyRequest { fabric, endpoint, mode: n.below(2) as u8, from, to },
        time: [0, 7, MAX_TIME + 1][n.below(3) as usize],
        other: n.below(4) as u8,
        len: n.below(131) as usize,
    }
}

// Both answer the same; which refusal it was is put down.
macro_rules! same {
    ($seen:ident, $asking:expr, $told:expr) => {{
        let (asking, told) = ($asking, $told);
        assert_eq!(asking, told);
        $seen.insert(told.err().map_or(0, Error::number));
    }};
}

fn change(call: u64, asking: &mut GroupedScenes<5>, told: &mut Told, g: &Given, seen: &mut BTreeSet<u8>) {
    let (key, pairs, bytes) = (g.key, &[g.other][..], &[7; 130][..g.len]);
    let yes = told.told_of(key);
    let (from, to) = (told.told_in(g.request, g.request.from), told.told_in(g.request, g.request.to));
    let applied = if g.other == 0 { Applied::Failed } else { Applied::Yes };
    let (few, fields) = (pairs_of_seven(g.len % 3), pairs_of_seven(g.len));
    match call {
        0..=2 => same!(seen, asking.add(key, g.time, pairs, bytes), told.scenes.add(key, g.time, yes, pairs, bytes)),
        3 => same!(seen, asking.add_answered(key, g.time, pairs, &few), told.scenes.add_answered(key, g.time, yes, pairs, &few)),
        4 => same!(
            seen,
            asking.add_read(key, g.time, &fields, |_, _| g.other),
            told.scenes.add_read(key, g.time, yes, &fields, |_, _| g.other)
        ),
        5..=7 => same!(seen, asking.store(key, bytes), told.scenes.store(key, yes, bytes)),
        8 => same!(seen, asking.recall(key, applied), told.scenes.recall(key, yes, applied)),
        9 => same!(seen, asking.remove(key), told.scenes.remove(key, yes)),
        10 => same!(seen, asking.remove_all(g.group), told.scenes.remove_all(g.group, told.told(g.group))),
        _ => same!(seen, asking.copy(g.request), told.scenes.copy(g.request, from, to)),
    }
}

fn read(call: u64, asking: &GroupedScenes<5>, told: &Told, g: &Given, seen: &mut BTreeSet<u8>) {
    let (key, yes) = (g.key, told.told_of(g.key));
    let transition = if g.other == 0 { Transition::Stored } else { Transition::Given(g.time) };
    match call {
        0 => same!(seen, asking.view(key), told.scenes.view(key, yes)),
        1 => same!(seen, asking.recall_lookup(key, transition), told.scenes.recall_lookup(key, yes, transition)),
        2 => {
            let (mut ids, mut others) = ([0xDD; 5], [0xDD; 5]);
            let len = usize::from(g.other);
            same!(
                seen,
                asking.get_membership(g.group, &mut ids[..len]),
                told.scenes.get_membership(g.group, told.told(g.group), &mut others[..len])
            );
            assert_eq!(ids, others);
        }
        3 => same!(seen, asking.is_member(g.group), told.is_member(g.group)),
        _ => {
            let (fabric, endpoint) = (key.fabric, key.endpoint);
            same!(seen, asking.read_info(fabric, endpoint, g.len == 0), told.scenes.read_info(fabric, endpoint, g.len == 0));
            assert_eq!(asking.field_bytes(usize::from(g.other)), told.scenes.field_bytes(usize::from(g.other)));
        }
    }
}

fn event(call: u64, asking: &mut GroupedScenes<5>, told: &mut Told, g: &Given, seen: &mut BTreeSet<u8>) {
    match call {
        0 => same!(seen, asking.attribute_changed(g.key.endpoint), told.scenes.attribute_changed(g.key.endpoint)),
        1 => {
            same!(seen, asking.remove_fabric(g.key.fabric), told.remove_fabric(g.key.fabric));
            nothing_is_left(asking, g.key.fabric);
        }
        2 => {
            told.list.clear();
            same!(seen, asking.factory_reset(), told.scenes.factory_reset());
        }
        3 => same!(seen, asking.startup(), told.scenes.startup()),
        4 => same!(seen, asking.fail_safe_commit(), told.scenes.fail_safe_commit()),
        5 => same!(seen, asking.fail_safe_expiry(), told.scenes.fail_safe_expiry()),
        _ => {
            let mut buffer = [0; Scenes::<5>::IMAGE_MAX];
            let image = told.scenes.save(&mut buffer).unwrap_or(&[]);
            let image = if g.other == 3 { &image[..image.len() / 2] } else { image };
            same!(seen, asking.load(image), told.scenes.load(image));
        }
    }
}

// The same scenes, the same image, and the same memberships in the same order.
fn alike(asking: &GroupedScenes<5>, told: &Told) {
    assert_eq!(asking.scenes, told.scenes);
    assert!(asking.memberships().eq(told.list.iter().copied()));
    assert!(asking.words().iter().copied().eq(told.list.iter().map(|&held| word(held))));
    let (mut image, mut other) = ([0; GroupedScenes::<5>::IMAGE_MAX], [0; Scenes::<5>::IMAGE_MAX]);
    assert_eq!(asking.save(&mut image), told.scenes.save(&mut other));
}

// So many calls, with groups below a bound for joins and leaves: the refusals that came, and the most memberships that were held.
fn run(seed: u64, calls: u32, groups: u64, modes: u8) -> (BTreeSet<u8>, usize) {
    let mut asking = GroupedScenes::<5>::with_modes(modes);
    let mut told = Told { scenes: Scenes::with_modes(modes), list: Vec::new() };
    let (n, mut seen, mut most) = (&mut Numbers(seed), BTreeSet::new(), 0);
    for _ in 0..calls {
        let g = given(n, groups);
        match n.below(64) {
            0..=9 => same!(seen, asking.join(g.group), told.join(g.group)),
            10..=11 => same!(seen, asking.leave(g.group), told.leave(g.group)),
            12..=49 => change(n.below(12), &mut asking, &mut told, &g, &mut seen),
            50..=60 => read(n.below(5), &asking, &told, &g, &mut seen),
            _ if n.below(80) == 0 => event(n.below(3), &mut asking, &mut told, &g, &mut seen),
            _ => event([0, 3, 4, 5, 6, 6][n.below(6) as usize], &mut asking, &mut told, &g, &mut seen),
        }
        alike(&asking, &told);
        most = most.max(told.list.len());
    }
    assert!(asking.is_sound());
    (seen, most)
}

#[test]
fn asking_is_being_told_what_a_list_holds() {
    let refusals = BTreeSet::from([0, 1, 3, 4, 5, 7, 8, 9, 11, 0x85, 0x87, 0x89, 0x8B]);
    for (seed, modes) in [(1, 0), (2, 0), (3, modes::SHARE)] {
        let (seen, most) = run(seed, 20_000, 5, modes);
        assert_eq!(seen, refusals);
        assert!((3 * 2 * 3..=256).contains(&most));
    }
}

// Many groups: all memberships are taken, time and again.
#[test]
fn asking_is_being_told_where_all_are_taken() {
    let (seen, most) = run(4, 40_000, 600, 0);
    assert!(seen.contains(&12) && most == 256);
}

// ---- Every answer

// A call, and whether it left all as it was.
fn unchanged<T>(table: &mut GroupedScenes<5>, call: impl FnOnce(&mut GroupedScenes<5>) -> Result<T, Error>) -> Result<(), u8> {
    let before = table.clone();
    let answer = call(table).map(|_| ()).map_err(Error::number);
    assert_eq!(*table, before);
    answer
}

#[test]
fn joins_leaves_and_memberships_answer() {
    let table = &mut GroupedScenes::<5>::new();
    let held = member(0x12, 0x789A);
    assert_eq!((table.is_member(held), table.join(held), table.is_member(held)), (Ok(false), Ok(()), Ok(true)));
    assert_eq!(table.words(), [0x12_3456_789A_00]);
    assert_eq!(unchanged(table, |t| t.join(held)), Ok(()));
    for group in [0, 0x789A, 1] {
        assert_eq!(unchanged(table, |t| t.join(member(0, group))), Err(1));
        assert_eq!(unchanged(table, |t| t.leave(member(0, group))), Err(1));
        assert_eq!(unchanged(table, |t| t.is_member(member(0, group))), Err(1));
    }
    assert_eq!(unchanged(table, |t| t.join(member(0x12, 0))), Err(0x87));
    assert_eq!(unchanged(table, |t| t.leave(member(0x12, 0))), Err(0x87));
    assert_eq!(table.is_member(member(0x12, 0)), Ok(false));
    let others = [member(0x13, 0x789A), GroupKey { endpoint: 0x3457, ..held }, member(0x12, 0x789B)];
    for other in others {
        assert_eq!(unchanged(table, |t| t.leave(other)), Err(0x8B));
        assert_eq!(table.is_member(other), Ok(false));
        assert_eq!(table.join(other), Ok(()));
    }
    assert!(table.memberships().eq([held, others[0], others[1], others[2]]));
    assert_eq!(table.leave(others[1]), Ok(Done { save: false }));
    assert!(table.memberships().eq([held, others[0], others[2]]) && table.memberships().len() == 3);
}

// Every byte of a key has another number, so that one at the wrong place would show.
#[test]
fn keys_arrive_whole_behind_memberships() {
    let key = SceneKey { fabric: 0x12, endpoint: 0x3456, group: 0x789A, scene: 0xBC };
    let mut table = raw(&[word(member(0x12, 0x789A)), word(member(0x12, 0xFEDC))]).expect("sound");
    assert!(table.add(key, 0x0123_4567 >> 1, &[1, 2], &[9, 8, 7]).is_ok());
    assert_eq!((table.scenes.memory.keys[0], table.scenes.memory.times[0]), (0x12_3456_789A_BC, 0x0123_4567 >> 1));
    assert_eq!(table.scenes.memory.fields[0][..4], [3, 9, 8, 7]);
    let (from, to) = (GroupScene { group: 0x789A, scene: 0xBC }, GroupScene { group: 0xFEDC, scene: 0xA9 });
    let request = CopyRequest { fabric: 0x12, endpoint: 0x3456, mode: 0xF0, from, to };
    assert_eq!(table.copy(request), Ok(Done { save: true }));
    assert_eq!(table.scenes.memory.keys[1], 0x12_3456_FEDC_A9);
    assert_eq!(table.recall_lookup(key, Transition::Given(0x89AB_CDEF)).map(|scene| scene.time), Ok(0x89AB_CDEF));
    assert_eq!(table.recall(key, Applied::Yes), Ok(Done { save: true }));
    assert_eq!(table.scenes.memory.records[0], 0x1_12_3456_789A_BC);
    assert_eq!(table.leave(member(0x12, 0x789A)), Ok(Done { save: true }));
    assert_eq!(table.view(key), Err(Error::InvalidCommand));
    assert_eq!(
        (table.scenes.entries(), table.scenes.memory.keys[0], table.words()),
        (1, 0x12_3456_FEDC_A9, &[0x12_3456_FEDC_00][..])
    );
}

#[test]
fn memberships_up_to_256_fit() {
    let mut table = raw(&many(255)).expect("sound");
    let last = (member(1, 256), member(1, 257));
    assert_eq!((table.join(last.0), table.held), (Ok(()), 256));
    assert_eq!(raw(&many(256)), Ok(table.clone()));
    assert_eq!(unchanged(&mut table, |t| t.join(last.1)), Err(12));
    assert_eq!(unchanged(&mut table, |t| t.join(member(1, 0))), Err(0x87));
    assert_eq!(unchanged(&mut table, |t| t.join(member(0, 257))), Err(1));
    assert_eq!(unchanged(&mut table, |t| t.join(member(1, 3))), Ok(()));
    assert_eq!((table.is_member(last.0), table.is_member(last.1)), (Ok(true), Ok(false)));
    assert_eq!(raw(&many(257)), Err(Error::Unsound));
    assert!(table.leave(member(1, 3)).is_ok() && table.join(last.1).is_ok());
    assert_eq!(table.words()[2..], many(257)[3..]);
    assert_eq!(raw(&[]), Ok(GroupedScenes::new()));
}

// Words that no join writes, but a host may: one twice, and group 0.
#[test]
fn repeated_words_and_group_0_are_sound() {
    let (twice, none, other) = (member(1, 7), member(1, 0), member(2, 7));
    let words = [twice, none, twice, other, twice].map(word);
    let mut table = raw(&words).expect("sound");
    assert!(table.is_sound() && table.words() == words);
    assert_eq!((table.is_member(twice), table.is_member(none)), (Ok(true), Ok(false)));
    assert_eq!(unchanged(&mut table, |t| t.join(none)), Err(0x87));
    assert_eq!(unchanged(&mut table, |t| t.leave(none)), Err(0x87));
    assert_eq!(unchanged(&mut table, |t| t.join(twice)), Ok(()));
    assert_eq!(table.leave(twice), Ok(Done { save: false }));
    assert!(table.memberships().eq([none, other]));
    let ungrouped = SceneKey { fabric: 1, endpoint: 0x3456, group: 0, scene: 1 };
    assert!(table.store(ungrouped, &[]).is_ok() && table.view(ungrouped).is_ok());
    assert_eq!(table.remove_fabric(1), Ok(Done { save: true }));
    assert!(table.memberships().eq([other]));
}

// ---- A fabric goes

fn nothing_is_left(table: &GroupedScenes<5>, fabric: u8) {
    let memory = &table.scenes.memory;
    let words = memory.keys[..memory.entries].iter().chain(&memory.records[..memory.recorded]).chain(table.words());
    assert!(fabric == 0 || words.copied().all(|word| (word >> 40) as u8 != fabric));
}

#[test]
fn a_removed_fabric_leaves_nothing() {
    let scene = |fabric, group| SceneKey { fabric, endpoint: 0x3456, group, scene: 1 };
    let groups = [(1, 7), (2, 7), (1, 8), (3, 7), (2, 8)].map(|(fabric, group)| member(fabric, group));
    let mut table = GroupedScenes::<5>::new();
    for key in groups {
        assert!(table.join(key).is_ok() && table.store(scene(key.fabric, key.group), &[]).is_ok());
    }
    assert_eq!(unchanged(&mut table, |t| t.remove_fabric(0)), Err(1));
    assert_eq!(table.remove_fabric(2), Ok(Done { save: true }));
    nothing_is_left(&table, 2);
    assert!(table.memberships().eq([groups[0], groups[2], groups[3]]));
    assert_eq!((table.scenes.entries(), table.scenes.recorded()), (3, 2));
    // memberships alone neither step nor mark
    assert!(table.join(member(4, 1)).is_ok());
    let version = table.scenes.data_version();
    assert_eq!((table.remove_fabric(4), table.scenes.data_version()), (Ok(Done { save: false }), version));
    assert!(table.memberships().eq([groups[0], groups[2], groups[3]]));
    assert_eq!(table.factory_reset(), Ok(Done { save: false }));
    assert_eq!((table.words().len(), table.scenes.entries(), table.scenes.data_version()), (0, 0, version + 1));
}

// ---- Damage

// Two memberships and a scene in each group, of which one is its fabric's current one.
fn two() -> GroupedScenes<5> {
    let mut table = raw(&[member(1, 7), member(2, 8)].map(word)).expect("sound");
    assert!(table.store(SceneKey { fabric: 1, endpoint: 0x3456, group: 7, scene: 1 }, &[1, 2]).is_ok());
    assert!(table.add(SceneKey { fabric: 2, endpoint: 0x3456, group: 8, scene: 1 }, 9, &[], &[3]).is_ok());
    table
}

// Each call that is lent the table and the memberships, with inputs that have other refusals: 6, and nothing changes.
fn refused(table: &mut GroupedScenes<5>) {
    let key = SceneKey { fabric: 0, endpoint: 0, group: 1, scene: 0 };
    let group = GroupKey { fabric: 0, endpoint: 0, group: 0 };
    let end = GroupScene { group: 1, scene: 0 };
    let request = CopyRequest { fabric: 0, endpoint: 0, mode: 0, from: end, to: end };
    let ids = &mut [0xDD; 2];
    assert_eq!(unchanged(table, |t| t.leave(group)), Err(6));
    assert_eq!(unchanged(table, |t| t.remove_fabric(0)), Err(6));
    assert_eq!(unchanged(table, |t| t.factory_reset()), Err(6));
    assert_eq!(unchanged(table, |t| t.add(key, 0, &[9], &[0; 200])), Err(6));
    assert_eq!(unchanged(table, |t| t.add_answered(key, 0, &[9], &[0; 200])), Err(6));
    assert_eq!(unchanged(table, |t| t.add_read(key, 0, &pairs_of_seven(30), |_, _| 9)), Err(6));
    assert_eq!(unchanged(table, |t| t.store(key, &[0; 200])), Err(6));
    assert_eq!(unchanged(table, |t| t.view(key).map(|_| ())), Err(6));
    assert_eq!(unchanged(table, |t| t.recall_lookup(key, Transition::Stored).map(|_| ())), Err(6));
    assert_eq!(unchanged(table, |t| t.recall(key, Applied::Failed)), Err(6));
    assert_eq!(unchanged(table, |t| t.remove(key)), Err(6));
    assert_eq!(unchanged(table, |t| t.remove_all(group)), Err(6));
    assert_eq!(unchanged(table, |t| t.copy(request)), Err(6));
    assert_eq!(unchanged(table, |t| t.get_membership(group, ids).map(|_| ())), Err(6));
    assert_eq!((ids, table.is_sound()), (&mut [0xDD; 2], false));
}

#[test]
fn damaged_memberships_are_refused_by_every_call() {
    let damages: [fn(&mut GroupedScenes<5>); 6] = [
        |table| table.held = 257,
        |table| table.held = usize::MAX,
        |table| table.words[1] = 0x3456_0008_00,
        |table| table.words[1] |= 1,
        |table| table.words[0] |= 1 << 48,
        |table| table.words[0] |= 1 << 63,
    ];
    for damage in damages {
        let mut table = two();
        damage(&mut table);
        refused(&mut table);
        assert_eq!(unchanged(&mut table, |t| t.join(member(0, 0))), Err(6));
        assert_eq!(unchanged(&mut table, |t| t.is_member(member(0, 0))), Err(6));
        assert!(table.scenes.is_sound() && raw(table.words()).is_err() == (table.held <= 256));
    }
    let mut behind = two();
    behind.words[2..].fill(u64::MAX);
    assert!(behind.is_sound() && behind.join(member(3, 1)).is_ok() && behind.words[2] == word(member(3, 1)));
}

// A damaged table beside sound memberships: a join and a yes or no are not lent it.
#[test]
fn a_damaged_table_is_refused_beside_memberships() {
    let damages: [fn(&mut Memory<5>); 4] = [
        |memory| memory.entries = 6,
        |memory| memory.recorded = 6,
        |memory| memory.keys[1] = 5,
        |memory| memory.fields[0][0] = 129,
    ];
    for damage in damages {
        let mut table = two();
        damage(&mut table.scenes.memory);
        refused(&mut table);
        assert_eq!((table.is_member(member(1, 7)), table.join(member(3, 1))), (Ok(true), Ok(())));
    }
}

// A slice of memberships has room for 256, however few are held; more is fine.
#[test]
fn lengths_of_memberships_arrive() {
    let table = &mut two();
    let (state, mut words, key) = (GroupsState { held: 2 }, [0; 257], member(1, 7));
    words[..256].copy_from_slice(&table.words);
    let sound = |words: &[u64]| ffi::groups::is_sound(Groups { state, words });
    assert!(sound(&words) && sound(&words[..256]));
    for len in [0, 2, 255] {
        let short = &mut words[..len];
        assert!(!sound(short) && ffi::groups::is_member(Groups { state, words: short }, key).status == 6);
        let joined = ffi::groups::join(GroupsMut { state, words: short }, member(3, 1));
        assert_eq!((joined.status, joined.state), (6, state));
        let (head, lent) = table.scenes.lend();
        let left = ffi::groups::leave(head, lent, GroupsMut { state, words: short }, key);
        assert_eq!((left.status, left.save, left.state, left.groups), (6, 0, head, state));
        let reset = ffi::groups::factory_reset(head, table.scenes.lent(), Groups { state, words: short });
        assert_eq!((reset.status, reset.save, reset.state, reset.groups), (6, 0, head, state));
        assert_eq!((&*table, &words[..256]), (&two(), &table.words[..]));
    }
    assert_eq!(ffi::groups::new(), GroupsState { held: 0 });
    assert!(ffi::groups::is_sound(Groups { state: ffi::groups::new(), words: &[u64::MAX; 256] }));
}
