//! Every call of the table, and each refusal that it has. Numbers are document 01's.
use scenes::*;

const YES: Membership = Membership::Yes;
const SAVED: Result<Done, Error> = Ok(Done { save: true });
const UNSAVED: Result<Done, Error> = Ok(Done { save: false });

// What a store answers that compared so many key words.
fn stored(compared: usize) -> Result<Stored, Error> {
    Ok(Stored { save: true, compared })
}

fn key(fabric: u8, group: u16, scene: u8) -> SceneKey {
    SceneKey { fabric, endpoint: 1, group, scene }
}

fn group(fabric: u8, group: u16) -> GroupKey {
    GroupKey { fabric, endpoint: 1, group }
}

fn copy(mode: u8, from: (u16, u8), to: (u16, u8)) -> CopyRequest {
    let from = GroupScene { group: from.0, scene: from.1 };
    let to = GroupScene { group: to.0, scene: to.1 };
    CopyRequest { fabric: 1, endpoint: 1, mode, from, to }
}

// A table with the scenes of fabric 1 in group 1.
fn with<const N: usize>(scenes: &[u8]) -> Scenes<N> {
    let mut table = Scenes::new();
    for &scene in scenes {
        assert_eq!(table.add(key(1, 1, scene), 1000 + u32::from(scene), YES, &[], &[scene]), SAVED);
    }
    table
}

// A refusal changes nothing.
fn refused<const N: usize, T>(table: &mut Scenes<N>, number: u8, call: impl Fn(&mut Scenes<N>) -> Result<T, Error>) {
    let before = table.clone();
    assert_eq!(call(table).map(|_| ()).map_err(Error::number), Err(number));
    assert_eq!(*table, before);
}

// The refusals that commands on a scene share, in their order.
fn refused_keys<T>(call: impl Fn(&mut Scenes<16>, SceneKey, Membership) -> Result<T, Error>) {
    let table = &mut with(&[5]);
    refused(table, 1, |t| call(t, key(0, 1, 0), Membership::Failed));
    refused(table, 0x87, |t| call(t, key(1, 1, 0), Membership::Failed));
    refused(table, 0x87, |t| call(t, key(1, 1, 255), Membership::Failed));
    refused(table, 2, |t| call(t, key(1, 1, 5), Membership::Failed));
    refused(table, 0x85, |t| call(t, key(1, 1, 5), Membership::No));
}

// A read in the place of a command.
fn read<T>(answer: Result<T, Error>) -> Result<Done, Error> {
    answer.map(|_| Done { save: false })
}

#[test]
fn the_example_of_the_requirements() {
    let table = &mut Scenes::<3>::new();
    let scene = key(1, 0, 5);
    assert_eq!(table.add(scene, 1000, YES, &[], b"\x18"), SAVED);
    assert_eq!((table.entries(), table.data_version()), (1, 0));
    assert_eq!(table.store(scene, YES, b""), stored(1));
    assert_eq!((table.entries(), table.data_version()), (1, 1));
    assert_eq!(table.add(scene, 2000, YES, &[], b"\x18"), SAVED);
    assert_eq!((table.entries(), table.data_version()), (1, 2));
    assert_eq!(table.view(scene, YES), Ok(Scene { time: 2000, at: 0, fields: b"\x18" }));
}

#[test]
fn add() {
    refused_keys(|t, k, m| t.add(k, 0, m, &[], &[]));
    let table = &mut with::<4>(&[5]);
    refused(table, 0x87, |t| t.add(key(1, 1, 6), MAX_TIME + 1, Membership::Failed, &[], &[]));
    refused(table, 0x85, |t| t.add(key(1, 1, 6), MAX_TIME, YES, &[2, 1, 0, 9], &[0; 129]));
    refused(table, 7, |t| t.add(key(1, 1, 6), MAX_TIME, YES, &[2, 1, 3, 0], &[0; 129]));
    refused(table, 0x89, |t| t.add(key(1, 1, 6), MAX_TIME, YES, &[2, 1], &[0; 129]));
    assert_eq!(table.add(key(1, 1, 6), MAX_TIME, YES, &[2, 1], &[9; 128]), SAVED);
    assert_eq!(table.view(key(1, 1, 6), YES), Ok(Scene { time: MAX_TIME, at: 1, fields: &[9; 128] }));
    assert_eq!(table.add(key(1, 0, 6), 1, Membership::No, &[], &[]), SAVED);
    assert_eq!(table.add(key(1, 0, 7), 1, YES, &[], &[]), SAVED);
    refused(table, 0x89, |t| t.add(key(1, 0, 8), 1, YES, &[], &[]));
    assert_eq!(table.add(key(1, 0, 7), 2, YES, &[], &[]), SAVED);
    assert_eq!(table.entries(), 4);
}

// Cluster 6 with attributes 1 and 2.
const TWO_PAIRS: &[u8] = b"\x15\x24\x00\x06\x36\x01\x15\x24\x00\x01\x18\x15\x24\x00\x02\x18\x18\x18\x18";

// A list of so many field bytes: cluster 6 with attribute 1, and a member that is skipped.
fn long_list(len: usize) -> Vec<u8> {
    let front = b"\x15\x24\x00\x06\x36\x01\x15\x24\x00\x01\x18\x18\x30\x02";
    let skipped = len - front.len() - 3;
    [&front[..], &[skipped as u8], &vec![0xEE; skipped], b"\x18\x18"].concat()
}

#[test]
fn add_by_raw_fields() {
    refused_keys(|t, k, m| t.add_answered(k, 0, m, &[], &[]));
    refused_keys(|t, k, m| t.add_answered(k, 0, m, &[0], b"\x15"));
    refused_keys(|t, k, m| t.add_read(k, 0, m, b"\x15", |_, _| pair::SCENABLE));
    let table = &mut with::<3>(&[5]);
    let six = key(1, 1, 6);
    refused(table, 0x87, |t| t.add_answered(six, MAX_TIME + 1, Membership::Failed, &[], b"\x15"));
    refused(table, 11, |t| t.add_answered(six, MAX_TIME, YES, &[0, 9], &TWO_PAIRS[..18]));
    refused(table, 11, |t| t.add_answered(six, MAX_TIME, YES, &[0], TWO_PAIRS));
    refused(table, 11, |t| t.add_answered(six, MAX_TIME, YES, &[0, 9, 1], TWO_PAIRS));
    refused(table, 11, |t| t.add_answered(six, MAX_TIME, YES, &[0], &[0; 200]));
    refused(table, 11, |t| t.add_answered(six, MAX_TIME, YES, &[], &long_list(129)));
    refused(table, 0x85, |t| t.add_answered(six, MAX_TIME, YES, &[0, 9], TWO_PAIRS));
    refused(table, 7, |t| t.add_answered(six, MAX_TIME, YES, &[3, 0], TWO_PAIRS));
    refused(table, 0x85, |t| t.add_answered(six, MAX_TIME, YES, &[0], &long_list(129)));
    refused(table, 0x89, |t| t.add_answered(six, MAX_TIME, YES, &[2], &long_list(129)));
    refused(table, 0x89, |t| t.add_read(six, MAX_TIME, YES, &long_list(129), |_, _| pair::SCENABLE));
    assert_eq!(table.add_answered(six, MAX_TIME, YES, &[2], &long_list(128)), SAVED);
    assert_eq!(table.add_read(six, 1, YES, &long_list(128), |_, _| pair::CLUSTER_UNKNOWN), SAVED);
    assert_eq!(table.view(six, YES), Ok(Scene { time: 1, at: 1, fields: &long_list(128) }));
    assert_eq!(table.add_answered(key(1, 1, 7), 2, YES, &[1, 2], TWO_PAIRS), SAVED);
    refused(table, 0x89, |t| t.add_answered(key(1, 1, 8), 2, YES, &[1, 2], TWO_PAIRS));
    refused(table, 0x89, |t| t.add_read(key(1, 1, 8), 2, YES, TWO_PAIRS, |_, _| pair::SCENABLE));
    assert_eq!(table.add_read(key(1, 1, 7), 3, YES, b"", |_, _| pair::NOT_SCENABLE), SAVED);
    assert_eq!(table.view(key(1, 1, 7), YES), Ok(Scene { time: 3, at: 2, fields: b"" }));
}

// Each pair is asked about once, in order; none of bytes that are refused.
#[test]
fn an_add_asks_about_each_pair() {
    let table = &mut with::<16>(&[]);
    let mut asked = Vec::new();
    let mut ask = |cluster, attribute| {
        asked.push((cluster, attribute));
        pair::NOT_SCENABLE
    };
    assert_eq!(table.add_read(key(1, 1, 5), 1, YES, TWO_PAIRS, &mut ask), Err(Error::InvalidCommand));
    assert_eq!(table.add_read(key(1, 1, 5), 1, YES, &TWO_PAIRS[..18], &mut ask), Err(Error::BadFieldSets));
    assert_eq!(asked, [(6, 1), (6, 2)]);
    assert_eq!(table.entries(), 0);
}

#[test]
fn items_and_pairs() {
    let set = |cluster: u8, pairs: &[u8]| [&[0x15, 0x24, 0, cluster, 0x36, 1][..], pairs, &[0x18, 0x18]].concat();
    let pair = |attribute: u8| vec![0x15, 0x24, 0, attribute, 0x18];
    let fields = [set(8, &[]), set(6, &[pair(1), pair(1), pair(0)].concat()), set(6, &pair(2)), vec![0x18]].concat();
    use FieldItem::{Attribute, Cluster};
    let items = [Cluster(8), Cluster(6), Attribute(1), Attribute(1), Attribute(0), Cluster(6), Attribute(2)];
    assert!(field_items(&fields).eq(items.map(Ok)));
    assert!(field_pairs(&fields).eq([(6, 1), (6, 1), (6, 0), (6, 2)].map(Ok)));
    // The sets in front of a mistake are yielded before it, and nothing comes behind it.
    let mut cut = field_items(&fields[..fields.len() - 1]);
    assert!(cut.by_ref().take(items.len()).eq(items.map(Ok)));
    assert_eq!((cut.next(), cut.next(), cut.next()), (Some(Err(Error::BadFieldSets)), None, None));
    let mut words = [0xEE; 5];
    assert_eq!(list_pairs(&fields, &mut words[..3]), Err(Error::BufferTooShort));
    assert_eq!(list_pairs(&fields[1..], &mut words[..3]), Err(Error::BadFieldSets));
    assert_eq!(words, [0xEE; 5]);
    assert_eq!(list_pairs(&fields, &mut words), Ok(&[6 << 32 | 1, 6 << 32 | 1, 6 << 32, 6 << 32 | 2][..]));
    assert_eq!(words[4], 0xEE);
    assert_eq!((list_pairs(b"", &mut []), list_pairs(b"\x18", &mut [])), (Ok(&[][..]), Ok(&[][..])));
}

// The bytes as items, as a list and in an add: all three read the same pairs, or refuse them.
fn read_alike(bytes: &[u8]) -> bool {
    let pairs: Result<Vec<_>, _> = field_pairs(bytes).collect();
    let mut words = vec![0xEE; pairs_max(bytes.len())];
    let listed = list_pairs(bytes, &mut words).map(|words| words.iter().map(|&word| pair_of_word(word)).collect());
    assert_eq!(listed, pairs);
    let (mut table, mut asked) = (Scenes::<1>::new(), Vec::new());
    let added = table.add_read(key(1, 0, 5), 0, YES, bytes, |cluster, attribute| {
        asked.push((cluster, attribute));
        pair::SCENABLE
    });
    match pairs {
        Ok(pairs) => {
            assert_eq!((added, asked), (SAVED, pairs));
            assert_eq!(table.field_bytes(0), bytes);
            true
        }
        Err(error) => {
            assert_eq!((error, added, asked), (Error::BadFieldSets, Err(error), vec![]));
            assert_eq!(table, Scenes::new());
            assert!(words.iter().all(|&word| word == 0xEE));
            false
        }
    }
}

// Every cut of a list, every byte of it changed.
#[test]
fn damaged_fields_are_read_alike() {
    let list = [&TWO_PAIRS[..16], b"\x18\x24\x02\x07\x18", TWO_PAIRS].concat();
    assert!(read_alike(&list) && read_alike(&[]));
    for end in 1..list.len() {
        assert!(!read_alike(&list[..end]));
    }
    let mut taken = 0;
    for at in 0..list.len() {
        for byte in 0..=255 {
            let mut damaged = list.clone();
            damaged[at] = byte;
            taken += usize::from(read_alike(&damaged));
        }
    }
    assert!(taken > 256);
}

// Up to the first match, or all of them. 0 is no refusal: the first store had nothing to compare.
#[test]
fn a_store_counts_what_it_compared() {
    let table = &mut Scenes::<4>::new();
    for (before, scene) in (5..=8).enumerate() {
        assert_eq!(table.store(key(1, 1, scene), YES, &[]), stored(before));
    }
    for (at, scene) in (5..=8).enumerate() {
        assert_eq!(table.store(key(1, 1, scene), YES, &[]), stored(at + 1));
    }
    refused(table, 0x89, |t| t.store(key(1, 1, 9), YES, &[]));
    assert_eq!(table.remove(key(1, 1, 5), YES), SAVED);
    assert_eq!(table.store(key(1, 1, 8), YES, &[]), stored(1));
}

#[test]
fn store() {
    refused_keys(|t, k, m| t.store(k, m, &[]));
    let table = &mut with::<2>(&[5]);
    refused(table, 3, |t| t.store(key(1, 1, 6), YES, &[0; 128]));
    assert_eq!(table.store(key(1, 1, 6), YES, &[7; 127]), stored(1));
    assert_eq!(table.store(key(1, 1, 5), YES, &[]), stored(1));
    refused(table, 0x89, |t| t.store(key(1, 1, 7), YES, &[]));
    assert_eq!(table.view(key(1, 1, 5), YES), Ok(Scene { time: 1005, at: 0, fields: b"\x18" }));
    assert_eq!(table.view(key(1, 1, 6), YES).map(|scene| scene.fields.len()), Ok(128));
    assert_eq!((table.entries(), table.recorded()), (2, 1));
}

#[test]
fn view_and_recall() {
    refused_keys(|t, k, m| read(t.view(k, m)));
    refused_keys(|t, k, m| read(t.recall_lookup(k, m, Transition::Stored)));
    refused_keys(|t, k, m| t.recall(k, m, Applied::Failed));
    let table = &mut with::<16>(&[5, 6]);
    refused(table, 0x8B, |t| read(t.view(key(1, 1, 7), YES)));
    refused(table, 0x8B, |t| read(t.recall_lookup(key(1, 1, 7), YES, Transition::Given(1))));
    refused(table, 0x8B, |t| t.recall(key(1, 1, 7), YES, Applied::Failed));
    refused(table, 4, |t| t.recall(key(1, 1, 6), YES, Applied::Failed));
    assert_eq!(table.view(key(1, 1, 6), YES), Ok(Scene { time: 1006, at: 1, fields: &[6] }));
    assert_eq!(table.recall_lookup(key(1, 1, 6), YES, Transition::Stored), Ok(Scene { time: 1006, at: 1, fields: &[6] }));
    assert_eq!(table.recall_lookup(key(1, 1, 6), YES, Transition::Given(0)), Ok(Scene { time: 0, at: 1, fields: &[6] }));
    assert_eq!((table.field_bytes(0), table.field_bytes(1), table.field_bytes(2)), (&[5][..], &[6][..], &[][..]));
    assert_eq!(table.field_bytes(usize::MAX), b"");
    assert_eq!(table.recall(key(1, 1, 6), YES, Applied::Yes), SAVED);
    let row = InfoRow { count: 2, group: 1, scene: 6, valid: true, remaining: 5, fabric: 1 };
    assert_eq!(table.read_info(1, 1, false), Ok(Some(row)));
}

#[test]
fn remove() {
    refused_keys(|t, k, m| t.remove(k, m));
    let table = &mut with::<16>(&[5, 6, 7]);
    refused(table, 0x8B, |t| t.remove(key(1, 1, 8), YES));
    assert_eq!(table.remove(key(1, 1, 5), YES), SAVED);
    let mut ids = [0; 3];
    assert_eq!(table.get_membership(group(1, 1), YES, &mut ids), Ok(SceneList { remaining: 5, ids: &[7, 6] }));
}

#[test]
fn remove_all() {
    let table = &mut with::<16>(&[5, 6, 7]);
    refused(table, 1, |t| t.remove_all(group(0, 1), Membership::Failed));
    refused(table, 2, |t| t.remove_all(group(1, 1), Membership::Failed));
    refused(table, 0x85, |t| t.remove_all(group(1, 1), Membership::No));
    assert_eq!(table.remove_all(group(1, 2), YES), UNSAVED);
    assert_eq!(table.remove_all(group(1, 1), YES), SAVED);
    assert_eq!(table.entries(), 0);
}

#[test]
fn copy_one() {
    let table = &mut with::<16>(&[5, 6]);
    let with_fabric = |fabric| CopyRequest { fabric, ..copy(0, (1, 0), (2, 0)) };
    refused(table, 1, |t| t.copy(with_fabric(0), Membership::Failed, Membership::Failed));
    refused(table, 0x87, |t| t.copy(copy(0, (1, 255), (2, 5)), Membership::Failed, Membership::Failed));
    refused(table, 0x87, |t| t.copy(copy(0, (1, 5), (2, 0)), Membership::Failed, Membership::Failed));
    refused(table, 2, |t| t.copy(copy(0, (1, 5), (2, 5)), Membership::Failed, Membership::No));
    refused(table, 0x85, |t| t.copy(copy(0, (1, 5), (2, 5)), Membership::No, Membership::Failed));
    refused(table, 2, |t| t.copy(copy(0, (1, 5), (2, 5)), YES, Membership::Failed));
    refused(table, 0x85, |t| t.copy(copy(0, (1, 5), (2, 5)), YES, Membership::No));
    refused(table, 0x8B, |t| t.copy(copy(0, (1, 7), (2, 5)), YES, YES));
    assert_eq!(table.copy(copy(0, (1, 6), (2, 9)), YES, YES), SAVED);
    assert_eq!(table.view(key(1, 2, 9), YES), Ok(Scene { time: 1006, at: 2, fields: &[6] }));
}

// Seven places give a fabric three: the copy of the second scene finds no room, and the first stays.
#[test]
fn copy_a_group() {
    let table = &mut with::<7>(&[1, 2]);
    assert_eq!(table.copy(copy(CopyRequest::ALL, (1, 0), (2, 255)), YES, YES), Err(Error::InsufficientSpace));
    assert_eq!(table.entries(), 3);
    refused(table, 0x89, |t| t.copy(copy(CopyRequest::ALL, (1, 0), (2, 0)), YES, YES));
    let table = &mut with::<16>(&[1, 2]);
    refused(table, 0x8B, |t| t.copy(copy(CopyRequest::ALL, (3, 0), (2, 0)), YES, YES));
    assert_eq!(table.copy(copy(CopyRequest::ALL, (1, 0), (2, 0)), YES, YES), SAVED);
    assert_eq!(table.entries(), 4);
    assert_eq!(table.view(key(1, 2, 2), YES), Ok(Scene { time: 1002, at: 3, fields: &[2] }));
}

#[test]
fn get_membership() {
    let table = &mut with::<16>(&[9, 3]);
    refused(table, 1, |t| read(t.get_membership(group(0, 1), Membership::Failed, &mut [])));
    refused(table, 2, |t| read(t.get_membership(group(1, 1), Membership::Failed, &mut [])));
    refused(table, 0x85, |t| read(t.get_membership(group(1, 1), Membership::No, &mut [])));
    let mut ids = [0xEE; 4];
    refused(table, 8, |t| read(t.get_membership(group(1, 1), YES, &mut [0])));
    assert_eq!(table.get_membership(group(1, 1), YES, &mut ids), Ok(SceneList { remaining: 5, ids: &[9, 3] }));
    assert_eq!(ids, [9, 3, 0xEE, 0xEE]);
    assert_eq!(table.get_membership(group(1, 0), Membership::No, &mut []), Ok(SceneList { remaining: 5, ids: &[] }));
}

#[test]
fn read_info() {
    let table = &mut with::<16>(&[9]);
    refused(table, 1, |t| read(t.read_info(0, 1, true)));
    refused(table, 5, |t| read(t.read_info(1, 1, true)));
    assert_eq!(table.read_info(2, 1, false), Ok(None));
    let row = InfoRow { count: 1, group: 0, scene: 0, valid: false, remaining: 6, fabric: 1 };
    assert_eq!(table.read_info(1, 1, false), Ok(Some(row)));
    assert_eq!(table.store(key(1, 513, 9), YES, &[]), stored(1));
    let row = InfoRow { count: 2, group: 513, scene: 9, valid: true, remaining: 5, fabric: 1 };
    assert_eq!(table.read_info(1, 1, false), Ok(Some(row)));
    assert_eq!(table.attribute_changed(2), UNSAVED);
    assert_eq!(table.read_info(1, 1, false), Ok(Some(row)));
    assert_eq!(table.attribute_changed(1), UNSAVED);
    assert_eq!(table.read_info(1, 1, false), Ok(Some(InfoRow { valid: false, ..row })));
}

// What is reported of the remaining capacity of an empty table.
fn remaining<const N: usize>() -> u8 {
    Scenes::<N>::new().get_membership(group(1, 1), YES, &mut []).unwrap().remaining
}

#[test]
fn a_remaining_capacity_is_reported_up_to_253() {
    assert_eq!([remaining::<506>(), remaining::<508>(), remaining::<509>()], [252, 253, 253]);
    assert_eq!([remaining::<511>(), remaining::<515>(), remaining::<MAX_SCENES>()], [MAX_REMAINING; 3]);
    let table = &mut Scenes::<515>::new();
    for i in 1..=257 {
        assert_eq!(table.add(key(1, i, 1), 0, YES, &[], &[]), SAVED);
        let row = table.read_info(1, 1, false).unwrap().unwrap();
        assert_eq!((u16::from(row.count), u16::from(row.remaining)), (i.min(255), (257 - i).min(253)));
    }
}

// Five places in share mode, with the two scenes of fabric 1 that are its share.
fn shared() -> Scenes<5> {
    let mut table = Scenes::with_modes(modes::SHARE);
    assert_eq!(table.add(key(1, 1, 1), 1001, YES, &[], &[1]), SAVED);
    assert_eq!(table.store(key(1, 1, 2), YES, &[2]), stored(1));
    table
}

// A new scene above the share is refused however it comes, what is there is overwritten, and another fabric has its own share.
#[test]
fn a_share_limits_every_new_scene() {
    let table = &mut shared();
    refused(table, 0x89, |t| t.add(key(1, 1, 3), 0, YES, &[], &[]));
    refused(table, 0x89, |t| t.add(key(1, 2, 1), 0, YES, &[], &[]));
    refused(table, 0x89, |t| t.store(key(1, 1, 3), YES, &[]));
    refused(table, 0x89, |t| t.add_answered(key(1, 1, 3), 0, YES, &[1, 1], TWO_PAIRS));
    refused(table, 0x89, |t| t.add_read(key(1, 1, 3), 0, YES, TWO_PAIRS, |_, _| pair::SCENABLE));
    refused(table, 0x89, |t| t.copy(copy(0, (1, 1), (2, 1)), YES, YES));
    // Whatever is tested before a place is found keeps its number.
    refused(table, 0x85, |t| t.add(key(1, 1, 3), 0, YES, &[0], &[]));
    refused(table, 3, |t| t.store(key(1, 1, 3), YES, &[0; 128]));
    assert_eq!(table.add(key(1, 1, 1), 2001, YES, &[], &[9]), SAVED);
    assert_eq!(table.store(key(1, 1, 2), YES, &[8]), stored(2));
    assert_eq!(table.add_answered(key(1, 1, 1), 2002, YES, &[1, 1], TWO_PAIRS), SAVED);
    assert_eq!((table.entries(), table.view(key(1, 1, 1), YES).map(|scene| scene.time)), (2, Ok(2002)));
    assert_eq!(table.add(key(2, 1, 3), 0, YES, &[], &[]), SAVED);
    assert_eq!(table.store(key(3, 1, 3), YES, &[]), stored(3));
    assert_eq!(table.get_membership(group(3, 1), YES, &mut [0]).map(|list| list.remaining), Ok(1));
    assert_eq!(table.remove(key(1, 1, 1), YES), SAVED);
    assert_eq!(table.add(key(1, 1, 3), 0, YES, &[], &[]), SAVED);
    // The last place is free, and within the share of fabric 3 alone.
    refused(table, 0x89, |t| t.add(key(1, 1, 4), 0, YES, &[], &[]));
    assert_eq!(table.store(key(3, 1, 4), YES, &[]), stored(4));
    refused(table, 0x89, |t| t.store(key(2, 1, 4), YES, &[]));
}

// The reported number is cut at 253, and the share is not: of 1,024 places it is 511.
#[test]
fn a_share_is_not_cut() {
    let table = &mut Scenes::<MAX_SCENES>::with_modes(modes::SHARE);
    for i in 1..=511 {
        assert_eq!(table.add(key(1, i, 1), 0, YES, &[], &[]), SAVED);
    }
    refused(table, 0x89, |t| t.add(key(1, 512, 1), 0, YES, &[], &[]));
    assert_eq!(table.add(key(1, 511, 1), 1, YES, &[], &[]), SAVED);
}

// Nothing changes the modes, and a copy of the memory has them.
#[test]
fn modes_are_kept() {
    let table = &mut shared();
    let plain = &mut with::<5>(&[1, 2, 3, 4]);
    let (mut buffer, mut other) = ([0; Scenes::<5>::IMAGE_MAX], [0; Scenes::<5>::IMAGE_MAX]);
    assert_eq!(Scenes::from_memory(table.memory().clone()), Ok(table.clone()));
    // An image has no modes: each table keeps its own. A load takes more than a share, and nothing new comes before there is less.
    let image = table.save(&mut buffer).unwrap();
    assert_eq!((table.load(plain.save(&mut other).unwrap()), plain.load(image)), (UNSAVED, UNSAVED));
    assert_eq!((table.entries(), table.modes(), plain.entries(), plain.modes()), (4, modes::SHARE, 2, 0));
    refused(table, 0x89, |t| t.add(key(1, 1, 5), 0, YES, &[], &[]));
    assert_eq!(table.add(key(1, 1, 4), 0, YES, &[], &[]), SAVED);
    assert_eq!(plain.add(key(1, 1, 5), 0, YES, &[], &[]), SAVED);
    assert_eq!((table.load(&[]), table.modes()), (UNSAVED, modes::SHARE));
    assert_eq!((table.startup(), table.modes()), (UNSAVED, modes::SHARE));
    assert_eq!((table.factory_reset(), table.modes()), (UNSAVED, modes::SHARE));
    assert_eq!((table.remove_fabric(1), table.modes()), (UNSAVED, modes::SHARE));
    refused(table, 9, |t| t.load(&[1]));
    // Memory with other modes is that of another table.
    let mut memory = shared().memory().clone();
    memory.modes = 0xFE;
    let other = &mut Scenes::from_memory(memory).unwrap();
    assert_eq!((other.add(key(1, 1, 3), 0, YES, &[], &[]), other.modes()), (SAVED, 0xFE));
}

// The release check: what a fabric stored goes with it, and nobody else's.
#[test]
fn remove_fabric() {
    let table = &mut Scenes::<16>::new();
    assert_eq!(table.store(key(1, 1, 5), YES, b"one"), stored(0));
    assert_eq!(table.store(key(2, 1, 5), YES, b"two"), stored(1));
    refused(table, 1, |t| t.remove_fabric(0));
    assert_eq!(table.remove_fabric(3), UNSAVED);
    assert_eq!(table.remove_fabric(1), SAVED);
    assert_eq!((table.entries(), table.recorded()), (1, 1));
    assert_eq!(table.view(key(1, 1, 5), YES), Err(Error::NotFound));
    assert_eq!(table.read_info(1, 1, false), Ok(None));
    assert_eq!(table.view(key(2, 1, 5), YES), Ok(Scene { time: 0, at: 0, fields: b"two\x18" }));
}

#[test]
fn lifecycle() {
    let table = &mut with::<16>(&[5]);
    assert_eq!(table.store(key(1, 1, 6), YES, &[]), stored(1));
    let before = table.clone();
    assert_eq!((table.fail_safe_commit(), table.fail_safe_expiry()), (UNSAVED, UNSAVED));
    assert_eq!(*table, before);
    assert_eq!(table.startup(), UNSAVED);
    assert_eq!((table.entries(), table.recorded(), table.data_version()), (0, 0, 1));
    assert_eq!(table.factory_reset(), UNSAVED);
    assert_eq!((table.entries(), table.recorded(), table.data_version()), (0, 0, 2));
}

#[test]
fn memory_that_was_copied_comes_back() {
    let table = with::<16>(&[5, 6, 7]);
    assert_eq!(Scenes::from_memory(table.memory().clone()), Ok(table));
}

// Entries, records and their order, in a table that holds others; and the bytes again.
#[test]
fn a_saved_table_comes_back() {
    let table = &mut with::<16>(&[5, 6, 7]);
    assert_eq!(table.store(key(2, 1, 9), YES, &[1, 2, 3]), stored(3));
    assert_eq!(table.recall(key(1, 1, 6), YES, Applied::Yes), SAVED);
    let (mut first, mut again) = ([0xEE; Scenes::<16>::IMAGE_MAX], [0; Scenes::<16>::IMAGE_MAX]);
    let image = table.save(&mut first).unwrap();
    let other = &mut with::<16>(&[1, 2, 3, 4, 5, 6]);
    assert_eq!(other.load(image), UNSAVED);
    assert_eq!((other.entries(), other.recorded(), other.data_version()), (4, 2, 1));
    for scene in [key(1, 1, 5), key(1, 1, 6), key(1, 1, 7), key(2, 1, 9)] {
        assert_eq!(other.view(scene, YES), table.view(scene, YES));
    }
    assert_eq!(other.read_info(1, 1, false), table.read_info(1, 1, false));
    assert_eq!(other.save(&mut again), Ok(image));
}

#[test]
fn save() {
    let table = &mut with::<16>(&[5, 6]);
    let len = table.save(&mut [0; Scenes::<16>::IMAGE_MAX]).unwrap().len();
    for room in 0..len {
        let mut buffer = [0xEE; Scenes::<16>::IMAGE_MAX];
        assert_eq!(table.save(&mut buffer[..room]), Err(Error::BufferTooShort));
        assert_eq!(buffer, [0xEE; Scenes::<16>::IMAGE_MAX]);
    }
    let mut buffer = [0xEE; Scenes::<16>::IMAGE_MAX];
    assert_eq!(table.save(&mut buffer).map(<[u8]>::len), Ok(len));
    assert!(buffer[len..].iter().all(|&b| b == 0xEE));
}

// A new chip: no bytes. What is left is what a startup leaves, to the last byte, at a version that did not step.
#[test]
fn a_load_of_no_bytes_is_a_startup() {
    let table = &mut with::<16>(&[5, 6]);
    assert_eq!(table.store(key(1, 1, 7), YES, &[1, 2, 3]), stored(2));
    assert_eq!(table.factory_reset(), UNSAVED);
    assert_eq!(table.store(key(1, 1, 8), YES, &[4, 5]), stored(0));
    let started = &mut table.clone();
    assert_eq!(started.startup(), UNSAVED);
    assert_eq!(table.load(&[]), UNSAVED);
    assert_eq!(table, started);
    assert_eq!((table.entries(), table.recorded(), table.data_version()), (0, 0, 3));
    let mut buffer = [0; Scenes::<16>::IMAGE_MAX];
    assert_eq!(table.save(&mut buffer), Ok(&b"\x15\x36\x00\x18\x36\x01\x18\x18"[..]));
    for byte in 0..=255 {
        refused(table, 9, |t| t.load(&[byte]));
    }
}

// Every cut of an image but that of no bytes, every byte of it changed: a number or a table, and after a number the very table.
#[test]
fn load() {
    let table = &mut with::<16>(&[5, 6]);
    let mut buffer = [0; Scenes::<16>::IMAGE_MAX];
    let image = table.save(&mut buffer).unwrap().to_vec();
    for end in 1..image.len() - 1 {
        refused(table, 9, |t| t.load(&image[..end]));
    }
    let mut taken = 0;
    for at in 0..image.len() {
        for byte in 0..=255 {
            let mut damaged = image.clone();
            damaged[at] = byte;
            let mut after = table.clone();
            match after.load(&damaged) {
                Ok(done) => {
                    assert_eq!((done.save, after.is_sound(), after.data_version()), (false, true, 1));
                    taken += 1;
                }
                Err(error) => {
                    assert!(matches!(error.number(), 9 | 10));
                    assert_eq!(after, *table);
                }
            }
        }
    }
    assert!(taken > 256);
    refused(&mut Scenes::<1>::new(), 9, |t| t.load(&image));
    let scene = |id: u8| [0x15, 0x24, 0, 1, 0x24, 1, 1, 0x24, 2, 0, 0x24, 3, id, 0x24, 4, 0, 0x30, 5, 0, 0x18];
    let twice = |a: u8, b: u8| [&[0x15, 0x36, 0][..], &scene(a), &scene(b), &[0x18, 0x36, 1, 0x18, 0x18]].concat();
    assert_eq!(table.load(&twice(5, 6)), UNSAVED);
    for (a, b) in [(5, 5), (0, 6), (5, 255)] {
        refused(table, 10, |t| t.load(&twice(a, b)));
    }
}

#[test]
fn the_smallest_and_the_largest_table() {
    let table = &mut Scenes::<0>::new();
    refused(table, 0x89, |t| t.add(key(1, 1, 5), 0, YES, &[], &[]));
    assert_eq!(table.remove_fabric(1), UNSAVED);
    let table = &mut Scenes::<MAX_SCENES>::default();
    for i in 0..MAX_SCENES as u16 {
        assert_eq!(table.add(key(1, i, 1), 0, YES, &[], &[]), SAVED);
    }
    refused(table, 0x89, |t| t.add(key(1, 2000, 1), 0, YES, &[], &[]));
    assert!(table.is_sound());
}
