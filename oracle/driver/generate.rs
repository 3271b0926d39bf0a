//! Scripts from a seed, in the language of ../README.md.
use crate::fields::{self, hex};
use crate::images::{self, Entry, Record};
use crate::random::Random;
use crate::run::NO_BYTES;
use crate::sizes;

#[derive(Clone, Copy)]
pub struct Key {
    pub fabric: u8,
    pub endpoint: u16,
    pub group: u16,
    pub scene: u8,
}

impl Key {
    pub fn words(&self) -> String {
        format!("{} {} {} {}", self.fabric, self.endpoint, self.group, self.scene)
    }

    fn group_words(&self) -> String {
        format!("{} {} {}", self.fabric, self.endpoint, self.group)
    }
}

/// What the calls of a script choose from: small ranges, and the keys that were written before, so that hits are common.
pub struct Universe {
    pub fabrics: Vec<u8>,
    pub endpoints: Vec<u16>,
    pub groups: Vec<u16>,
    pub scenes: Vec<u8>,
    pub written: Vec<Key>,
}

impl Universe {
    fn new(random: &mut Random) -> Self {
        let written = Vec::new();
        match random.below(100) {
            0..50 => Self {
                fabrics: vec![1, 1, 1, 2],
                endpoints: vec![1, 1, 1, 1, 2],
                groups: random.pick(&[[0, 1, 1, 2], [1, 1, 2, 2], [1, 1, 2, 65535]]).to_vec(),
                scenes: vec![1, 1, 2, 2, 3, 254],
                written,
            },
            50..85 => Self {
                fabrics: vec![1, 1, 2, 2, 3, 4, 255],
                endpoints: vec![0, 1, 1, 1, 2, 65535],
                groups: vec![0, 0, 1, 1, 2, 3, 65535],
                scenes: vec![1, 1, 2, 2, 3, 4, 254],
                written,
            },
            _ => Self {
                fabrics: (0..60).map(|_| 1 + random.below(255) as u8).collect(),
                endpoints: (0..3).map(|_| random.next() as u16).collect(),
                groups: (0..4).map(|_| random.next() as u16).collect(),
                scenes: (0..12).map(|_| random.byte()).collect(),
                written,
            },
        }
    }

    fn fabric(&self, random: &mut Random) -> u8 {
        if random.percent(3) {
            return 0;
        }
        random.pick(&self.fabrics)
    }

    fn endpoint(&self, random: &mut Random) -> u16 {
        random.pick(&self.endpoints)
    }

    fn scene(&self, random: &mut Random) -> u8 {
        if random.percent(4) {
            return random.pick(&[0, 255]);
        }
        random.pick(&self.scenes)
    }

    /// Any key; that of an entry as it stands has no fabric 0.
    fn any(&self, random: &mut Random) -> Key {
        let fabric = random.pick(&self.fabrics);
        Key { fabric, endpoint: self.endpoint(random), group: random.pick(&self.groups), scene: self.scene(random) }
    }

    /// A key that was written, in so many of a hundred, and any other one else.
    fn key(&self, random: &mut Random, hits: usize) -> Key {
        if !self.written.is_empty() && random.percent(hits) {
            return random.pick(&self.written);
        }
        Key { fabric: self.fabric(random), ..self.any(random) }
    }

    /// The key of an add or a store.
    fn target(&mut self, random: &mut Random) -> Key {
        let key = self.key(random, 30);
        self.written.push(key);
        key
    }
}

fn member(random: &mut Random) -> u8 {
    match random.below(25) {
        0 => 0,
        1 => 2,
        _ => 1,
    }
}

/// 1 scenable, 2 cluster unknown; now and then 0 not scenable, or a byte that means nothing.
fn pair_digit(random: &mut Random) -> char {
    match random.below(100) {
        0..5 => '0',
        5..8 => random.pick(&['3', '4', '9']),
        8..60 => '1',
        _ => '2',
    }
}

fn add(random: &mut Random, u: &mut Universe) -> String {
    let key = u.target(random).words();
    let time = if random.percent(70) {
        random.below(5) as u32
    } else {
        random.pick(&[0, 1000, 59_999_999, 60_000_000, 60_000_000, 60_000_001, u32::MAX])
    };
    let fields = fields::added(random);
    // Half of the proper lists go through the walk of the published code, which finds the pairs itself.
    let walked = fields.pairs.filter(|_| random.percent(50));
    let count = walked.unwrap_or_else(|| random.pick(&[0, 0, 1, 2, 3, 4]));
    let pairs: String = (0..count).map(|_| pair_digit(random)).collect();
    let letter = if walked.is_some() { 'B' } else { 'A' };
    let pairs = if pairs.is_empty() { "-" } else { &pairs };
    format!("{letter} {key} {time} {} {pairs} {}", member(random), hex(&fields.bytes))
}

fn copy(random: &mut Random, u: &mut Universe) -> String {
    let mode = random.pick(&[0, 0, 0, 1, 1, 1, 1, 2, 3, 254, 255]);
    let from = u.key(random, 70);
    let to = if random.percent(30) { from } else { u.key(random, 30) };
    u.written.push(Key { group: to.group, scene: to.scene, ..from });
    let members = (member(random), member(random));
    let (fabric, endpoint) = (from.fabric, from.endpoint);
    format!(
        "C {fabric} {endpoint} {mode} {} {} {} {} {} {}",
        from.group, from.scene, to.group, to.scene, members.0, members.1
    )
}

fn recall(random: &mut Random, u: &Universe) -> String {
    let key = u.key(random, 75).words();
    let time = match random.below(10) {
        0..4 => "-".to_string(),
        4 => "null".to_string(),
        5 => (random.next() as u32).to_string(),
        _ => random.pick(&["0", "1", "60000000", "60000001", "4294967295"]).to_string(),
    };
    format!("L {key} {} {time} {}", member(random), random.percent(75) as u8)
}

/// The letters of calls, each with its weight.
#[rustfmt::skip]
const SMALL_CALLS: &[(char, usize)] = &[
    ('A', 16), ('S', 12), ('V', 5), ('R', 5), ('X', 4), ('C', 14), ('L', 12), ('M', 5), ('I', 5), ('T', 4),
    ('F', 2), ('W', 1), ('E', 1),
];
#[rustfmt::skip]
const LARGE_CALLS: &[(char, usize)] = &[
    ('A', 5), ('S', 4), ('V', 2), ('R', 2), ('X', 2), ('C', 10), ('L', 3), ('M', 4), ('I', 4), ('T', 2),
    ('F', 1),
];

#[rustfmt::skip]
const CAPPED_CALLS: &[(char, usize)] = &[
    ('A', 4), ('S', 4), ('R', 4), ('X', 1), ('C', 3), ('L', 1), ('M', 9), ('I', 16), ('F', 1),
];

fn weighted(random: &mut Random, letters: &[(char, usize)]) -> char {
    let mut at = random.below(letters.iter().map(|(_, weight)| weight).sum());
    for (letter, weight) in letters {
        if at < *weight {
            return *letter;
        }
        at -= weight;
    }
    unreachable!("the weights are summed up above")
}

pub fn call(random: &mut Random, u: &mut Universe, letters: &[(char, usize)]) -> String {
    // Rare, since they empty the table.
    if random.below(150) == 0 {
        return random.pick(&["Z", "U"]).into();
    }
    let letter = weighted(random, letters);
    match letter {
        'A' => add(random, u),
        'S' => format!("S {} {} {}", u.target(random).words(), member(random), hex(&fields::captured(random))),
        'V' | 'R' => format!("{letter} {} {}", u.key(random, 70).words(), member(random)),
        'X' | 'M' => format!("{letter} {} {}", u.key(random, 50).group_words(), member(random)),
        'C' => copy(random, u),
        'L' => recall(random, u),
        'I' => format!("I {} {} {}", u.fabric(random), u.endpoint(random), random.percent(8) as u8),
        'T' => format!("T {}", u.endpoint(random)),
        'F' => format!("F {}", u.fabric(random)),
        _ => letter.to_string(),
    }
}

/// The version shortly before it wraps, or anywhere.
fn version(random: &mut Random) -> String {
    let wrapping = random.pick(&[u32::MAX, u32::MAX - 1, u32::MAX - 2, u32::MAX - 5]);
    format!("K {}", if random.percent(70) { wrapping } else { random.next() as u32 })
}

/// How much of a list a raw table fills: often all of it, or all but one.
fn filled(random: &mut Random, size: usize) -> usize {
    match random.below(6) {
        0 | 1 => size,
        2 => size.saturating_sub(1),
        3 => size / 2,
        _ => random.below(size + 1),
    }
}

fn raw_time(random: &mut Random) -> u32 {
    if random.percent(90) {
        random.below(1000) as u32
    } else {
        random.next() as u32
    }
}

/// A fabric that hardly a call names.
const STRANGER: u8 = 77;

/// Entries and records as they stand, keys and fabrics repeated as they fall.
pub fn raw_table(random: &mut Random, u: &mut Universe, size: usize, script: &mut Vec<String>) {
    for _ in 0..filled(random, size) {
        let key = u.any(random);
        u.written.push(key);
        script.push(format!("e {} {} {}", key.words(), raw_time(random), hex(&fields::held(random))));
    }
    if random.percent(10) {
        return strangers(size, script);
    }
    let records = if random.percent(70) { filled(random, size) } else { 0 };
    raw_records(random, u, records, script);
}

/// Fills the list with another's records, so that what is to be remembered is dropped.
pub fn strangers(size: usize, script: &mut Vec<String>) {
    script.extend(vec![format!("r {STRANGER} 1 0 1 1"); size]);
}

pub fn raw_records(random: &mut Random, u: &Universe, count: usize, script: &mut Vec<String>) {
    for _ in 0..count {
        script.push(format!("r {} {}", u.any(random).words(), random.percent(80) as u8));
    }
}

fn small(random: &mut Random) -> Vec<String> {
    let size = random.pick(&sizes::SMALL);
    let mut u = Universe::new(random);
    let mut script = vec![format!("N {size}")];
    if random.percent(30) {
        script.push(version(random));
    }
    if random.percent(35) {
        raw_table(random, &mut u, size, &mut script);
    }
    for _ in 0..random.pick(&[10, 30, 60]) {
        script.push(call(random, &mut u, SMALL_CALLS));
    }
    script
}

/// A group whose copy runs out midway, by the fabric's share or by the free places, and some calls.
fn crowded(random: &mut Random) -> Vec<String> {
    let size = random.pick(&[7, 7, 8, 8, 9, 10, 11, 16, 17, 18, 31, 64]);
    let share = (size - 1) / 2;
    let own = share - 1 - random.below(share / 3);
    let mut script = vec![format!("N {size}")];
    for scene in 1..=own {
        script.push(format!("S 1 1 1 {scene} 1 {}", hex(&fields::captured(random))));
    }
    if random.percent(40) {
        for scene in 1..size - own - random.below(2) {
            script.push(format!("A 2 1 1 {scene} {} 1 - 18", random.below(9)));
        }
    }
    script.push(format!("C 1 1 {} 1 0 2 0 1 1", random.pick(&[1, 3, 255])));
    let mut u = Universe::new(random);
    for _ in 0..6 {
        script.push(call(random, &mut u, SMALL_CALLS));
    }
    script
}

pub fn large_universe(random: &mut Random) -> Universe {
    let first = random.below(180) as u8;
    Universe {
        fabrics: vec![1, 1, 1, 1, 2, 2, random.pick(&[3, 7, 255])],
        endpoints: vec![1, 1, 1, 1, 1, 2],
        groups: vec![0, 1, 1, 2, 2, 3, 9],
        scenes: (0..8).map(|i| 1 + first + i).collect(),
        written: Vec::new(),
    }
}

/// Entries of a large table as they stand: one fabric around its share, or around 255 entries, others behind it.
pub fn large_entries(random: &mut Random, size: usize, script: &mut Vec<String>) {
    let share = (size - 1) / 2;
    let own = random.pick(&[share, share - 1, share - 2, share - 5, 254, 255, 256, 300, size, 20]).min(size);
    let all = random.pick(&[size, size - 1, size - 2, own, own, own + 40]).clamp(own, size);
    // In a group of more than 254 scenes keys are repeated, and scenes 0 and 255 are among them.
    let per_group = random.pick(&[60, 120, 200, 254, 400, 1024]);
    let long = random.percent(6);
    for i in 0..all {
        let fabric = if i < own { 1 } else { random.pick(&[2, 2, 3, 7, 255]) };
        let endpoint = if random.percent(3) { 2 } else { 1 };
        let bytes = if long { fields::held(random) } else { vec![0x18; random.pick(&[0, 1, 1, 1, 2])] };
        let (group, scene) = (i / per_group, (1 + i % per_group) % 256);
        script.push(format!("e {fabric} {endpoint} {group} {scene} {} {}", raw_time(random), hex(&bytes)));
    }
}

/// A large table as it stands, and a few calls.
fn large_raw(random: &mut Random) -> Vec<String> {
    let size = random.pick(&sizes::LARGE);
    let mut u = large_universe(random);
    let mut script = vec![format!("N {size}")];
    if random.percent(40) {
        script.push(version(random));
    }
    large_entries(random, size, &mut script);
    let records = if random.percent(30) { filled(random, size) } else { random.below(4) };
    raw_records(random, &u, records, &mut script);
    for _ in 0..random.pick(&[6, 10, 14]) {
        script.push(call(random, &mut u, LARGE_CALLS));
    }
    script
}

/// A large table reached from empty: some scenes of one group, copied whole to others until the share is used up, then
/// the same for a second fabric.
pub fn large_grown(random: &mut Random) -> Vec<String> {
    let size = random.pick(&sizes::LARGE);
    let mut u = large_universe(random);
    let mut script = vec![format!("N {size}")];
    let scenes = random.pick(&[30, 45, 60]).min(size / 4);
    for fabric in [1, 2] {
        for scene in 1..=scenes {
            script.push(format!("S {fabric} 1 1 {scene} 1 -"));
        }
        let copies = size / 2 / scenes;
        for group in 2..2 + copies + 1 {
            script.push(format!("C {fabric} 1 1 1 0 {group} 0 1 1"));
        }
    }
    for _ in 0..10 {
        script.push(call(random, &mut u, LARGE_CALLS));
    }
    script
}

/// A table where a fabric's remaining capacity, by its share or by the free places, or its count on an endpoint is
/// about 253 and 255, and calls that move it up and down.
fn capped(random: &mut Random) -> Vec<String> {
    let size = random.pick(&sizes::CAPPED);
    let mut script = vec![format!("N {size}")];
    if random.percent(70) {
        // Others' entries leave about 253 places free, and fabric 2 has about as many entries on endpoint 1.
        let (others, counted) = (size - 250 - random.below(8), 250 + random.below(7));
        for i in 0..others {
            let (fabric, group, scene) = (if i < counted { 2 } else { 3 }, 1 + i / 120, 1 + i % 120);
            script.push(format!("e {fabric} 1 {group} {scene} {} -", raw_time(random)));
        }
    }
    let mut u = large_universe(random);
    u.fabrics = vec![1, 2];
    for scene in 0..random.below(8) {
        script.push(format!("S 1 1 1 {} 1 -", u.scenes[scene]));
    }
    for _ in 0..30 {
        script.push(call(random, &mut u, CAPPED_CALLS));
    }
    script
}

/// Keys of an image: now and then one is there twice, or is one that no command may name.
fn image_keys(random: &mut Random, u: &Universe, count: usize) -> Vec<Key> {
    let repeats = random.percent(12);
    let mut keys: Vec<Key> = Vec::new();
    for at in 0..count {
        let mut key = u.any(random);
        if !repeats {
            // No two are the same.
            key.scene = 1 + (at % 254) as u8;
            key.endpoint = key.endpoint / 8 * 8 + (at / 254) as u16;
        }
        keys.push(key);
    }
    keys
}

/// An image of a table of about this size.
pub fn image(random: &mut Random, u: &mut Universe, size: usize) -> Vec<u8> {
    let most = if random.percent(5) { size + 1 } else { size };
    let count = filled(random, most).min(random.pick(&[1, 2, 3, 5, 12, 12, 2000]));
    let keys = image_keys(random, u, count);
    u.written.extend(&keys);
    let long = random.percent(4);
    let entries: Vec<Entry> = keys
        .iter()
        .map(|&Key { fabric, endpoint, group, scene }| {
            let mut fields = fields::held(random);
            if long && random.percent(30) {
                fields.resize(random.pick(&[127, 128, 129, 200]), 7);
            }
            let time = if random.percent(70) { raw_time(random) } else { random.pick(&[0, 255, 256, 65535, 65536, u32::MAX]) };
            Entry { fabric, endpoint, group, scene, time, fields }
        })
        .collect();
    let owners = filled(random, most).min(random.pick(&[0, 1, 1, 2, 3, 254]));
    let distinct = random.percent(88);
    let records: Vec<Record> = (0..owners)
        .map(|at| {
            let Key { fabric, endpoint, group, scene } = u.any(random);
            let (fabric, scene) = if distinct { (1 + (at % 255) as u8, scene.clamp(1, 254)) } else { (fabric, scene) };
            Record { fabric, endpoint, group, scene, valid: random.percent(70) }
        })
        .collect();
    images::image(random, &entries, &records)
}

/// Images loaded one after the other, with calls between them; the table is saved, changed and loaded again.
fn imaged(random: &mut Random, sizes: &[usize], lines: usize) -> Vec<String> {
    let size = random.pick(sizes);
    let mut u = Universe::new(random);
    let mut script = vec![format!("N {size}")];
    if random.percent(30) {
        script.push(version(random));
    }
    let mut saved = false;
    for _ in 0..lines {
        match random.below(20) {
            0..14 => script.push(format!("G {}", hex(&image(random, &mut u, size)))),
            14..16 => {
                script.push("P".into());
                saved = true;
            }
            16 if saved => script.push("G !".into()),
            17 if random.percent(50) => script.push(NO_BYTES.into()),
            _ => script.push(call(random, &mut u, SMALL_CALLS)),
        }
    }
    script
}

/// A script of images alone, for a seed and an index.
pub fn images(seed: u64, index: u64) -> Vec<String> {
    let mut random = Random::new(seed, index);
    let large = random.below(250) == 0;
    imaged(&mut random, if large { &sizes::LARGE } else { &sizes::SMALL }, if large { 4 } else { 30 })
}

/// A script of any kind.
pub fn any(random: &mut Random) -> Vec<String> {
    match random.below(1000) {
        0..680 => small(random),
        680..720 => crowded(random),
        720..760 => large_raw(random),
        760..770 => large_grown(random),
        770..779 => imaged(random, &sizes::LARGE, 5),
        779..879 => capped(random),
        _ => imaged(random, &sizes::SMALL, 20),
    }
}

/// The script of a seed and an index.
pub fn script(seed: u64, index: u64) -> Vec<String> {
    any(&mut Random::new(seed, index))
}
