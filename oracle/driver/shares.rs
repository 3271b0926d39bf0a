//! Scripts for tables in share mode: fabrics reach their share, stand above it, and come below it again.
use crate::fields::hex;
use crate::generate::{self, Key, Universe};
use crate::random::Random;
use crate::run::NO_BYTES;
use crate::sizes;

/// More that brings new keys than in other scripts, and what frees places.
#[rustfmt::skip]
const CALLS: &[(char, usize)] = &[
    ('A', 15), ('S', 9), ('C', 8), ('R', 6), ('X', 3), ('F', 2), ('V', 4), ('L', 5), ('M', 3), ('I', 3), ('T', 1),
];

/// The word behind the size: mostly share mode alone; at times with other bits, which mean nothing; at times none of it.
fn modes(random: &mut Random) -> String {
    let byte = random.byte();
    match random.below(100) {
        0..75 => " 1".into(),
        75..87 => format!(" {}", random.pick(&[3, 129, 255, byte | 1])),
        87..97 => format!(" {}", random.pick(&[0, 2, 254, byte & 254])),
        _ => String::new(),
    }
}

/// Few fabrics, so that a share is reached, and more keys than places.
fn universe(random: &mut Random) -> Universe {
    let fabrics: &[u8] = match random.below(5) {
        0 => &[1],
        1 => &[1, 1, 1, 2],
        2 => &[1, 2],
        3 => &[1, 2, 3],
        _ => &[1, 1, 2, 3, 255],
    };
    Universe {
        fabrics: fabrics.to_vec(),
        endpoints: vec![1, 1, 1, 2],
        groups: random.pick(&[[0, 1, 1, 2], [1, 1, 2, 3], [0, 0, 1, 65535]]).to_vec(),
        scenes: (1..=random.pick(&[4, 12, 40])).collect(),
        written: Vec::new(),
    }
}

/// Fabrics come to their share by stores and adds, or to one or two scenes less. With three of them the table may be full.
fn reached(random: &mut Random, u: &mut Universe, size: usize, script: &mut Vec<String>) {
    let share = size.saturating_sub(1) / 2;
    for fabric in 1..=random.pick(&[1, 1, 2, 3, 4]) {
        for at in 0..share.saturating_sub(random.pick(&[0, 0, 1, 2])) {
            let (endpoint, group) = (random.pick(&[1, 1, 1, 2]), random.pick(&[1, 1, 1, 2]));
            let key = Key { fabric, endpoint, group, scene: 1 + at as u8 };
            u.written.push(key);
            let words = key.words();
            script.push(match random.below(3) {
                0 => format!("S {words} 1 -"),
                1 => format!("A {words} {at} 1 - 18"),
                _ => format!("A {words} {at} 1 - -"),
            });
        }
    }
}

fn calls(random: &mut Random, u: &mut Universe, count: usize, script: &mut Vec<String>) {
    for _ in 0..count {
        script.push(generate::call(random, u, CALLS));
    }
}

/// A small table, empty, as it stands or with fabrics at their share, now and then without a place for a record, and calls.
fn small(random: &mut Random) -> Vec<String> {
    let size = random.pick(&sizes::SHARED);
    let mut u = universe(random);
    let mut script = vec![format!("N {size}")];
    match random.below(10) {
        0..2 => {}
        2..5 => generate::raw_table(random, &mut u, size, &mut script),
        5 => {
            generate::strangers(size, &mut script);
            reached(random, &mut u, size, &mut script);
        }
        _ => reached(random, &mut u, size, &mut script),
    }
    let count = random.pick(&[10, 30, 40]);
    calls(random, &mut u, count, &mut script);
    script
}

/// Images, of which many bring a fabric more than its share, and calls behind each; at times no bytes, and at times the
/// table's own image.
fn loaded(random: &mut Random) -> Vec<String> {
    let is_large = random.percent(3);
    let size = if is_large { random.pick(&sizes::LARGE) } else { random.pick(&sizes::SHARED) };
    let mut u = universe(random);
    let mut script = vec![format!("N {size}")];
    for _ in 0..if is_large { 1 } else { 3 } {
        script.push(format!("G {}", hex(&generate::image(random, &mut u, size))));
        calls(random, &mut u, 10, &mut script);
    }
    if random.percent(15) {
        script.push(NO_BYTES.into());
        calls(random, &mut u, 4, &mut script);
    }
    if random.percent(40) {
        script.push("P".into());
        calls(random, &mut u, 4, &mut script);
        script.push("G !".into());
        calls(random, &mut u, 4, &mut script);
    }
    script
}

/// A large table as it stands, one fabric around its share.
fn large(random: &mut Random) -> Vec<String> {
    // From 511 on a share is above 254, more than is ever reported.
    let size = if random.percent(50) { random.pick(&[511, 513, 768, 1024]) } else { random.pick(&sizes::LARGE) };
    let mut u = generate::large_universe(random);
    let mut script = vec![format!("N {size}")];
    generate::large_entries(random, size, &mut script);
    let records = random.below(4);
    generate::raw_records(random, &u, records, &mut script);
    calls(random, &mut u, 18, &mut script);
    script
}

/// The script of a seed and an index.
pub fn script(seed: u64, index: u64) -> Vec<String> {
    let random = &mut Random::new(seed, index);
    let mut script = match random.below(100) {
        0..30 => generate::any(random),
        30..68 => small(random),
        68..90 => loaded(random),
        90..98 => large(random),
        _ => generate::large_grown(random),
    };
    script[0].push_str(&modes(random));
    script
}
