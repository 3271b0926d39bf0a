//! Calls at random on all three sides, before anything is measured: the same statuses, and after each call the same image.
use crate::driver::FILL;
use crate::ours::Ours;
use crate::published::Published;
use crate::requests::{CopyRequest, GroupKey, GroupScene, SceneKey};
use crate::rows::Side;

/// Numbers below a bound, by a seed.
struct Numbers(u64);

impl Numbers {
    fn below(&mut self, bound: u64) -> u64 {
        self.0 = self.0.wrapping_mul(6_364_136_223_846_793_005).wrapping_add(1_442_695_040_888_963_407);
        (self.0 >> 33) % bound
    }
}

/// A call, with its inputs.
#[derive(Clone, Copy, Debug)]
struct Call {
    kind: u64,
    key: SceneKey,
    to: GroupScene,
    mode: u8,
}

/// Few keys, so that calls meet what others left. Scene 0 is refused where a call looks at it.
fn drawn(n: &mut Numbers) -> Call {
    let key = SceneKey {
        fabric: 1 + n.below(3) as u8,
        endpoint: 1 + n.below(2) as u16,
        group: n.below(3) as u16,
        scene: n.below(7) as u8,
    };
    let to = GroupScene { group: n.below(3) as u16, scene: n.below(7) as u8 };
    Call { kind: n.below(17), key, to, mode: n.below(2) as u8 }
}

fn made(side: &mut impl Side, call: Call) -> u8 {
    let SceneKey { fabric, endpoint, group, scene } = call.key;
    let group_key = GroupKey { fabric, endpoint, group };
    match call.kind {
        0..=3 => side.add(call.key, FILL),
        4..=5 => side.store(call.key),
        6 => side.view(call.key),
        7 => side.view_fields(call.key),
        8..=9 => side.remove(call.key),
        10 => side.remove_all(group_key),
        11 => side.copy(CopyRequest { fabric, endpoint, mode: call.mode, from: GroupScene { group, scene }, to: call.to }),
        12 => side.recall(SceneKey { scene: scene.max(1), ..call.key }),
        13 => side.membership(group_key),
        14 => side.info(group_key),
        15 => side.notice(endpoint),
        _ if scene == 0 => side.remove_fabric(fabric),
        _ => side.load(),
    }
}

fn sized<const N: usize>(calls: usize, n: &mut Numbers, answered: &mut [usize; 256]) {
    let (mut tested, mut owner, mut published) = (Ours::<true>::new(N), Ours::<false>::new(N), Published::<N>::new());
    for _ in 0..calls {
        assert_eq!([tested.save(), owner.save(), published.save()], [0; 3]);
        let call = drawn(n);
        let answers = [made(&mut tested, call), made(&mut owner, call), made(&mut published, call)];
        assert_eq!([answers[0], answers[1]], [answers[2]; 2], "N {N}: {call:?}");
        assert_eq!([tested.save(), owner.save(), published.save()], [0; 3]);
        assert!(tested.image() == published.image() && owner.image() == published.image(), "N {N}: other images after {call:?}");
        answered[usize::from(answers[2])] += 1;
    }
}

/// So many calls in all, on tables of four sizes. Prints how often each status was answered.
pub fn run(seed: u64, calls: usize) {
    let (n, answered) = (&mut Numbers(seed), &mut [0; 256]);
    sized::<1>(calls / 4, n, answered);
    sized::<3>(calls / 4, n, answered);
    sized::<8>(calls / 4, n, answered);
    sized::<40>(calls / 4, n, answered);
    let statuses = answered.iter().enumerate().filter(|(_, count)| **count > 0);
    let statuses: Vec<_> = statuses.map(|(status, count)| format!("{count} of 0x{status:02X}")).collect();
    println!("Seed {seed}, {} calls, alike on all sides: {}.", answered.iter().sum::<usize>(), statuses.join(", "));
}
