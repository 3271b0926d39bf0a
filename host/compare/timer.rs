//! The time of one call: the mean of many, without the shortest and the longest twentieth, by the processor's time stamp. Where the time stamp goes
//! in steps, as it does on some machines by ten nanoseconds, a mean is finer than they are, and a median is not.
use std::arch::x86_64::{_mm_lfence, _mm_mfence, _rdtsc};
use std::hint::black_box;
use std::time::{Duration, Instant};

use crate::report::{Costs, Meter, Sides};
use crate::rows::{Plan, Row, Side};

/// A round is so many calls of one side and then of the others, so that a change of the machine's pace meets both.
const CALLS: usize = 25;
const ROUNDS: usize = 161;
/// Of a save or a load, which take up to a thousand times as long.
const IMAGE_ROUNDS: usize = 5;

fn now() -> u64 {
    // SAFETY: every x86-64 processor has both.
    unsafe {
        _mm_lfence();
        let t = _rdtsc();
        _mm_lfence();
        t
    }
}

/// Measures nanoseconds, of which it knows how many a tick of the time stamp has.
pub struct Timer {
    pub tick: f64,
}

impl Timer {
    pub fn new() -> Self {
        let (start, from) = (Instant::now(), now());
        while start.elapsed() < Duration::from_millis(100) {}
        Self { tick: start.elapsed().as_nanos() as f64 / (now() - from) as f64 }
    }
}

fn round<S: Side>(side: &mut S, plan: Plan, writes: bool, call: fn(&mut S, Plan) -> u8, ticks: &mut Vec<u64>) {
    for _ in 0..CALLS {
        if writes {
            side.restore();
            // Walks the table, so that the call finds it in the cache as it would have been, and waits until all is written.
            side.view(plan.absent());
            // SAFETY: every x86-64 processor has it.
            unsafe { _mm_mfence() };
        }
        let from = now();
        black_box(call(black_box(side), black_box(plan)));
        ticks.push(now() - from);
    }
}

fn mean(ticks: &mut [u64]) -> f64 {
    ticks.sort_unstable();
    let outer = ticks.len() / 20;
    let inner = &ticks[outer..ticks.len() - outer];
    inner.iter().sum::<u64>() as f64 / inner.len() as f64
}

impl Meter for Timer {
    const PASSES: usize = 15;

    fn costs(&mut self, sides: &mut Sides<impl Side, impl Side, impl Side>, plan: Plan) -> Costs {
        let Sides { tested: (a, ra), owner: (b, rb), published: (c, rc) } = sides;
        let mut ticks: [Vec<u64>; 4] = Default::default();
        let rounds = if ra.image { IMAGE_ROUNDS } else { ROUNDS };
        for warm in [true, false] {
            ticks.iter_mut().for_each(Vec::clear);
            for _ in 0..if warm { 4 } else { rounds } {
                round(*a, plan, ra.writes, ra.call, &mut ticks[0]);
                round(*b, plan, rb.writes, rb.call, &mut ticks[1]);
                round(*c, plan, rc.writes, rc.call, &mut ticks[2]);
                round(*a, plan, false, |_, _| 0, &mut ticks[3]);
            }
        }
        a.restore();
        b.restore();
        c.restore();
        let [tested, owner, published, none] = ticks.map(|mut ticks| mean(&mut ticks));
        let cost = |ticks: f64| (ticks - none).max(0.0) * self.tick;
        Costs { tested: cost(tested), owner: cost(owner), published: cost(published) }
    }
}
