//! The instructions of one call, which callgrind counts. They do not depend on what else the machine does.
//!
//! The driver runs twice: under callgrind, which counts within `counted_call` alone and writes a file after each, and then to read the files.
use std::hint::black_box;
use std::path::PathBuf;

use crate::report::{Costs, Meter, Sides};
use crate::rows::{Plan, Row, Side};

/// What callgrind counts.
#[no_mangle]
#[inline(never)]
fn counted_call(call: &mut dyn FnMut() -> u8) -> u8 {
    call()
}

fn once<S: Side>(side: &mut S, plan: Plan, call: fn(&mut S, Plan) -> u8) {
    side.restore();
    counted_call(&mut || black_box(call(black_box(side), black_box(plan))));
    side.restore();
}

/// Makes the calls: of a row that of each side, and one that does nothing.
pub struct Caller;

impl Meter for Caller {
    const PASSES: usize = 1;

    fn costs(&mut self, sides: &mut Sides<impl Side, impl Side, impl Side>, plan: Plan) -> Costs {
        let Sides { tested, owner, published } = sides;
        once(tested.0, plan, tested.1.call);
        once(owner.0, plan, owner.1.call);
        once(published.0, plan, published.1.call);
        once(tested.0, plan, |_, _| 0);
        Costs { tested: 0.0, owner: 0.0, published: 0.0 }
    }
}

/// Reads what was counted: the files of a folder, `calls.1` and so on, in the order of the calls.
pub struct Counts {
    pub folder: PathBuf,
    pub read: usize,
}

impl Counts {
    fn next(&mut self) -> f64 {
        self.read += 1;
        let file = self.folder.join(format!("calls.{}", self.read));
        let text = std::fs::read_to_string(&file).unwrap_or_else(|error| panic!("{}: {error}", file.display()));
        let line = text.lines().find_map(|line| line.strip_prefix("summary: "));
        line.and_then(|number| number.trim().parse().ok()).unwrap_or_else(|| panic!("{}: no summary", file.display()))
    }
}

impl Meter for Counts {
    const PASSES: usize = 1;

    fn costs(&mut self, _: &mut Sides<impl Side, impl Side, impl Side>, _: Plan) -> Costs {
        let [tested, owner, published, none] = std::array::from_fn(|_| self.next());
        Costs { tested: tested - none, owner: owner - none, published: published - none }
    }
}
