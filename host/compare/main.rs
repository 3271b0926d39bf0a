//! Measures the exported calls against the published scenes.rs, one driver for both, and writes a table in Markdown. `host/bench` builds
//! it, with the published file and the oracle's stand-ins beside it: once as it is, and once with `--cfg raw`, which has other rows.
#[macro_use]
mod quiet;

mod alike;
mod counter;
mod dm;
#[cfg_attr(not(raw), path = "calls.rs")]
#[cfg_attr(raw, path = "raw.rs")]
mod driver;
#[allow(dead_code)]
#[path = "../rust/src/ffi.rs"]
mod ffi;
mod ours;
mod persist;
mod picture;
mod published;
mod report;
#[allow(dead_code)]
#[path = "../rust/src/requests.rs"]
mod requests;
mod rows;
mod timer;

pub use rs_matter_tlv as tlv;
pub use rs_matter_utils as utils;
pub use rs_matter_utils::error;

fn main() {
    // A table of 1,024 scenes is on the stack for a moment while it is made.
    let run = std::thread::Builder::new().stack_size(64 << 20).spawn(report::main);
    run.unwrap().join().unwrap();
}
