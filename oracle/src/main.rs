//! The published scenes.rs, unmodified, behind a reader of scripts. See ../README.md.
#[macro_use]
mod probe;

mod dm;
mod harness;
mod hosts;
mod persist;
mod script;
mod search;
mod share;
mod sink;
mod table;

pub use rs_matter_tlv as tlv;
pub use rs_matter_utils as utils;
pub use rs_matter_utils::error;

fn main() {
    // A table of 1,024 entries is on the stack for a moment while it is made.
    let run = std::thread::Builder::new().stack_size(64 << 20).spawn(harness::main);
    run.unwrap().join().unwrap();
}
