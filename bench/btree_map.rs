//! The job of pathmap over std's `BTreeMap`.
#[allow(dead_code)]
mod ordered_map;
mod script;
mod std_map;

use std::io;
use std::process::ExitCode;
use std_map::Std;

fn main() -> io::Result<ExitCode> {
    ordered_map::serve::<Std>()
}
