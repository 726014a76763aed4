//! visits.rs: visits.c in Rust, on the same file: visits FILE.

#[path = "../bindings/onefile.rs"]
mod onefile;

use onefile::{Memory, Refusal, GREATEST_LIMIT};
use std::{env, process};

fn main() -> Result<(), Refusal> {
    let Some(path) = env::args().nth(1) else {
        process::exit(2)
    };
    let memory = Memory::in_file(&path, 1, 0, GREATEST_LIMIT)?;
    let own = memory.enrol(0)?;
    println!("visit {}", own.call("add 0 1")?.values[0]);
    process::exit(0) // as a process that is killed: nothing is closed, and nothing is lost
}
