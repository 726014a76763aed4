//! fleet_worker.rs: a worker of fleet.c in Rust: fleet_worker PATH NUMBER. It may be killed at any
//! moment; the next worker of its number goes on.

#[path = "../bindings/onefile.rs"]
mod onefile;

use onefile::{Caller, Memory, Refusal, GREATEST_LIMIT};
use std::thread::sleep;
use std::time::Duration;

const CALLERS: u32 = 5;
const BLOCKS: u32 = 440;
// Values and keys.
const WAITING: u32 = 1;
const CLAIM: u32 = 2000;
const RESULT: u32 = 3000;
// Registers. Of the last two each worker has one.
const DONE_COUNT: u32 = 0;
const OVER: u32 = 1;
const CAME: u32 = 2;
const DID: u32 = 7;

fn answer_to(own: &Caller, instruction: &str) -> Result<Option<u32>, Refusal> {
    let reply = own.call(instruction)?;
    Ok((reply.given[0] == 1).then_some(reply.values[0]))
}

/// Claims the least job that waits, if there is one.
fn claim_job(own: &Caller) -> Result<Option<u32>, Refusal> {
    while let Some(job) = answer_to(own, "first")?.filter(|job| *job < CLAIM) {
        let claim = CLAIM + own.number;
        let script = format!("need {job} {WAITING}; del {job}; put {claim} {job}");
        if own.call(&script)?.cause == 0 {
            return Ok(Some(job));
        }
    }
    Ok(None)
}

fn do_job(own: &Caller, job: u32) -> Result<(), Refusal> {
    sleep(Duration::from_millis(4)); // the work
    let (claim, did) = (CLAIM + own.number, DID + own.number);
    let (key, result) = (RESULT + job, job * job + 1);
    let ends = format!("add {DONE_COUNT} 1; add {did} 1; put {key} {result}");
    let reply = own.call(&format!("need {claim} {job}; del {claim}; {ends}"))?;
    assert!(
        reply.cause == 0 && reply.given[4] == 0,
        "job {job} was done before"
    );
    Ok(())
}

fn work(own: &Caller) -> Result<(), Refusal> {
    own.go_on()?;
    own.call(&format!("add {} 1", CAME + own.number))?;
    let mut has = answer_to(own, &format!("get {}", CLAIM + own.number))?; // that the dead one had
    while has.is_some() || answer_to(own, &format!("load {OVER}"))? == Some(0) {
        match has {
            Some(job) => do_job(own, job)?,
            None => sleep(Duration::from_micros(500)),
        }
        has = claim_job(own)?;
    }
    Ok(())
}

fn main() -> Result<(), Refusal> {
    let words: Vec<String> = std::env::args().collect();
    let memory = Memory::share(&words[1], CALLERS, BLOCKS, GREATEST_LIMIT)?;
    work(&memory.enrol(words[2].parse().expect("a number"))?)?;
    memory.detach()
}
