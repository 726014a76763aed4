//! bank.rs: the bank of bank.c in Rust. What it prints is the same.

#[path = "../bindings/onefile.rs"]
mod onefile;

use onefile::{name, Caller, Memory, Refusal, Saved, CAUSE_SHORT, GREATEST_LIMIT, STOPPED};
use std::thread;

const CALLERS: u32 = 4;
const EACH: u32 = 1000;
const CALLS: u32 = 2000;

/// A caller moves 1 from its register to the next one, again and again.
fn work(own: &Caller) -> Result<(), Refusal> {
    let script = format!("sub {} 1; add {} 1", own.number, (own.number + 1) % CALLERS);
    for _ in 0..CALLS {
        let cause = own.call(&script)?.cause;
        assert!(cause == 0 || cause == CAUSE_SHORT);
    }
    Ok(())
}

fn sum_of(saved: &Saved) -> Result<u32, Refusal> {
    (0..CALLERS).map(|register| saved.register(register)).sum()
}

fn enrol_all(bank: &Memory) -> Result<Vec<Caller<'_>>, Refusal> {
    (0..CALLERS).map(|number| bank.enrol(number)).collect()
}

/// Four threads move money, and caller 3 is stopped. Gives the image of what is left.
fn first_life() -> Result<Vec<u8>, Refusal> {
    let bank = Memory::open(CALLERS, 16, GREATEST_LIMIT)?;
    let callers = enrol_all(&bank)?;
    let fill: Vec<String> = (0..CALLERS).map(|i| format!("store {i} {EACH}")).collect();
    callers[0].call(&fill.join("; "))?;
    thread::scope(|scope| {
        let all: Vec<_> = callers
            .iter()
            .map(|own| scope.spawn(|| work(own)))
            .collect();
        all.into_iter()
            .try_for_each(|one| one.join().expect("a thread"))
    })?;
    println!("{} calls of {CALLERS} threads", CALLERS * CALLS);
    let reply = callers[3].stop_in("put 7 70; push 2 5; len 2", 12)?;
    println!("caller 3: {} at step {}", name(STOPPED), reply.steps);
    callers[0].call("add 9 1")?;
    drop(callers);
    let left = bank.close()?;
    println!("the sum is {}", sum_of(&left)?);
    left.image()
}

/// Goes on from the image, and asks what the last call of caller 3 came to.
fn second_life(image: &[u8]) -> Result<(), Refusal> {
    let before = Saved::from_image(image)?;
    let bank = Memory::reopen(&before)?;
    let last = before.last_reply(3)?;
    let (ticket, length) = (last.ticket, last.values[2]);
    println!("caller 3: call {ticket} was answered, and the queue has {length}");
    let callers = enrol_all(&bank)?;
    let reply = callers[3].call("get 7; pop 2")?;
    println!(
        "key 7 has {}, and the queue had {}",
        reply.values[0], reply.values[1]
    );
    drop(callers);
    let left = bank.close()?;
    println!("caller 3 has made {} calls", left.ticket(3)?);
    println!("the sum is {}", sum_of(&left)?);
    Ok(())
}

fn main() -> Result<(), Refusal> {
    second_life(&first_life()?)
}
