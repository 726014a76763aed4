//! jobs.rs: the job queue of jobs.c in Rust. What it prints is the same.

#[path = "../bindings/onefile.rs"]
mod onefile;

use onefile::{Caller, Memory, Refusal, Reply, Saved, GREATEST_LIMIT};
use std::thread;

const WORKERS: u32 = 4;
const JOBS: u32 = 200;
const EACH: u32 = 30;

fn result_of(job: u32) -> u32 {
    job * job + 1
}

/// The job that a call took: its last instruction is the `pop`.
fn job_of(reply: &Reply) -> Option<u32> {
    let last = reply.len as usize - 1;
    (reply.given[last] == 1).then_some(reply.values[last])
}

/// One call that ends a job and takes the next.
fn next(worker: u32, job: u32) -> String {
    format!("put {job} {}; add {worker} 1; pop 0", result_of(job))
}

/// Does so many jobs at most, and first the one that the worker has, if any. Gives the one that it
/// has then.
fn work(own: &Caller, has: Option<u32>, most: u32) -> Result<Option<u32>, Refusal> {
    let mut has = match has {
        Some(job) => Some(job),
        None => job_of(&own.call("pop 0")?),
    };
    for _ in 0..most {
        let Some(job) = has else { break };
        let reply = own.call(&next(own.number, job))?;
        assert!(
            reply.cause == 0 && reply.given[0] == 0,
            "job {job} was done before"
        );
        has = job_of(&reply);
    }
    Ok(has)
}

fn enrol_all(memory: &Memory) -> Result<Vec<Caller<'_>>, Refusal> {
    (0..WORKERS).map(|number| memory.enrol(number)).collect()
}

/// How many jobs have their result.
fn jobs_done(saved: &Saved) -> Result<u32, Refusal> {
    let is_done = |job| {
        saved
            .key(job)
            .map(|value| u32::from(value == Some(result_of(job))))
    };
    (1..=JOBS).map(is_done).sum()
}

/// How many jobs the workers have counted.
fn jobs_counted(saved: &Saved) -> Result<u32, Refusal> {
    (0..WORKERS).map(|worker| saved.register(worker)).sum()
}

/// Each worker does so in a thread of its own.
fn in_threads<F>(callers: &[Caller], work: F) -> Result<(), Refusal>
where
    F: Fn(&Caller) -> Result<(), Refusal> + Sync,
{
    thread::scope(|scope| {
        let all: Vec<_> = callers
            .iter()
            .map(|own| scope.spawn(|| work(own)))
            .collect();
        all.into_iter()
            .try_for_each(|one| one.join().expect("a thread"))
    })
}

/// Some jobs are done, and worker 3 is stopped in its last call. Gives the image of what is left.
fn first_life() -> Result<Vec<u8>, Refusal> {
    let memory = Memory::open(WORKERS, JOBS, GREATEST_LIMIT)?;
    let callers = enrol_all(&memory)?;
    (1..=JOBS).try_for_each(|job| callers[0].call(&format!("push 0 {job}")).map(drop))?;
    in_threads(&callers, |own| {
        if own.number != 3 {
            return work(own, None, EACH).map(drop);
        }
        let job = work(own, None, EACH - 1)?.expect("a job");
        own.stop_in(&next(own.number, job), 12).map(drop)
    })?;
    drop(callers);
    let left = memory.close()?;
    println!("{JOBS} jobs, and worker 3 was stopped");
    let once = jobs_done(&left)? == jobs_counted(&left)?;
    println!(
        "those that are done: {}",
        if once { "each once" } else { "not each once" }
    );
    left.image()
}

/// Goes on from the image: each worker asks which job it has.
fn second_life(image: &[u8]) -> Result<(), Refusal> {
    let before = Saved::from_image(image)?;
    let memory = Memory::reopen(&before)?;
    let job_before = |worker| before.last_reply(worker).map(|reply| job_of(&reply));
    let jobs: Vec<Option<u32>> = (0..WORKERS).map(job_before).collect::<Result<_, _>>()?;
    let callers = enrol_all(&memory)?;
    in_threads(&callers, |own| {
        work(own, jobs[own.number as usize], JOBS).map(drop)
    })?;
    drop(callers);
    let left = memory.close()?;
    println!(
        "{} jobs are done, and {} were counted",
        jobs_done(&left)?,
        jobs_counted(&left)?
    );
    Ok(())
}

fn main() -> Result<(), Refusal> {
    second_life(&first_life()?)
}
