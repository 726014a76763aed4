//! bindings.rs: what onefile.rs adds to onefile.h. A caller leaves when it is dropped, also if
//! another one enrols or leaves at the same moment. A path with a zero byte is refused. Two
//! memories share a file, as two processes would: bindings [FOLDER].
#[path = "../bindings/onefile.rs"]
mod onefile;

use onefile::{Memory, BUSY, GREATEST_LIMIT};
use std::sync::atomic::{AtomicU32, Ordering::SeqCst};
use std::time::{Duration, Instant};
use std::{panic, thread};

/// Enrols a caller and drops it, until two have met often, or for ten seconds. Says whether it was
/// enrolled still when it should have left.
fn stays(of: &Memory, number: u32, met: &AtomicU32, end: Instant) -> bool {
    let mut meets = 0;
    while met.load(SeqCst) < 300 && Instant::now() < end {
        meets = match of.enrol(number) {
            Ok(_) => {
                met.fetch_add(meets, SeqCst);
                0
            }
            Err(why) if why.0 == BUSY => 1,
            Err(_) => return true,
        }
    }
    false
}

/// Two memories of one file: what one answers the other adds to, and may ask for.
fn shares(path: &str) -> String {
    let one = Memory::share(path, 2, 4, GREATEST_LIMIT).expect("a memory");
    let other = Memory::share(path, 2, 4, GREATEST_LIMIT).expect("a memory");
    let (first, second) = (one.enrol_any().expect("0"), other.enrol_any().expect("1"));
    first.call("add 3 5").expect("a call");
    let sum = second.call("add 3 6").expect("a call").values[0];
    let told = one.last_reply_of(second.number).expect("an answer");
    let told = told.expect("a call").values[0];
    format!("{} {told}", sum * 10 + first.number * 2 + second.number)
}

/// All have let the file go, so the next life has all numbers, and the sum.
fn shares_again(path: &str) -> u32 {
    let one = Memory::share(path, 2, 4, GREATEST_LIMIT).expect("a memory");
    let own = one.enrol(1).expect("a caller");
    let sum = own.call("load 3").expect("a call").values[0];
    drop(own);
    one.detach().expect("a close");
    std::fs::remove_file(path).expect("a file");
    sum
}

/// A sum, and how many sequences are left, before they begin anew and after that.
fn renumbers() -> [u32; 4] {
    let of = Memory::open(1, 0, 3).expect("a memory");
    let mut told = [0; 4];
    for life in 0..2 {
        let own = of.enrol(0).expect("a caller");
        told[2 * life] = own.call("add 3 5").expect("a call").values[0];
        told[2 * life + 1] = own.sequences_left().expect("a count");
        drop(own);
        of.renumber().expect("other sequences");
    }
    told
}

fn main() {
    let of = Memory::open(2, 0, GREATEST_LIMIT).expect("a memory");
    let (met, end) = (AtomicU32::new(0), Instant::now() + Duration::from_secs(10));
    let stays_in = thread::scope(|scope| {
        let other = scope.spawn(|| stays(&of, 1, &met, end));
        stays(&of, 0, &met, end) | other.join().expect("the other")
    });
    let left = if stays_in {
        "a caller has not left"
    } else {
        "each caller has left"
    };
    println!("{left}");
    of.close().expect("a close");
    panic::set_hook(Box::new(|_| {}));
    let is_taken = panic::catch_unwind(|| Memory::in_file("/no/such\0folder", 1, 0, 1)).is_ok();
    println!(
        "a path with a zero byte: {}",
        if is_taken { "taken" } else { "refused" }
    );
    let [sum, left, later, again] = renumbers();
    println!("sums, and sequences left: {sum} {left} {later} {again}");
    let folder = std::env::args().nth(1).unwrap_or("/tmp".to_string());
    let path = format!("{folder}/onefile-bindings.rs");
    let _ = std::fs::remove_file(&path);
    let sums = shares(&path);
    println!(
        "two that share a file: {sums}, and later {}",
        shares_again(&path)
    );
}
