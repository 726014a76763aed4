//! A store behind a lock, with a redo log: a call writes its changes to the log, says that the log
//! is whole, makes the changes, and says that they are made.
#![allow(dead_code)]

use crate::work::{Changes, Instr, Reply, Shared, Store, MOST_CHANGES};
use std::sync::Mutex;

const LINE: usize = 64;

/// How what was written becomes durable.
pub trait Medium: Sync {
    /// The line of this address is to be written back.
    fn write_back(&self, address: *const u32);
    /// Ends after all that was to be written back is durable.
    fn fence(&self);
}

/// The state, on a line of its own, is twice the sequence of the last call, and one more while its
/// changes are not all made.
#[repr(align(64))]
struct Log {
    state: [u32; LINE / 4],
    entries: [u32; 1 + 2 * MOST_CHANGES],
}

struct Inside {
    log: Box<Log>,
    store: Store,
    seq: u32,
}

pub struct Logged<M> {
    inside: Mutex<Inside>,
    medium: M,
}

// Volatile, so that what is written stays in its order.
fn write(word: &mut u32, number: u32) {
    unsafe { (word as *mut u32).write_volatile(number) };
}

impl<M: Medium> Logged<M> {
    pub fn new(medium: M) -> Logged<M> {
        let log = Box::new(Log {
            state: [0; LINE / 4],
            entries: [0; 1 + 2 * MOST_CHANGES],
        });
        let inside = Mutex::new(Inside {
            log,
            store: Store::new(),
            seq: 0,
        });
        Logged { inside, medium }
    }

    fn log_changes(&self, log: &mut Log, changes: &Changes) {
        let words = changes.words();
        write(&mut log.entries[0], words.len() as u32);
        for (at, &(place, number)) in words.iter().enumerate() {
            write(&mut log.entries[1 + 2 * at], place);
            write(&mut log.entries[2 + 2 * at], number);
        }
        for line in log.entries[..1 + 2 * words.len()].chunks(LINE / 4) {
            self.medium.write_back(line.as_ptr());
        }
        self.medium.fence();
    }

    fn set_state(&self, log: &mut Log, state: u32) {
        write(&mut log.state[0], state);
        self.medium.write_back(log.state.as_ptr());
        self.medium.fence();
    }

    fn apply(&self, store: &mut Store, changes: &Changes) {
        let mut last = 0;
        store.apply(changes, |word| {
            let line = word as usize / LINE;
            if line != last {
                self.medium.write_back(word);
                last = line;
            }
        });
        self.medium.fence();
    }
}

impl<M: Medium> Shared for Logged<M> {
    fn call(&self, script: &[Instr]) -> (u32, Reply) {
        let mut inside = self.inside.lock().unwrap();
        let Inside { log, store, seq } = &mut *inside;
        *seq += 1;
        let (reply, changes) = store.look(script);
        self.log_changes(log, &changes);
        self.set_state(log, 2 * *seq + 1);
        self.apply(store, &changes);
        self.set_state(log, 2 * *seq);
        (*seq, reply)
    }

    fn into_store(self) -> Store {
        self.inside.into_inner().unwrap().store
    }
}
