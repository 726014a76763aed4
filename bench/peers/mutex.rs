//! A store behind a lock, and nothing of it is durable: mutex N S.
mod work;

use std::sync::Mutex;
use work::{Instr, Reply, Shared, Store};

struct Locked(Mutex<(Store, u32)>);

impl Shared for Locked {
    fn call(&self, script: &[Instr]) -> (u32, Reply) {
        let (store, seq) = &mut *self.0.lock().unwrap();
        *seq += 1;
        let (reply, changes) = store.look(script);
        store.apply(&changes, |_| ());
        (*seq, reply)
    }

    fn into_store(self) -> Store {
        self.0.into_inner().unwrap().0
    }
}

fn main() {
    work::load(Locked(Mutex::new((Store::new(), 0))));
}
