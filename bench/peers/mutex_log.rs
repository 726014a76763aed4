//! A store behind a lock with a redo log, without write-backs: mutex_log N S.
mod log;
mod work;

struct Memory;

impl log::Medium for Memory {
    fn write_back(&self, _: *const u32) {}
    fn fence(&self) {}
}

fn main() {
    work::load(log::Logged::new(Memory));
}
