//! The work of `onefile load N S` for a store behind a lock: its scripts, a store, callers in
//! threads, and the same summary. Nothing here is proved. It knows the two instructions that the
//! scripts of a load have, and no recovery.
#![allow(dead_code)] // each program uses a part of it

use std::collections::BTreeMap;
use std::time::Instant;

pub const GREATEST: u32 = 2_147_483_647;
const REGISTERS: u32 = 16;
const BLOCKS: u32 = 512;
const WORDS: usize = (REGISTERS + 2 * BLOCKS) as usize;
const OWN_KEYS: u32 = 31;
const MOST_INSTRS: usize = 16;
/// A put of a new key changes two words, its key and its number.
pub const MOST_CHANGES: usize = 2 * MOST_INSTRS;

pub enum Instr {
    Add { reg: u32, value: u32 },
    Put { key: u32, value: u32 },
}

/// What one call answered: a number or none for each instruction, or where the script aborted.
#[derive(Clone, Copy)]
pub struct Reply {
    numbers: [Option<u32>; MOST_INSTRS],
    len: usize,
    abort: Option<usize>,
}

/// A call in the history: at which sequence it took effect, whose it is, and its reply.
pub struct Entry {
    seq: u32,
    caller: u32,
    index: u32,
    reply: Reply,
}

/// What a script changes: words of the store by place, and the keys that are new.
pub struct Changes {
    words: [(u32, u32); MOST_CHANGES],
    len: usize,
    new_keys: [(u32, u32); MOST_INSTRS],
    new: usize,
}

impl Changes {
    fn none() -> Changes {
        Changes {
            words: [(0, 0); MOST_CHANGES],
            len: 0,
            new_keys: [(0, 0); MOST_INSTRS],
            new: 0,
        }
    }

    pub fn words(&self) -> &[(u32, u32)] {
        &self.words[..self.len]
    }

    fn set(&mut self, place: u32, number: u32) {
        match self.words[..self.len].iter_mut().find(|it| it.0 == place) {
            Some(word) => word.1 = number,
            None => {
                self.words[self.len] = (place, number);
                self.len += 1;
            }
        }
    }
}

#[repr(align(64))]
struct Words([u32; WORDS]);

/// The words are the registers, and then for each key its key and its number. The index finds the
/// place of a key's number.
pub struct Store {
    words: Box<Words>,
    index: BTreeMap<u32, u32>,
}

impl Store {
    pub fn new() -> Store {
        Store {
            words: Box::new(Words([0; WORDS])),
            index: BTreeMap::new(),
        }
    }

    fn number(&self, place: u32, changes: &Changes) -> u32 {
        let changed = changes.words().iter().find(|it| it.0 == place);
        changed.map_or(self.words.0[place as usize], |it| it.1)
    }

    fn place_of(&self, key: u32, changes: &Changes) -> Option<u32> {
        let new = changes.new_keys[..changes.new]
            .iter()
            .find(|it| it.0 == key);
        self.index.get(&key).copied().or(new.map(|it| it.1))
    }

    /// What a script answers and changes here. A script that aborts changes nothing.
    pub fn look(&self, script: &[Instr]) -> (Reply, Changes) {
        let mut changes = Changes::none();
        let mut reply = Reply {
            numbers: [None; MOST_INSTRS],
            len: 0,
            abort: None,
        };
        for (at, instr) in script.iter().enumerate() {
            match self.look_at(instr, &mut changes) {
                Ok(number) => reply.numbers[at] = number,
                Err(()) => {
                    reply.abort = Some(at);
                    return (reply, Changes::none());
                }
            }
            reply.len += 1;
        }
        (reply, changes)
    }

    fn look_at(&self, instr: &Instr, changes: &mut Changes) -> Result<Option<u32>, ()> {
        match *instr {
            Instr::Add { reg, value } => {
                let sum = self.number(reg, changes) + value;
                if sum > GREATEST {
                    return Err(());
                }
                changes.set(reg, sum);
                Ok(Some(sum))
            }
            Instr::Put { key, value } => {
                if let Some(place) = self.place_of(key, changes) {
                    let old = self.number(place, changes);
                    changes.set(place, value);
                    return Ok(Some(old));
                }
                let used = (self.index.len() + changes.new) as u32;
                if used == BLOCKS {
                    return Err(());
                }
                let place = REGISTERS + 2 * used;
                changes.set(place, key);
                changes.set(place + 1, value);
                changes.new_keys[changes.new] = (key, place + 1);
                changes.new += 1;
                Ok(None)
            }
        }
    }

    /// Makes the changes, and names the address of each word that it has changed.
    pub fn apply(&mut self, changes: &Changes, mut changed: impl FnMut(*const u32)) {
        for &(place, number) in changes.words() {
            let word: *mut u32 = &mut self.words.0[place as usize];
            // Volatile, so that it comes after the log, which is written before it.
            unsafe { word.write_volatile(number) };
            changed(word);
        }
        for &(key, place) in &changes.new_keys[..changes.new] {
            self.index.insert(key, place);
        }
    }

    fn print(&self, callers: u32, calls: usize) {
        println!("onefile load 1\ncallers {callers}\ncalls {calls}");
        for (register, number) in self.words.0[..REGISTERS as usize].iter().enumerate() {
            if *number != 0 {
                println!("register {register} {number}");
            }
        }
        let values: u64 = self
            .index
            .values()
            .map(|&it| u64::from(self.words.0[it as usize]))
            .sum();
        println!("keys {}\nvalues {values}\nend", self.index.len());
    }
}

/// A store that callers share.
pub trait Shared: Sync {
    /// Runs a script, and gives the sequence at which it took effect.
    fn call(&self, script: &[Instr]) -> (u32, Reply);
    fn into_store(self) -> Store;
}

fn scripts_of(caller: u32, count: u32) -> Vec<Vec<Instr>> {
    let script = |index| {
        let add = Instr::Add {
            reg: index % REGISTERS,
            value: 1,
        };
        let key = OWN_KEYS * caller + index % OWN_KEYS;
        vec![add, Instr::Put { key, value: index }]
    };
    (0..count).map(script).collect()
}

fn calls_of(shared: &impl Shared, caller: u32, scripts: &[Vec<Instr>]) -> Vec<Entry> {
    let called = scripts.iter().zip(0..).map(|(script, index)| {
        let (seq, reply) = shared.call(script);
        Entry {
            seq,
            caller,
            index,
            reply,
        }
    });
    called.collect()
}

/// All callers at once, each in a thread of its own: their calls.
fn calls_of_all(shared: &impl Shared, scripts: &[Vec<Vec<Instr>>]) -> Vec<Entry> {
    std::thread::scope(|scope| {
        let started = scripts
            .iter()
            .zip(0..)
            .map(|(scripts, caller)| scope.spawn(move || calls_of(shared, caller, scripts)));
        let started: Vec<_> = started.collect();
        started
            .into_iter()
            .flat_map(|it| it.join().unwrap())
            .collect()
    })
}

/// The whole program: reads N and S from its words, prints the summary, and on standard error how
/// many calls were made in how many nanoseconds, from the first thread to the end of the last.
pub fn load(shared: impl Shared) {
    let words: Vec<u32> = std::env::args()
        .skip(1)
        .filter_map(|it| it.parse().ok())
        .collect();
    let &[callers, count] = &words[..] else {
        eprintln!("usage: N S, of callers and scripts");
        std::process::exit(2);
    };
    let scripts: Vec<_> = (0..callers)
        .map(|caller| scripts_of(caller, count))
        .collect();
    let begun = Instant::now();
    let mut history = calls_of_all(&shared, &scripts);
    let nanoseconds = begun.elapsed().as_nanos();
    history.sort_by_key(|it| it.seq);
    if !is_history(&history, callers) {
        eprintln!("this is no history");
        std::process::exit(1);
    }
    shared.into_store().print(callers, history.len());
    eprintln!("calls {} nanoseconds {nanoseconds}", history.len());
}

/// Whether each sequence is there once, each caller's calls are in order, and none aborted.
fn is_history(history: &[Entry], callers: u32) -> bool {
    let mut next = vec![0; callers as usize];
    history.iter().zip(1..).all(|(entry, seq)| {
        let own = &mut next[entry.caller as usize];
        *own += 1;
        let is_whole = entry.reply.abort.is_none() && entry.reply.len == 2;
        entry.seq == seq && entry.index + 1 == *own && is_whole && entry.reply.numbers[0].is_some()
    })
}
