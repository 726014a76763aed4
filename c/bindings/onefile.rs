//! onefile.h for Rust programs, as the programs here use it: std and `extern "C"` only. What is
//! held is in a box, since it must not move, and is let go with it.
#![allow(dead_code)] // each program uses a part

use std::cell::UnsafeCell;
use std::ffi::{c_char, c_int, c_void, CStr, CString};
use std::fmt;
use std::thread;
use std::time::Duration;

pub const DONE: c_int = 0;
pub const BUSY: c_int = 2;
pub const NO_CALL: c_int = 9;
pub const STOPPED: c_int = 10;
pub const ABSENT: c_int = 15;
pub const NO_ROOM: c_int = 16;
pub const NO_FILE: c_int = 19;
pub const NOT_YET: c_int = 27;
pub const CAUSE_SHORT: u32 = 2;
pub const GREATEST_LIMIT: u32 = 4_294_967_294;
pub const NO_END: u64 = u64::MAX;
const MOST_TRIES: u32 = 1000;
const MOST_CALLERS: usize = 64;
const MOST_INSTRS: usize = 16;

// The structs of onefile.h.
#[repr(C)]
struct Slot {
    state: u32,
    at: *mut c_void,
}

#[repr(C)]
struct Guarded {
    busy: u32,
    shared: u32,
    slot: Slot,
    apart: [u8; 64],
}

#[repr(C)]
struct RawMemory {
    memory: Guarded,
    caller: [Guarded; MOST_CALLERS],
}

/// What a call answered, as `onefile_reply` in onefile.h.
#[repr(C)]
#[derive(Default, Clone, Copy)]
pub struct Reply {
    pub seq: u32,
    pub announced: u32,
    pub len: u32,
    pub place: u32,
    pub cause: u32,
    pub ticket: u32,
    pub steps: u64,
    pub given: [u32; MOST_INSTRS],
    pub values: [u32; MOST_INSTRS],
}

#[link(name = "onefile", kind = "static")]
extern "C" {
    fn onefile_name(answer: c_int) -> *const c_char;
    fn onefile_open(memory: *mut RawMemory, callers: u32, blocks: u32, limit: u32) -> c_int;
    fn onefile_reopen(memory: *mut RawMemory, saved: *mut Guarded) -> c_int;
    fn onefile_open_file(
        memory: *mut RawMemory,
        path: *const c_char,
        callers: u32,
        blocks: u32,
        limit: u32,
    ) -> c_int;
    fn onefile_reopen_file(
        memory: *mut RawMemory,
        path: *const c_char,
        limit: u32,
        saved: *mut Guarded,
    ) -> c_int;
    fn onefile_share_file(
        memory: *mut RawMemory,
        path: *const c_char,
        callers: u32,
        blocks: u32,
        limit: u32,
    ) -> c_int;
    fn onefile_enrol(memory: *mut RawMemory, number: u32) -> c_int;
    fn onefile_enrol_any(memory: *mut RawMemory, number: *mut u32) -> c_int;
    fn onefile_leave(memory: *mut RawMemory, number: u32) -> c_int;
    fn onefile_close(memory: *mut RawMemory, saved: *mut Guarded) -> c_int;
    fn onefile_renumber(memory: *mut RawMemory, saved: *mut Guarded) -> c_int;
    fn onefile_sequences_left(memory: *mut RawMemory, number: u32, left: *mut u32) -> c_int;
    fn onefile_free(memory: *mut RawMemory) -> c_int;
    fn onefile_call_text_within(
        memory: *mut RawMemory,
        number: u32,
        text: *const u8,
        length: usize,
        steps: u64,
        reply: *mut Reply,
    ) -> c_int;
    fn onefile_last_reply_of(memory: *mut RawMemory, number: u32, reply: *mut Reply) -> c_int;
    fn onefile_go_on(memory: *mut RawMemory, number: u32, steps: u64, reply: *mut Reply) -> c_int;
    fn onefile_register(saved: *mut Guarded, register: u32, value: *mut u32) -> c_int;
    fn onefile_key(saved: *mut Guarded, key: u32, value: *mut u32) -> c_int;
    fn onefile_ticket(saved: *mut Guarded, number: u32, ticket: *mut u32) -> c_int;
    fn onefile_last_reply(saved: *mut Guarded, number: u32, reply: *mut Reply) -> c_int;
    fn onefile_image(saved: *mut Guarded, buffer: *mut u8, room: usize, size: *mut usize) -> c_int;
    fn onefile_from_image(saved: *mut Guarded, text: *const u8, length: usize) -> c_int;
    fn onefile_free_saved(saved: *mut Guarded) -> c_int;
}

/// An answer that is not wanted.
pub struct Refusal(pub c_int);

impl fmt::Debug for Refusal {
    fn fmt(&self, f: &mut fmt::Formatter<'_>) -> fmt::Result {
        f.write_str(name(self.0))
    }
}

/// The name of an answer, as "ONEFILE_DONE".
pub fn name(answer: c_int) -> &'static str {
    // SAFETY: each name is a constant of the library.
    unsafe { CStr::from_ptr(onefile_name(answer)) }
        .to_str()
        .unwrap_or("ONEFILE_?")
}

fn wanted(answer: c_int, want: c_int) -> Result<(), Refusal> {
    if answer == want {
        Ok(())
    } else {
        Err(Refusal(answer))
    }
}

/// A memory. It is let go with its callers, and nothing of it is saved, if it was not closed.
pub struct Memory(Box<UnsafeCell<RawMemory>>);

// SAFETY: any thread may call any function of the library on any object at any time.
unsafe impl Send for Memory {}
unsafe impl Sync for Memory {}

// SAFETY, of all calls below: the pointers are those of the boxes and of the slices that are
// borrowed, an object is all zeros before its first use, and nothing copies or moves it.
impl Memory {
    fn none() -> Memory {
        Memory(Box::new(UnsafeCell::new(unsafe { std::mem::zeroed() })))
    }

    pub fn open(callers: u32, blocks: u32, limit: u32) -> Result<Memory, Refusal> {
        let memory = Memory::none();
        wanted(
            unsafe { onefile_open(memory.0.get(), callers, blocks, limit) },
            DONE,
        )?;
        Ok(memory)
    }

    pub fn reopen(saved: &Saved) -> Result<Memory, Refusal> {
        let memory = Memory::none();
        wanted(
            unsafe { onefile_reopen(memory.0.get(), saved.0.get()) },
            DONE,
        )?;
        Ok(memory)
    }

    /// A memory in a file: it goes on from there, or the file is made. A path has no zero byte.
    pub fn in_file(path: &str, callers: u32, blocks: u32, limit: u32) -> Result<Memory, Refusal> {
        let memory = Memory::none();
        let path = CString::new(path).expect("a path");
        let (held, name) = (memory.0.get(), path.as_ptr());
        let answer = match unsafe { onefile_reopen_file(held, name, limit, std::ptr::null_mut()) } {
            NO_FILE => unsafe { onefile_open_file(held, name, callers, blocks, limit) },
            answer => answer,
        };
        wanted(answer, DONE)?;
        Ok(memory)
    }

    /// A memory in a file that other processes may have too: it is made, recovered or joined. A
    /// path has no zero byte.
    pub fn share(path: &str, callers: u32, blocks: u32, limit: u32) -> Result<Memory, Refusal> {
        let memory = Memory::none();
        let path = CString::new(path).expect("a path");
        let (held, name) = (memory.0.get(), path.as_ptr());
        wanted(
            unsafe { onefile_share_file(held, name, callers, blocks, limit) },
            DONE,
        )?;
        Ok(memory)
    }

    /// Lets a shared file go, which all callers of this process have left.
    pub fn detach(self) -> Result<(), Refusal> {
        wanted(
            unsafe { onefile_close(self.0.get(), std::ptr::null_mut()) },
            DONE,
        )
    }

    /// Closes the memory, which all callers have left.
    pub fn close(self) -> Result<Saved, Refusal> {
        let saved = Saved::none();
        wanted(unsafe { onefile_close(self.0.get(), saved.0.get()) }, DONE)?;
        Ok(saved)
    }

    /// Has the sequences of the memory begin anew, which all callers have left, and gives what it
    /// has left.
    pub fn renumber(&self) -> Result<Saved, Refusal> {
        let saved = Saved::none();
        wanted(unsafe { onefile_renumber(self.0.get(), saved.0.get()) }, DONE)?;
        Ok(saved)
    }

    /// What the last call of a number that is held answered, while others go on. None if none is.
    pub fn last_reply_of(&self, number: u32) -> Result<Option<Reply>, Refusal> {
        let mut reply = Reply::default();
        loop {
            match unsafe { onefile_last_reply_of(self.0.get(), number, &mut reply) } {
                BUSY => thread::yield_now(),
                ABSENT => return Ok(None),
                answer => return wanted(answer, DONE).map(|()| Some(reply)),
            }
        }
    }

    /// A caller with the first number that is free.
    pub fn enrol_any(&self) -> Result<Caller<'_>, Refusal> {
        let mut number = 0;
        wanted(
            unsafe { onefile_enrol_any(self.0.get(), &mut number) },
            DONE,
        )?;
        Ok(Caller {
            memory: self,
            number,
        })
    }

    /// A caller with this number. If it is not free yet, this tries again for a second.
    pub fn enrol(&self, number: u32) -> Result<Caller<'_>, Refusal> {
        let mut answer = NOT_YET;
        for tries in 0..MOST_TRIES {
            if answer == NOT_YET {
                thread::sleep(Duration::from_millis(u64::from(tries > 0)));
                answer = unsafe { onefile_enrol(self.0.get(), number) };
            }
        }
        wanted(answer, DONE)?;
        Ok(Caller {
            memory: self,
            number,
        })
    }
}

impl Drop for Memory {
    fn drop(&mut self) {
        unsafe { onefile_free(self.0.get()) };
    }
}

/// A caller that is enrolled. It leaves when it is dropped. If another one enrols or leaves at that
/// moment, it tries again.
pub struct Caller<'a> {
    memory: &'a Memory,
    pub number: u32,
}

impl Caller<'_> {
    fn within(&self, text: &str, steps: u64, want: c_int) -> Result<Reply, Refusal> {
        let mut reply = Reply::default();
        let (memory, length) = (self.memory.0.get(), text.len());
        let answer = unsafe {
            onefile_call_text_within(
                memory,
                self.number,
                text.as_ptr(),
                length,
                steps,
                &mut reply,
            )
        };
        wanted(answer, want)?;
        Ok(reply)
    }

    /// Runs a script.
    pub fn call(&self, text: &str) -> Result<Reply, Refusal> {
        self.within(text, NO_END, DONE)
    }

    /// Ends the open call, which a killed owner of the number may have left. None if none is.
    pub fn go_on(&self) -> Result<Option<Reply>, Refusal> {
        let mut reply = Reply::default();
        match unsafe { onefile_go_on(self.memory.0.get(), self.number, NO_END, &mut reply) } {
            NO_CALL => Ok(None),
            answer => wanted(answer, DONE).map(|()| Some(reply)),
        }
    }

    /// How many sequences are left at most, as far as this caller knows.
    pub fn sequences_left(&self) -> Result<u32, Refusal> {
        let mut left = 0;
        wanted(
            unsafe { onefile_sequences_left(self.memory.0.get(), self.number, &mut left) },
            DONE,
        )?;
        Ok(left)
    }

    /// Runs a script that is stopped after so many steps.
    pub fn stop_in(&self, text: &str, steps: u64) -> Result<Reply, Refusal> {
        self.within(text, steps, STOPPED)
    }
}

impl Drop for Caller<'_> {
    fn drop(&mut self) {
        while unsafe { onefile_leave(self.memory.0.get(), self.number) } == BUSY {
            thread::yield_now();
        }
    }
}

/// What a memory has left.
pub struct Saved(Box<UnsafeCell<Guarded>>);

impl Saved {
    fn none() -> Saved {
        Saved(Box::new(UnsafeCell::new(unsafe { std::mem::zeroed() })))
    }

    pub fn from_image(text: &[u8]) -> Result<Saved, Refusal> {
        let saved = Saved::none();
        wanted(
            unsafe { onefile_from_image(saved.0.get(), text.as_ptr(), text.len()) },
            DONE,
        )?;
        Ok(saved)
    }

    pub fn image(&self) -> Result<Vec<u8>, Refusal> {
        let mut size = 0;
        let none = std::ptr::null_mut();
        wanted(
            unsafe { onefile_image(self.0.get(), none, 0, &mut size) },
            NO_ROOM,
        )?;
        let mut text = vec![0; size];
        wanted(
            unsafe { onefile_image(self.0.get(), text.as_mut_ptr(), size, &mut size) },
            DONE,
        )?;
        Ok(text)
    }

    pub fn register(&self, register: u32) -> Result<u32, Refusal> {
        let mut value = 0;
        wanted(
            unsafe { onefile_register(self.0.get(), register, &mut value) },
            DONE,
        )?;
        Ok(value)
    }

    pub fn key(&self, key: u32) -> Result<Option<u32>, Refusal> {
        let mut value = 0;
        match unsafe { onefile_key(self.0.get(), key, &mut value) } {
            ABSENT => Ok(None),
            answer => wanted(answer, DONE).map(|()| Some(value)),
        }
    }

    /// The number of a caller's last call that is held; 0 if none is.
    pub fn ticket(&self, number: u32) -> Result<u32, Refusal> {
        let mut ticket = 0;
        wanted(
            unsafe { onefile_ticket(self.0.get(), number, &mut ticket) },
            DONE,
        )?;
        Ok(ticket)
    }

    pub fn last_reply(&self, number: u32) -> Result<Reply, Refusal> {
        let mut reply = Reply::default();
        wanted(
            unsafe { onefile_last_reply(self.0.get(), number, &mut reply) },
            DONE,
        )?;
        Ok(reply)
    }
}

impl Drop for Saved {
    fn drop(&mut self) {
        unsafe { onefile_free_saved(self.0.get()) };
    }
}
