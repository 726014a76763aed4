//! A store behind a lock with a redo log, and each changed line is written back by clwb and
//! awaited by sfence: mutex_flush N S. The status is 3 if the processor has no clwb.
mod log;
mod work;

#[cfg(target_arch = "x86_64")]
mod lines {
    use std::arch::asm;
    use std::arch::x86_64::{__cpuid_count, _mm_sfence};

    pub struct Lines;

    impl crate::log::Medium for Lines {
        fn write_back(&self, address: *const u32) {
            unsafe { asm!("clwb [{}]", in(reg) address, options(nostack, preserves_flags)) }
        }

        fn fence(&self) {
            unsafe { _mm_sfence() }
        }
    }

    /// Whether the processor has clwb.
    #[allow(unused_unsafe)]
    pub fn are_there() -> bool {
        let (all, flags) = unsafe { (__cpuid_count(0, 0), __cpuid_count(7, 0)) };
        all.eax >= 7 && flags.ebx >> 24 & 1 == 1
    }
}

#[cfg(target_arch = "x86_64")]
fn main() {
    if lines::are_there() {
        return crate::work::load(log::Logged::new(lines::Lines));
    }
    no_lines();
}

#[cfg(not(target_arch = "x86_64"))]
fn main() {
    no_lines();
}

fn no_lines() {
    eprintln!("the processor has no clwb");
    std::process::exit(3);
}
