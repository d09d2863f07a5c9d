//! The machine's own counter of instructions, where the system lends one (Linux, `perf_event_open`). Many virtual machines
//! have none; then instructions are counted by tools/instructions.sh.

use std::fs::File;
use std::io::Read;

/// Counts the instructions of this thread, those of the system apart.
pub struct Counter {
    file: File,
}

impl Counter {
    /// The counter, running; none if the machine or the system has none.
    pub fn open() -> Option<Counter> {
        let file = system::open()?;
        let mut counter = Counter { file };
        // A counter that finds no place in the hardware opens, and cannot be read.
        counter.read()?;
        Some(counter)
    }

    /// Instructions since it was opened.
    pub fn read(&mut self) -> Option<u64> {
        let mut bytes = [0; 8];
        self.file.read_exact(&mut bytes).ok()?;
        Some(u64::from_ne_bytes(bytes))
    }
}

#[cfg(all(
    target_os = "linux",
    any(target_arch = "x86_64", target_arch = "aarch64")
))]
mod system {
    use std::ffi::{c_int, c_long, c_ulong};
    use std::fs::File;
    use std::os::fd::FromRawFd;

    extern "C" {
        /// The C library's way into the system, which the standard library links.
        fn syscall(number: c_long, ...) -> c_long;
    }

    /// The system's number of `perf_event_open`.
    const PERF_EVENT_OPEN: c_long = if cfg!(target_arch = "x86_64") {
        298
    } else {
        241
    };
    const HARDWARE: u64 = 0;
    const INSTRUCTIONS: u64 = 1;
    /// The first edition of `perf_event_attr`.
    const ATTRIBUTE_BYTES: u64 = 64;
    /// Flags: always in the hardware, never shared out by time.
    const PINNED: u64 = 1 << 2;
    const WITHOUT_KERNEL: u64 = 1 << 5;
    const WITHOUT_HYPERVISOR: u64 = 1 << 6;
    const THIS_THREAD: c_int = 0;
    const ANY_PROCESSOR: c_int = -1;
    const NO_GROUP: c_int = -1;
    const NO_FLAGS: c_ulong = 0;

    pub fn open() -> Option<File> {
        // `perf_event_attr` in words of eight bytes: kind and size, what is counted, three of samples, flags, two unused.
        // The kind is the first half of the first word in the machine's order of bytes.
        let first = if cfg!(target_endian = "little") {
            HARDWARE | ATTRIBUTE_BYTES << 32
        } else {
            HARDWARE << 32 | ATTRIBUTE_BYTES
        };
        let flags = PINNED | WITHOUT_KERNEL | WITHOUT_HYPERVISOR;
        let attribute: [u64; 8] = [first, INSTRUCTIONS, 0, 0, 0, flags, 0, 0];
        // SAFETY: the address is that of a live attribute of the size that it names; the system only reads it.
        let answer = unsafe {
            syscall(
                PERF_EVENT_OPEN,
                attribute.as_ptr(),
                THIS_THREAD,
                ANY_PROCESSOR,
                NO_GROUP,
                NO_FLAGS,
            )
        };
        let descriptor = c_int::try_from(answer).ok().filter(|d| *d >= 0)?;
        // SAFETY: the system has just given this descriptor, and nobody else has it.
        Some(unsafe { File::from_raw_fd(descriptor) })
    }
}

#[cfg(not(all(
    target_os = "linux",
    any(target_arch = "x86_64", target_arch = "aarch64")
)))]
mod system {
    pub fn open() -> Option<std::fs::File> {
        None
    }
}
