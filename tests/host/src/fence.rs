//! Memory that ends at a fence: a page that must not be touched. What is lent to the library stands right before it, so
//! that a read or write past a lent length ends the run, with a line that names the seed.

use second::numbers::MOST_CAPACITY;
use second::tables::WAITING_NUMBERS;
use std::ffi::{c_int, c_void};
use std::io::Write;
use std::slice;
use std::sync::atomic::{AtomicU64, Ordering};

const PAGE: usize = 4_096;
const PAGES: usize = 16;
const BYTES: usize = PAGES * PAGE;
const WORDS: usize = BYTES / size_of::<u64>();

/// More than the rubbish behind a table.
const RUBBISH: usize = 64;
const _: () = assert!(WORDS >= MARKS + MOST_CAPACITY as usize * WAITING_NUMBERS + RUBBISH);

/// Marks stand before what is lent, against writes before its beginning.
const MARKS: usize = 8;
const MARK: u64 = 0x5E0F_E4CE_5E0F_E4CE;

pub struct Fenced {
    start: *mut u64,
}

impl Fenced {
    pub fn new() -> Fenced {
        const ANYWHERE: *mut c_void = std::ptr::null_mut();
        let length = (PAGES + 1) * PAGE;
        // SAFETY: fresh memory of our own, whose last page is then closed.
        let start = unsafe {
            let flags = MAP_PRIVATE | MAP_ANONYMOUS;
            let start = mmap(ANYWHERE, length, PROT_READ | PROT_WRITE, flags, -1, 0);
            assert_ne!(start as isize, -1, "no memory");
            let fence = start.byte_add(PAGES * PAGE);
            assert_eq!(mprotect(fence, PAGE, PROT_NONE), 0, "no fence");
            start.cast()
        };
        Fenced { start }
    }

    /// Puts the numbers right before the fence, and gives where they begin.
    pub fn put(&mut self, numbers: &[u64]) -> *mut u64 {
        let at = WORDS - numbers.len();
        let all = self.all();
        all[at - MARKS..at].fill(MARK);
        all[at..].copy_from_slice(numbers);
        all[at..].as_mut_ptr()
    }

    /// Takes the numbers back; false where a mark before them was overwritten.
    pub fn take(&mut self, numbers: &mut [u64]) -> bool {
        let at = WORDS - numbers.len();
        let all = self.all();
        numbers.copy_from_slice(&all[at..]);
        all[at - MARKS..at].iter().all(|&mark| mark == MARK)
    }

    /// Puts bytes right before the fence, and gives where they begin.
    pub fn put_bytes(&mut self, bytes: &[u8]) -> *mut u8 {
        let at = BYTES - bytes.len();
        let all = self.all_bytes();
        all[at - MARKS..at].fill(MARK as u8);
        all[at..].copy_from_slice(bytes);
        all[at..].as_mut_ptr()
    }

    /// Takes the bytes back; false where a mark before them was overwritten.
    pub fn take_bytes(&mut self, bytes: &mut [u8]) -> bool {
        let at = BYTES - bytes.len();
        let all = self.all_bytes();
        bytes.copy_from_slice(&all[at..]);
        all[at - MARKS..at].iter().all(|&mark| mark == MARK as u8)
    }

    fn all_bytes(&mut self) -> &mut [u8] {
        // SAFETY: this memory is ours alone, and readable and writable up to the fence.
        unsafe { slice::from_raw_parts_mut(self.start.cast(), BYTES) }
    }

    fn all(&mut self) -> &mut [u64] {
        // SAFETY: this memory is ours alone, and readable and writable up to the fence.
        unsafe { slice::from_raw_parts_mut(self.start, WORDS) }
    }
}

/// The seed that is being played, for the line about a touched fence.
static SEED: AtomicU64 = AtomicU64::new(0);

pub fn playing(seed: u64) {
    SEED.store(seed, Ordering::Relaxed);
}

/// From now on a touched fence is told.
pub fn watch() {
    // SAFETY: the handler only writes a line and ends the process.
    unsafe {
        signal(SIGSEGV, touched);
    }
}

extern "C" fn touched(_: c_int) {
    let mut line = [0; 128];
    let mut rest = &mut line[..];
    let seed = SEED.load(Ordering::Relaxed);
    let said = "a call read or wrote past what it was lent";
    let _ = writeln!(rest, "FAILED seed {seed}: {said}");
    let length = 128 - rest.len();
    // SAFETY: the line is ours and has this length.
    unsafe {
        write(1, line.as_ptr().cast(), length);
        _exit(1)
    }
}

// The few calls of the C library that this needs, as Linux on x86-64 has them.
const PROT_NONE: c_int = 0;
const PROT_READ: c_int = 1;
const PROT_WRITE: c_int = 2;
const MAP_PRIVATE: c_int = 2;
const MAP_ANONYMOUS: c_int = 0x20;
const SIGSEGV: c_int = 11;

extern "C" {
    fn mmap(
        at: *mut c_void,
        length: usize,
        may: c_int,
        flags: c_int,
        file: c_int,
        from: i64,
    ) -> *mut c_void;
    fn mprotect(at: *mut c_void, length: usize, may: c_int) -> c_int;
    fn signal(number: c_int, handler: extern "C" fn(c_int)) -> *mut c_void;
    fn write(file: c_int, bytes: *const c_void, length: usize) -> isize;
    fn _exit(status: c_int) -> !;
}
