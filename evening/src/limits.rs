//! How many files may be open at once, which bounds the threads.

/// RLIMIT_NOFILE.
const OPEN_FILES: i32 = 7;
/// A thread has a file that it reads, one that it writes and its part of the page; the program has some besides.
const OF_A_THREAD: u64 = 3;
const OF_THE_PROGRAM: u64 = 16;

extern "C" {
    fn getrlimit(what: i32, limits: *mut [u64; 2]) -> i32;
    fn setrlimit(what: i32, limits: *const [u64; 2]) -> i32;
}

/// So many threads as are wanted, or as the system lets the program open files for, once it has asked for all that it may.
pub fn threads(wanted: usize) -> usize {
    let mut limits = [0; 2];
    // Safety: the two numbers of a `struct rlimit`, the limit now and the most that it may be, are read and written.
    unsafe {
        if getrlimit(OPEN_FILES, &mut limits) != 0 {
            return wanted;
        }
        if setrlimit(OPEN_FILES, &[limits[1]; 2]) == 0 {
            limits[0] = limits[1];
        }
    }
    let most = limits[0].saturating_sub(OF_THE_PROGRAM) / OF_A_THREAD;
    wanted.min(usize::try_from(most).unwrap_or(usize::MAX)).max(1)
}
