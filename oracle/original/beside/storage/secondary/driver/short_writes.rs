//! A disk that takes only the first bytes of a write, by the limit on the length of files.
const RLIMIT_FSIZE: i32 = 1;
const SIGXFSZ: i32 = 25;
const SIG_IGN: usize = 1;

unsafe extern "C" {
    fn setrlimit(resource: i32, limits: *const [u64; 2]) -> i32;
    fn signal(signal: i32, handler: usize) -> usize;
}

/// A write past the limit is an error and no signal.
pub fn as_errors() {
    unsafe { signal(SIGXFSZ, SIG_IGN) };
}

/// No file may pass this length, or any may.
pub fn limit(length: Option<u64>) {
    let limits = [length.unwrap_or(u64::MAX), u64::MAX];
    assert_eq!(unsafe { setrlimit(RLIMIT_FSIZE, &limits) }, 0);
}
