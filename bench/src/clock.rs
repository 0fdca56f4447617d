//! CPU time in seconds, of this thread and of the child processes that have ended, and the processor that both run on
//! (Linux, 64 bits).

#[repr(C)]
#[derive(Clone, Copy, Default)]
struct Time {
    seconds: i64,
    /// Nanoseconds from the clock, microseconds from the usage.
    parts: i64,
}

#[repr(C)]
#[derive(Default)]
struct Usage {
    user: Time,
    system: Time,
    rest: [i64; 14],
}

extern "C" {
    fn clock_gettime(clock: i32, time: *mut Time) -> i32;
    fn getrusage(who: i32, usage: *mut Usage) -> i32;
    fn sched_getcpu() -> i32;
    fn sched_setaffinity(process: i32, bytes: usize, set: *const u64) -> i32;
}

const THREAD_CPU_TIME: i32 = 3;
const CHILDREN: i32 = -1;

pub fn thread() -> f64 {
    let mut time = Time::default();
    // SAFETY: the pointer is to a writable value of the call's layout.
    let answer = unsafe { clock_gettime(THREAD_CPU_TIME, &mut time) };
    assert_eq!(answer, 0, "no thread CPU clock");
    time.seconds as f64 + time.parts as f64 * 1e-9
}

/// User and system time together: only their sum is exact, the kernel divides it by samples.
pub fn children() -> f64 {
    let mut usage = Usage::default();
    // SAFETY: the pointer is to a writable value of the call's layout.
    let answer = unsafe { getrusage(CHILDREN, &mut usage) };
    assert_eq!(answer, 0, "no usage of child processes");
    let seconds = |t: Time| t.seconds as f64 + t.parts as f64 * 1e-6;
    seconds(usage.user) + seconds(usage.system)
}

/// Keeps this thread and the child processes that it starts on the processor that it is on now, where that is allowed:
/// processors of a machine can differ in what else they do.
pub fn stay() {
    // SAFETY: the first call takes nothing; the pointer is to a set of 16 * 64 processors.
    unsafe {
        let here = sched_getcpu();
        let mut set = [0u64; 16];
        if let Some(word) = usize::try_from(here).ok().and_then(|here| set.get_mut(here / 64)) {
            *word = 1 << (here % 64);
            sched_setaffinity(0, size_of_val(&set), set.as_ptr());
        }
    }
}
