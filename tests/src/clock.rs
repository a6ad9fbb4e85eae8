//! CPU time: what else the machine does is not in it.

use std::time::Duration;

#[repr(C)]
struct Time {
    seconds: i64,
    rest: i64,
}

#[repr(C)]
struct Usage {
    user: Time,
    system: Time,
    others: [i64; 14],
}

extern "C" {
    fn clock_gettime(clock: i32, time: *mut Time) -> i32;
    fn getrusage(who: i32, usage: *mut Usage) -> i32;
}

const THREAD_CPUTIME: i32 = 3;
const CHILDREN: i32 = -1;

/// CPU time of this thread.
pub fn thread() -> Duration {
    let mut t = Time { seconds: 0, rest: 0 };
    assert_eq!(unsafe { clock_gettime(THREAD_CPUTIME, &mut t) }, 0);
    Duration::new(t.seconds as u64, t.rest as u32)
}

/// CPU time of the processes that this one started and that have ended.
pub fn children() -> Duration {
    let zero = || Time { seconds: 0, rest: 0 };
    let mut u = Usage { user: zero(), system: zero(), others: [0; 14] };
    assert_eq!(unsafe { getrusage(CHILDREN, &mut u) }, 0);
    let micros = |t: &Time| Duration::new(t.seconds as u64, t.rest as u32 * 1000);
    micros(&u.user) + micros(&u.system)
}
