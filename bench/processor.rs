// The processor time that this process, or those that it has waited for, have used: what else runs on the machine is not in it.

/// `struct rusage` of 64-bit Linux: two pairs of seconds and microseconds, of the process and of the system for it, and what is not read here.
#[repr(C)]
#[derive(Default)]
struct Usage {
    user: [i64; 2],
    system: [i64; 2],
    rest: [i64; 14],
}

extern "C" {
    fn getrusage(who: i32, usage: *mut Usage) -> i32;
}

const SELF: i32 = 0;
const CHILDREN: i32 = -1;

fn used(who: i32) -> f64 {
    let mut usage = Usage::default();
    assert_eq!(unsafe { getrusage(who, &mut usage) }, 0);
    [usage.user, usage.system].iter().map(|[seconds, micros]| *seconds as f64 + *micros as f64 / 1e6).sum()
}

/// The seconds of processor time that a run takes.
pub fn seconds(run: impl FnOnce()) -> f64 {
    let start = used(SELF);
    run();
    used(SELF) - start
}

/// The same of the processes that a run waits for.
pub fn seconds_of_children(run: impl FnOnce()) -> f64 {
    let start = used(CHILDREN);
    run();
    used(CHILDREN) - start
}
