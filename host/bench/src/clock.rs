//! Processor time of this thread, so that other work on the machine does not count; and the least of several times, since it still disturbs.

use std::mem::MaybeUninit;
use std::time::Duration;

#[repr(C)]
struct Timespec {
    seconds: i64,
    nanoseconds: i64,
}

const THREAD_CPU_TIME: i32 = 3;

extern "C" {
    fn clock_gettime(clock: i32, time: *mut Timespec) -> i32;
}

fn now() -> Duration {
    let mut time = MaybeUninit::<Timespec>::uninit();
    // SAFETY: the pointer is valid for one timespec of x86-64 Linux, which a call that gives 0 has filled in.
    let time = unsafe {
        assert_eq!(clock_gettime(THREAD_CPU_TIME, time.as_mut_ptr()), 0);
        time.assume_init()
    };
    Duration::new(time.seconds as u64, time.nanoseconds as u32)
}

/// The least time of one call, out of so many.
pub fn least(times: u32, mut call: impl FnMut()) -> Duration {
    (0..times)
        .map(|_| {
            let start = now();
            call();
            now() - start
        })
        .min()
        .expect("once at least")
}

/// Nanoseconds of one call: the least of sixty short batches.
pub fn nanoseconds(mut call: impl FnMut()) -> f64 {
    let once = least(3, &mut call).as_secs_f64().max(1e-9);
    let calls = (0.002 / once).ceil().min(1e6) as u32;
    least(60, || (0..calls).for_each(|_| call())).as_secs_f64() * 1e9 / f64::from(calls)
}
