//! The clock, and medians.
//!
//! The clock is the thread's own processor time: on a shared machine the time
//! in which others run is not in it, and it would fall on the longer runs,
//! which are the Rust's.

use std::time::Duration;

#[repr(C)]
struct Timespec {
    seconds: i64,
    nanoseconds: i64,
}

extern "C" {
    fn clock_gettime(clock: i32, time: *mut Timespec) -> i32;
}

/// CLOCK_THREAD_CPUTIME_ID of Linux.
const OWN_TIME: i32 = 3;

/// How long this thread has run.
pub fn own_time() -> Duration {
    let mut time = Timespec {
        seconds: 0,
        nanoseconds: 0,
    };
    // SAFETY: the pointer is to a live `timespec` as 64-bit Linux lays it out,
    // and the call does not keep it.
    let code = unsafe { clock_gettime(OWN_TIME, &mut time) };
    assert_eq!(code, 0, "no clock");
    Duration::new(time.seconds as u64, time.nanoseconds as u32)
}

/// The middle one of some times, in microseconds.
pub fn median(times: &[Duration]) -> f64 {
    let mut sorted = times.to_vec();
    sorted.sort();
    let middle = sorted.len() / 2;
    let at = |index: usize| sorted[index].as_secs_f64() * 1e6;
    match sorted.len() % 2 {
        1 => at(middle),
        _ => (at(middle - 1) + at(middle)) / 2.0,
    }
}

#[cfg(test)]
mod tests {
    use super::*;

    #[test]
    fn the_clock_goes_on() {
        let start = own_time();
        while own_time() == start {}
        assert!(own_time() > start);
    }

    #[test]
    fn the_middle_one() {
        let times: Vec<_> = [9, 1, 4].map(Duration::from_micros).into();
        assert_eq!(median(&times).round(), 4.0);
        let times: Vec<_> = [9, 1, 4, 2].map(Duration::from_micros).into();
        assert_eq!(median(&times).round(), 3.0);
    }
}
