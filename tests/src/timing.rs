//! What the programs that measure share: the lengths that they measure at, the
//! mean of several runs, and processor time.

use crate::message::BUFFER;
use std::io;

/// How many characters are in the buffer when the key of a cycle arrives; its
/// rub-out finds one more. The last is the most: with one more the key would end
/// the read.
pub const LENGTHS: [usize; 8] = [0, 16, 64, 130, 256, 512, 768, BUFFER as usize - 2];

/// The mean of all but the fastest and the slowest ninth.
pub fn middle(seconds: &[f64]) -> f64 {
    let mut sorted = seconds.to_vec();
    sorted.sort_by(f64::total_cmp);
    let out = sorted.len() / 9;
    let kept = &sorted[out..sorted.len() - out];
    kept.iter().sum::<f64>() / kept.len() as f64
}

/// Whose processor time is asked for; the numbers are those of the C library.
#[derive(Clone, Copy)]
pub enum Whose {
    Own = 0,
    /// Of the children that have ended.
    Children = -1,
}

/// Seconds of user and system time so far. The standard library does not tell
/// them. The layout is that of 64-bit Linux: user and system time in seconds and
/// microseconds, and counts.
pub fn processor_time(whose: Whose) -> io::Result<f64> {
    #[repr(C)]
    #[derive(Default)]
    struct Usage {
        user: [i64; 2],
        system: [i64; 2],
        counts: [i64; 14],
    }
    extern "C" {
        fn getrusage(who: i32, usage: *mut Usage) -> i32;
    }
    let mut usage = Usage::default();
    // Safe: the call fills the struct that it is lent, and keeps nothing.
    if unsafe { getrusage(whose as i32, &mut usage) } != 0 {
        return Err(io::Error::last_os_error());
    }
    let of = |time: [i64; 2]| time[0] as f64 + time[1] as f64 / 1e6;
    Ok(of(usage.user) + of(usage.system))
}
