//! Says which case was under way if the library stops the program or does not end.

use std::process::exit;
use std::sync::atomic::{AtomicU64, Ordering};

extern "C" {
    fn signal(number: i32, handler: extern "C" fn(i32)) -> usize;
    fn alarm(seconds: u32) -> u32;
}

// Linux: illegal instruction, abort, bus error, arithmetic error, bad address, alarm.
const SIGNALS: [i32; 6] = [4, 6, 7, 8, 11, 14];
const SECONDS: u32 = 60;
const ALARM_EVERY: u64 = 1000;

static SEED: AtomicU64 = AtomicU64::new(0);
static CASE: AtomicU64 = AtomicU64::new(0);

extern "C" fn stopped(number: i32) {
    let (seed, case) = (SEED.load(Ordering::Relaxed), CASE.load(Ordering::Relaxed));
    println!("stopped by signal {number} in case {case}\nto repeat it: host 1 {seed} {case}");
    exit(1);
}

pub fn watch(seed: u64) {
    SEED.store(seed, Ordering::Relaxed);
    for number in SIGNALS {
        unsafe { signal(number, stopped) };
    }
    unsafe { alarm(SECONDS) };
}

// A thousand cases take far less than the alarm, so it rings only if one does not end.
pub fn next_case(number: u64) {
    CASE.store(number, Ordering::Relaxed);
    if number % ALARM_EVERY == 0 {
        unsafe { alarm(SECONDS) };
    }
}
