//! When a sheet is made, by the clock of the place.

use std::ffi::{c_char, c_int, c_long};
use std::time::{SystemTime, UNIX_EPOCH};

use ward_reader::calendar;

/// The C library's time of day and date, in its order.
#[repr(C)]
struct Parts {
    second: c_int,
    minute: c_int,
    hour: c_int,
    day: c_int,
    month: c_int,
    year: c_int,
    weekday: c_int,
    of_year: c_int,
    summer: c_int,
    offset: c_long,
    zone: *const c_char,
}

/// The date and the time of day, as `Wed 2026-11-18 9:05`. SOURCE_DATE_EPOCH names another second, for pages that must be the same each
/// time.
pub fn now() -> String {
    let given = std::env::var("SOURCE_DATE_EPOCH").ok().and_then(|text| text.parse::<i64>().ok());
    let second =
        given.unwrap_or_else(|| SystemTime::now().duration_since(UNIX_EPOCH).map_or(0, |since| since.as_secs() as i64));
    let second = second + local(second);
    let (day, of_day) = (second.div_euclid(86_400), second.rem_euclid(86_400));
    format!("{} {}:{:02}", calendar::named(day), of_day / 3_600, of_day / 60 % 60)
}

/// The seconds by which the clock of the place is ahead.
fn local(second: i64) -> i64 {
    extern "C" {
        fn localtime_r(second: *const i64, parts: *mut Parts) -> *mut Parts;
    }
    let mut parts = Parts {
        second: 0,
        minute: 0,
        hour: 0,
        day: 0,
        month: 0,
        year: 0,
        weekday: 0,
        of_year: 0,
        summer: 0,
        offset: 0,
        zone: std::ptr::null(),
    };
    // SAFETY: both places are there for the call, and have the layout of the C library of a machine with 64 bits.
    match unsafe { localtime_r(&second, &mut parts).is_null() } {
        true => 0,
        false => parts.offset,
    }
}
