//! Numbers as they stand in the tables.

use crate::timing::Times;

/// A whole number with commas between thousands.
pub fn digits(number: u64) -> String {
    let plain = number.to_string();
    let mut text = String::new();
    for (place, digit) in plain.chars().enumerate() {
        if place > 0 && (plain.len() - place).is_multiple_of(3) {
            text.push(',');
        }
        text.push(digit);
    }
    text
}

/// A time in nanoseconds.
pub fn nanoseconds(time: f64) -> String {
    digits(time.round() as u64)
}

/// A ratio, and its lowest and highest.
pub fn ratios(times: &Times) -> String {
    let (lowest, highest) = times.spread;
    format!("{:.2} | {lowest:.2} to {highest:.2}", times.ratio)
}

/// A time's part of each file or extent, with a digit behind the point.
pub fn tenths(time: f64) -> String {
    let tenths = (time * 10.0).round() as u64;
    format!("{}.{}", digits(tenths / 10), tenths % 10)
}
