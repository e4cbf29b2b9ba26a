//! The rows of a benchmark, as bench/recording.py keeps them.
#![allow(dead_code)]

/// A row that has no limit.
pub fn row(what: &str, value: f64, places: usize, unit: &str) {
    println!("= {what} | {value:.places$} | | {unit}");
}

/// A row that is to be at most so much, of which it returns whether it is.
pub fn at_most(what: &str, value: f64, places: usize, most: f64, unit: &str) -> bool {
    judged(what, value, places, ("<=", most), unit, value <= most)
}

/// A row that is to be at least so much, of which it returns whether it is.
pub fn at_least(what: &str, value: f64, places: usize, least: f64, unit: &str) -> bool {
    judged(what, value, places, (">=", least), unit, value >= least)
}

fn judged(what: &str, value: f64, places: usize, (sign, limit): (&str, f64), unit: &str, met: bool) -> bool {
    let mark = if met { "" } else { " | missed" };
    println!("= {what} | {value:.places$} | {sign} {limit} | {unit}{mark}");
    met
}
