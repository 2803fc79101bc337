//! The table of times.

use std::time::Duration;

pub fn head() {
    println!("| call | proved | plain Rust | ratio |");
    println!("|---|---:|---:|---:|");
}

/// One line: the medians and how many times longer the proved side takes.
pub fn line(name: &str, proved: Vec<Duration>, plain: Vec<Duration>) {
    let (proved, plain) = (median(proved), median(plain));
    println!("| {name} | {proved:.2} | {plain:.2} | {:.2} |", proved / plain);
}

pub fn level_one_head() {
    println!("\n| level-one call | level one | full | ratio | plain Rust | ratio |");
    println!("|---|---:|---:|---:|---:|---:|");
}

pub fn lent_head() {
    println!("\n| call, the box record lent | lent | by value | ratio | plain Rust | ratio |");
    println!("|---|---:|---:|---:|---:|---:|");
}

/// One line: the medians, and how many times longer the first takes than the second,
/// and than plain Rust, which is the third.
pub fn line_of_three(name: &str, times: [Vec<Duration>; 3]) {
    let [first, second, plain] = times.map(median);
    let (by_second, by_plain) = (first / second, first / plain);
    println!("| {name} | {first:.2} | {second:.2} | {by_second:.2} | {plain:.2} | {by_plain:.2} |");
}

/// The lines after it are of [`line`].
pub fn desk_head() {
    println!("\n| desk | proved | plain Rust | ratio |");
    println!("|---|---:|---:|---:|");
}

/// In microseconds.
fn median(mut times: Vec<Duration>) -> f64 {
    times.sort();
    times[times.len() / 2].as_secs_f64() * 1e6
}
