//! The command `glibc`: the library's hypot against glibc's own vectors, read from its math/auto-libm-test-out-hypot.

use crate::compare::same;
use crate::library;
use std::fs;
use std::process::ExitCode;

/// How a vector for binary32, rounded to nearest, begins: two operands, a colon, the result, a colon and flags follow.
const START: &str = "= hypot tonearest binary32 ";

/// A number as the file has it, as 0x3.fffff8p-128, which must be an f32.
fn number(word: &str) -> Option<f32> {
    if word == "plus_infty" {
        return Some(f32::INFINITY);
    }
    let (sign, size) = match word.strip_prefix('-') {
        Some(size) => (-1.0, size),
        None => (1.0, word),
    };
    let (digits, exponent) = size.strip_prefix("0x")?.split_once('p')?;
    let (whole, fraction) = digits.split_once('.').unwrap_or((digits, ""));
    let significand = u32::from_str_radix(&format!("{whole}{fraction}"), 16).ok()?;
    let exponent = exponent.parse::<i32>().ok()? - 4 * fraction.len() as i32;
    // Exact in f64: 32 bits, and an exponent that is far from its ends.
    let value = sign * f64::from(significand) * 2f64.powi(exponent);
    let narrow = value as f32;
    (f64::from(narrow) == value).then_some(narrow)
}

fn vector(words: &str) -> Option<(f32, f32, f32)> {
    let words: Vec<&str> = words.split_whitespace().collect();
    match words[..] {
        [x, y, ":", root, ":", ..] => Some((number(x)?, number(y)?, number(root)?)),
        _ => None,
    }
}

pub fn run(path: &str) -> ExitCode {
    let text = match fs::read_to_string(path) {
        Ok(text) => text,
        Err(error) => {
            eprintln!("{path}: {error}");
            return ExitCode::from(2);
        }
    };
    let (mut vectors, mut failures) = (0, 0);
    for words in text.lines().filter_map(|line| line.strip_prefix(START)) {
        vectors += 1;
        let agrees = vector(words).is_some_and(|(x, y, root)| same(library::hypot(x, y), root));
        if !agrees {
            failures += 1;
            println!("FAILED unreadable, or the library differs: {words}");
        }
    }
    println!("hypot: {vectors} vectors of glibc for binary32, {failures} failures");
    let ok = vectors > 0 && failures == 0;
    println!("glibc: {}", if ok { "ok" } else { "failed" });
    ExitCode::from(u8::from(!ok))
}
