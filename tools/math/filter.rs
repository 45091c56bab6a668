//! The reference as a filter program, the kind that accuracy.py asks.
//!
//! In: a line `E`, `L` or `P` (exp, ln, ln_1p), a space, and the 16 digits
//! of the argument's bits. Out: a line with the 16 digits of the result's.

mod reference;

use std::fmt::Write;
use std::io;

fn answer(line: &str) -> Option<u64> {
    let (function, digits) = line.split_once(' ')?;
    let function = match function {
        "E" => reference::exp,
        "L" => reference::ln,
        "P" => reference::ln_1p,
        _ => return None,
    };
    let argument = u64::from_str_radix(digits, 16).ok()?;
    Some(reference::bits(function(f64::from_bits(argument))))
}

fn main() -> io::Result<()> {
    let mut answers = String::new();
    for line in io::read_to_string(io::stdin())?.lines() {
        match answer(line) {
            Some(bits) => writeln!(answers, "{bits:016x}").expect("a string has room"),
            None => return Err(io::Error::other(format!("not a question: {line}"))),
        }
    }
    io::Write::write_all(&mut io::stdout(), answers.as_bytes())
}
