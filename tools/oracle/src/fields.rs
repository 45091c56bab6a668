//! The grammar of a line: how each kind of field is read and written. README.md has the table.

use std::fmt::Display;
use std::str::FromStr;

/// What a bad field answers.
pub type Read<T> = Result<T, String>;

pub fn number<T: FromStr>(field: &str) -> Read<T> {
    field.parse().map_err(|_| format!("not a number in range: {field}"))
}

pub fn float(field: &str) -> Read<f64> {
    match <[u8; 8]>::try_from(bytes(field)?) {
        Ok(bits) => Ok(f64::from_bits(u64::from_be_bytes(bits))),
        Err(_) => Err(format!("not 16 digits: {field}")),
    }
}

pub fn bytes(field: &str) -> Read<Vec<u8>> {
    if field == "-" {
        return Ok(Vec::new());
    }
    let digit = |byte: &u8| b"0123456789abcdef".iter().position(|digit| digit == byte);
    let digits: Option<Vec<usize>> = field.as_bytes().iter().map(digit).collect();
    match digits {
        Some(digits) if !digits.is_empty() && digits.len() % 2 == 0 => {
            Ok(digits.chunks(2).map(|pair| (pair[0] * 16 + pair[1]) as u8).collect())
        }
        _ => Err(format!("not lower-case hexadecimal: {field}")),
    }
}

pub fn text(field: &str) -> Read<String> {
    String::from_utf8(bytes(field)?).map_err(|_| format!("not UTF-8: {field}"))
}

/// `frequency:word`, the word read by `read`.
pub fn counted<T>(field: &str, read: impl Fn(&str) -> Read<T>) -> Read<(T, u64)> {
    let (frequency, word) = field.split_once(':').ok_or_else(|| format!("no frequency: {field}"))?;
    Ok((read(word)?, number(frequency)?))
}

/// Items parted by commas; `.` is no item at all, which an empty item (`-`) is not.
pub fn list<T>(field: &str, read: impl Fn(&str) -> Read<T>) -> Read<Vec<T>> {
    parted(field, ',', read)
}

/// Lists parted by slashes; `.` is no list at all.
pub fn lists<T>(field: &str, read: impl Fn(&str) -> Read<T>) -> Read<Vec<Vec<T>>> {
    parted(field, '/', |one| list(one, &read))
}

fn parted<T>(field: &str, mark: char, read: impl Fn(&str) -> Read<T>) -> Read<Vec<T>> {
    if field == "." {
        return Ok(Vec::new());
    }
    field.split(mark).map(read).collect()
}

/// One NaN for all, as document 01 has it.
pub fn bits(value: f64) -> String {
    let canonical = if value.is_nan() { 0x7ff8_0000_0000_0000 } else { value.to_bits() };
    format!("{canonical:016x}")
}

pub fn hexadecimal(text: &str) -> String {
    if text.is_empty() {
        return "-".to_string();
    }
    text.bytes().map(|byte| format!("{byte:02x}")).collect()
}

/// Writes what `list` reads.
pub fn joined<T>(items: impl IntoIterator<Item = T>, write: impl Fn(T) -> String) -> String {
    let items: Vec<String> = items.into_iter().map(write).collect();
    if items.is_empty() {
        return ".".to_string();
    }
    items.join(",")
}

pub fn numbers<T: Display>(items: impl IntoIterator<Item = T>) -> String {
    joined(items, |item| item.to_string())
}

pub fn floats(items: &[f64]) -> String {
    joined(items, |item| bits(*item))
}
