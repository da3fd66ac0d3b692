//! The lines of a release list in plain Rust, written from docs/LIST.md.
use crate::commands::Fault;

/// A number in decimal digits.
fn decimal(out: &mut Vec<u8>, n: u64) {
    let mut digits = [0; 20];
    let mut first = 20;
    let mut left = n;
    loop {
        first -= 1;
        digits[first] = b'0' + (left % 10) as u8;
        left /= 10;
        if left == 0 {
            break;
        }
    }
    out.extend_from_slice(&digits[first..]);
}

/// A number after one space.
fn number(out: &mut Vec<u8>, n: u64) {
    out.push(b' ');
    decimal(out, n);
}

/// A line of a letter and numbers.
pub fn line(out: &mut Vec<u8>, letter: u8, numbers: &[u64]) {
    out.push(letter);
    for n in numbers {
        number(out, *n);
    }
    out.push(b'\n');
}

pub fn refused(out: &mut Vec<u8>, (n, layer): Fault, place: usize) {
    out.push(b'R');
    number(out, u64::from(n));
    out.extend_from_slice(&[b' ', layer]);
    number(out, place as u64);
    out.push(b'\n');
}

/// The line of a figure.
pub fn figure(out: &mut Vec<u8>, figure: i32) {
    let sign: &[u8] = if figure < 0 { b"P -" } else { b"P " };
    out.extend_from_slice(sign);
    decimal(out, u64::from(figure.unsigned_abs()));
    out.push(b'\n');
}
