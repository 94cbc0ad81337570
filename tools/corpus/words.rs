//! Texts by iterators over bytes and words: counts, Roman numerals, lines of a table, a pattern, numbers in words.

#![no_std]
#![no_main]

include!("pack.rs");

// call count 32
// call longest
// call romans 45
// call table 1
// call spelled 7345
// call common
// call matches 0
// call title
// call table 9
// call matches 1

const TEXT: &str = "A pack ticks on, and what it has not done in one tick it does in the next.";
const TABLE: &str = "stone;64;12\noak;32;7\nbread;;3\niron;20;x\ngold;5;40\n";

#[no_mangle]
pub extern "C" fn count(letter: u8) -> usize {
    TEXT.bytes().filter(|&byte| byte == letter).count()
}

#[no_mangle]
pub extern "C" fn longest() -> usize {
    let words = TEXT.split(|c: char| !c.is_ascii_alphabetic());
    words.map(str::len).max().unwrap_or(0)
}

struct Text {
    bytes: [u8; 80],
    size: usize,
}

impl Text {
    fn new() -> Text {
        Text { bytes: [0; 80], size: 0 }
    }

    fn push(&mut self, text: &str) {
        let end = self.size + text.len();
        self.bytes[self.size..end].copy_from_slice(text.as_bytes());
        self.size = end;
    }

    fn sum(&self) -> u32 {
        self.bytes[..self.size].iter().fold(0, |sum: u32, &byte| sum.rotate_left(3) ^ byte as u32)
    }
}

fn roman(mut value: u32, to: &mut Text) {
    const STEPS: [(u32, &str); 13] = [
        (1000, "M"), (900, "CM"), (500, "D"), (400, "CD"), (100, "C"), (90, "XC"), (50, "L"), (40, "XL"), (10, "X"),
        (9, "IX"), (5, "V"), (4, "IV"), (1, "I"),
    ];
    for &(step, name) in &STEPS {
        while value >= step {
            to.push(name);
            value -= step;
        }
    }
}

/// So many numerals, and the sum of their letters.
#[no_mangle]
pub extern "C" fn romans(last: u32) -> u32 {
    let mut sum = 0;
    for value in last - 5..=last {
        let mut text = Text::new();
        roman(value, &mut text);
        sum ^= text.sum();
    }
    sum
}

fn number_of(text: &str) -> Option<u32> {
    if text.is_empty() {
        return None;
    }
    text.bytes().try_fold(0u32, |value, byte| match byte {
        b'0'..=b'9' => value.checked_mul(10)?.checked_add((byte - b'0') as u32),
        _ => None,
    })
}

/// The sum of a column, and how many of its cells hold no number, in hundreds of thousands.
#[no_mangle]
pub extern "C" fn table(column: usize) -> u32 {
    let (mut sum, mut wrong) = (0, 0);
    for line in TABLE.lines() {
        match number_of(line.split(';').nth(column).unwrap()) {
            Some(value) => sum += value,
            None => wrong += 1,
        }
    }
    wrong * 100000 + sum
}

/// A pattern with `?` for a sign and `*` for any.
fn is_like(pattern: &[u8], text: &[u8]) -> bool {
    match (pattern.split_first(), text.split_first()) {
        (None, None) => true,
        (Some((b'*', rest)), None) => is_like(rest, text),
        (Some((b'*', rest)), Some((_, left))) => is_like(rest, text) || is_like(pattern, left),
        (Some((b'?', rest)), Some((_, left))) => is_like(rest, left),
        (Some((sign, rest)), Some((first, left))) => sign == first && is_like(rest, left),
        _ => false,
    }
}

#[no_mangle]
pub extern "C" fn matches(which: usize) -> bool {
    const PATTERNS: [&str; 2] = ["A*tick it*n?xt.", "*k*n*one*"];
    is_like(PATTERNS[which].as_bytes(), TEXT.as_bytes())
}

#[no_mangle]
pub extern "C" fn spelled(value: u32) -> u32 {
    const UNITS: [&str; 10] = ["", "one", "two", "three", "four", "five", "six", "seven", "eight", "nine"];
    const TENS: [&str; 10] = ["", "ten", "twenty", "thirty", "forty", "fifty", "sixty", "seventy", "eighty", "ninety"];
    let mut text = Text::new();
    for (place, name) in [(1000, " thousand "), (100, " hundred ")] {
        let digit = value / place as u32 % 10;
        if digit > 0 {
            text.push(UNITS[digit as usize]);
            text.push(name);
        }
    }
    text.push(TENS[value as usize / 10 % 10]);
    text.push("-");
    text.push(UNITS[value as usize % 10]);
    text.sum()
}

/// The letter that comes most often.
#[no_mangle]
pub extern "C" fn common() -> u8 {
    let mut counts = [0u8; 26];
    for byte in TEXT.bytes().filter(u8::is_ascii_alphabetic) {
        counts[(byte.to_ascii_lowercase() - b'a') as usize] += 1;
    }
    let (letter, _) = counts.iter().enumerate().rev().max_by_key(|&(_, &count)| count).unwrap();
    b'a' + letter as u8
}

/// Each word with a capital letter.
#[no_mangle]
pub extern "C" fn title() -> u32 {
    let (mut text, mut at_begin) = (Text::new(), true);
    for c in TEXT.chars() {
        let mut buffer = [0; 4];
        let c = if at_begin { c.to_ascii_uppercase() } else { c };
        text.push(c.encode_utf8(&mut buffer));
        at_begin = c == ' ';
    }
    text.sum()
}
