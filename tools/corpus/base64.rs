//! Bytes as text, and back: base64, base 32, hexadecimal, and percent signs.

#![no_std]
#![no_main]

include!("pack.rs");

// call encode 36 5
// call decode 48
// call hexadecimal 24
// call percent 20
// call base32 20
// call decode 300

static mut PLAIN: [u8; 96] = [0; 96];
static mut TEXT: [u8; 160] = [0; 160];
const DIGITS: &[u8; 64] = b"ABCDEFGHIJKLMNOPQRSTUVWXYZabcdefghijklmnopqrstuvwxyz0123456789+/";

fn sum_of(bytes: &[u8]) -> u32 {
    bytes.iter().fold(7, |sum: u32, &byte| sum.wrapping_mul(31).wrapping_add(byte as u32))
}

fn encoded(from: &[u8], to: &mut [u8]) -> usize {
    let mut size = 0;
    for group in from.chunks(3) {
        let word = group.iter().enumerate().fold(0, |word, (i, &byte)| word | (byte as u32) << (16 - 8 * i));
        for i in 0..4 {
            let digit = DIGITS[(word >> (18 - 6 * i)) as usize & 63];
            to[size] = if i <= group.len() { digit } else { b'=' };
            size += 1;
        }
    }
    size
}

fn value_of(digit: u8) -> Option<u32> {
    match digit {
        b'A'..=b'Z' => Some((digit - b'A') as u32),
        b'a'..=b'z' => Some((digit - b'a') as u32 + 26),
        b'0'..=b'9' => Some((digit - b'0') as u32 + 52),
        b'+' => Some(62),
        b'/' => Some(63),
        _ => None,
    }
}

fn decoded(from: &[u8], to: &mut [u8]) -> Option<usize> {
    let (mut word, mut bits, mut size) = (0, 0, 0);
    for &digit in from.iter().take_while(|&&digit| digit != b'=') {
        word = word << 6 | value_of(digit)?;
        bits += 6;
        if bits >= 8 {
            bits -= 8;
            to[size] = (word >> bits) as u8;
            size += 1;
        }
    }
    Some(size)
}

#[no_mangle]
pub extern "C" fn encode(count: usize, seed: u32) -> u32 {
    let (plain, text) = unsafe { (&mut PLAIN, &mut TEXT) };
    let mut random = Random::new(seed);
    plain[..count].iter_mut().for_each(|byte| *byte = random.next() as u8);
    let size = encoded(&plain[..count], text);
    sum_of(&text[..size])
}

#[no_mangle]
pub extern "C" fn decode(count: usize) -> u32 {
    let (plain, text) = unsafe { (&mut PLAIN, &TEXT) };
    match decoded(&text[..count], plain) {
        Some(size) => sum_of(&plain[..size]),
        None => 0,
    }
}

#[no_mangle]
pub extern "C" fn hexadecimal(count: usize) -> u32 {
    let (plain, text) = unsafe { (&PLAIN, &mut TEXT) };
    let digit = |value: u8| if value < 10 { b'0' + value } else { b'a' + value - 10 };
    for (pair, &byte) in text.chunks_mut(2).zip(&plain[..count]) {
        pair[0] = digit(byte >> 4);
        pair[1] = digit(byte & 15);
    }
    sum_of(&text[..2 * count])
}

#[no_mangle]
pub extern "C" fn percent(count: usize) -> usize {
    let (plain, text) = unsafe { (&PLAIN, &mut TEXT) };
    let mut size = 0;
    for &byte in &plain[..count] {
        if byte.is_ascii_alphanumeric() || b"-_.~".contains(&byte) {
            text[size] = byte;
            size += 1;
        } else {
            text[size] = b'%';
            text[size + 1] = b"0123456789ABCDEF"[byte as usize >> 4];
            text[size + 2] = b"0123456789ABCDEF"[byte as usize & 15];
            size += 3;
        }
    }
    size
}

#[no_mangle]
pub extern "C" fn base32(count: usize) -> u32 {
    let plain = unsafe { &PLAIN };
    let (mut word, mut bits, mut sum) = (0u32, 0, 0u32);
    for &byte in &plain[..count] {
        word = word << 8 | byte as u32;
        bits += 8;
        while bits >= 5 {
            bits -= 5;
            let value = (word >> bits) as u8 & 31;
            let digit = if value < 26 { b'A' + value } else { b'2' + value - 26 };
            sum = sum.rotate_left(5) ^ digit as u32;
        }
    }
    sum
}
