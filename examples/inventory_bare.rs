//! What players carry, without Rust's `std`: arrays of fixed size, and a text that is written byte by byte. It answers
//! as `inventory.rs` does. `inventory_bare.sh` compiles it.

#![no_std]
#![no_main]

use core::panic::PanicInfo;
use core::sync::atomic::{AtomicBool, AtomicU64, AtomicU8, Ordering::Relaxed};

/// In the order of their names.
const ITEMS: [&str; 6] = ["apple", "arrow", "bread", "coal", "diamond", "emerald"];

/// How many columns a count has at least, and how many digits at most.
const COLUMNS: usize = 6;
const DIGITS: usize = 20;

/// More than a line for each item needs.
const LONGEST: usize = 256;

const NONE: AtomicU64 = AtomicU64::new(0);
const ABSENT: AtomicBool = AtomicBool::new(false);
const EMPTY: AtomicU8 = AtomicU8::new(0);

static COUNTS: [AtomicU64; ITEMS.len()] = [NONE; ITEMS.len()];
static HELD: [AtomicBool; ITEMS.len()] = [ABSENT; ITEMS.len()];
static TEXT: [AtomicU8; LONGEST] = [EMPTY; LONGEST];

#[panic_handler]
fn trap(_: &PanicInfo) -> ! {
    core::arch::wasm32::unreachable()
}

/// Writes into the text, behind what was written.
struct Writer {
    length: usize,
}

impl Writer {
    fn byte(&mut self, byte: u8) {
        TEXT[self.length].store(byte, Relaxed);
        self.length += 1;
    }

    /// The digits of a number, behind spaces where they are fewer than the columns. A digit is worked out by its low 32
    /// bits, since the rest of a division of 64 bits would be a product of 64 bits.
    fn number(&mut self, number: u64) {
        let mut digits = [b' '; DIGITS];
        let mut first = DIGITS;
        let mut left = number;
        while left != 0 || first == DIGITS {
            let tenth = left / 10;
            first -= 1;
            digits[first] = b'0' + (left as u32).wrapping_sub((tenth as u32).wrapping_mul(10)) as u8;
            left = tenth;
        }
        digits[first.min(DIGITS - COLUMNS)..].iter().for_each(|digit| self.byte(*digit));
    }
}

/// So many more of an item; answers how many there are then. Traps where there is no such item.
#[no_mangle]
pub extern "C" fn add(item: u32, count: u64) -> u64 {
    let item = item as usize;
    let held = COUNTS[item].load(Relaxed).wrapping_add(count);
    COUNTS[item].store(held, Relaxed);
    HELD[item].store(true, Relaxed);
    held
}

/// Writes a line for each item that is held; answers how many bytes the text has.
#[no_mangle]
pub extern "C" fn list() -> u32 {
    let mut writer = Writer { length: 0 };
    for (item, name) in ITEMS.iter().enumerate() {
        if HELD[item].load(Relaxed) {
            if writer.length != 0 {
                writer.byte(b'\n');
            }
            writer.number(COUNTS[item].load(Relaxed));
            writer.byte(b' ');
            name.bytes().for_each(|letter| writer.byte(letter));
        }
    }
    writer.length as u32
}

/// Where the text stands in memory.
#[no_mangle]
pub extern "C" fn address() -> *const u8 {
    TEXT.as_ptr() as *const u8
}
