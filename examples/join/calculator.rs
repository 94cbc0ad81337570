//! A main module in Rust, which calls the functions of a library in C, reads the text that the library writes, and calls
//! an operation of it through the table. `build.sh` compiles it to `calculator.wasm`, which imports all of these.

#![no_std]
#![no_main]

use core::panic::PanicInfo;

type Operation = extern "C" fn(u32, u32) -> u32;

#[link(wasm_import_module = "env")]
extern "C" {
    fn gcd(a: u32, b: u32) -> u32;
    fn root(square: u32) -> u32;
    fn digits(number: u32) -> *const u8;
    fn chosen(number: u32) -> Operation;
}

#[panic_handler]
fn trap(_: &PanicInfo) -> ! {
    core::arch::wasm32::unreachable()
}

/// The longer side of the triangle with a right angle between these sides, rounded down.
#[no_mangle]
pub extern "C" fn hypotenuse(a: u32, b: u32) -> u32 {
    unsafe { root(a * a + b * b) }
}

/// How many pairs of numbers from 1 to `most` have no common divisor but 1.
#[no_mangle]
pub extern "C" fn coprimes(most: u32) -> u32 {
    let mut found = 0;
    for a in 1..=most {
        for b in 1..=a {
            if unsafe { gcd(a, b) } == 1 {
                found += 1;
            }
        }
    }
    found
}

/// Whether the digits of a number are the same from behind.
#[no_mangle]
pub extern "C" fn palindrome(number: u32) -> bool {
    let text = unsafe { digits(number) };
    let byte = |place: usize| unsafe { *text.add(place) };
    let length = (0..).take_while(|place| byte(*place) != 0).count();
    (0..length / 2).all(|place| byte(place) == byte(length - 1 - place))
}

/// What the library's operation of this number makes of two numbers.
#[no_mangle]
pub extern "C" fn apply(operation: u32, a: u32, b: u32) -> u32 {
    unsafe { chosen(operation)(a, b) }
}
