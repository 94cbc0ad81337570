// What the programs in Rust of this folder have in common; each includes it. It is no program.

use core::panic::PanicInfo;

#[panic_handler]
fn trap(_: &PanicInfo) -> ! {
    core::arch::wasm32::unreachable()
}

/// Numbers at random: George Marsaglia's xorshift with 32 bits.
#[allow(dead_code)]
pub struct Random(u32);

#[allow(dead_code)]
impl Random {
    fn new(seed: u32) -> Random {
        Random(seed.max(1))
    }

    fn next(&mut self) -> u32 {
        self.0 ^= self.0 << 13;
        self.0 ^= self.0 >> 17;
        self.0 ^= self.0 << 5;
        self.0
    }

    fn below(&mut self, most: u32) -> u32 {
        self.next() % most
    }
}
