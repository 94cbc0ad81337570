//! Mazes for a map: 15 by 15 rooms, carved from a seed, with the walls as bits in the memory. `maze.sh` compiles it, and
//! `tools/maze.py` works out the same mazes apart from it.

#![no_std]
#![no_main]

use core::panic::PanicInfo;
use core::sync::atomic::{AtomicU32, AtomicU8, Ordering::Relaxed};

/// Rooms along a side; those and an edge round them, which isn't entered; and blocks: a wall, a room, a wall and so on.
const ROOMS: usize = 15;
const SIDE: usize = ROOMS + 2;
const BLOCKS: usize = 2 * ROOMS + 1;

/// What a room holds: the direction by which it was entered, from 0 to 3, or one of these.
const NEW: u8 = 4;
const FIRST: u8 = 5;
const EDGE: u8 = 6;

const NO_WALL: AtomicU32 = AtomicU32::new(0);
const AT_EDGE: AtomicU8 = AtomicU8::new(EDGE);

/// Each row of blocks as a number, whose lowest bit is the first block; 1 is a wall.
static WALLS: [AtomicU32; BLOCKS] = [NO_WALL; BLOCKS];
static ENTERED: [AtomicU8; SIDE * SIDE] = [AT_EDGE; SIDE * SIDE];

#[panic_handler]
fn trap(_: &PanicInfo) -> ! {
    core::arch::wasm32::unreachable()
}

/// Directions at random: George Marsaglia's xorshift with 32 bits, of which each number serves for 16 directions.
struct Random {
    number: u32,
    bits: u32,
    left: u32,
}

impl Random {
    fn direction(&mut self) -> u32 {
        if self.left == 0 {
            self.number ^= self.number << 13;
            self.number ^= self.number >> 17;
            self.number ^= self.number << 5;
            (self.bits, self.left) = (self.number, 16);
        }
        self.left -= 1;
        let direction = self.bits >> 30;
        self.bits <<= 2;
        direction
    }
}

/// What a step leads to: so many blocks to the east and to the south, and so many rooms further in the list of them.
struct Step {
    x: i32,
    y: i32,
    room: i32,
}

const STEPS: [Step; 4] = [
    Step { x: 1, y: 0, room: 1 },
    Step { x: 0, y: 1, room: SIDE as i32 },
    Step { x: -1, y: 0, room: -1 },
    Step { x: 0, y: -1, room: -(SIDE as i32) },
];

/// Where the carver stands: a room by its number in the list, and the block of that room.
struct Carver {
    x: i32,
    y: i32,
    room: i32,
}

impl Carver {
    fn entered(&self, room: i32) -> &'static AtomicU8 {
        &ENTERED[room as usize]
    }

    /// Takes the wall away from the block where it stands.
    fn open(&self) {
        let row = &WALLS[self.y as usize];
        row.store(row.load(Relaxed) - (1 << self.x), Relaxed);
    }

    /// The first direction, from this one on, in which a new room lies.
    fn find(&self, from: u32) -> Option<u32> {
        let mut direction = from;
        for _ in 0..4 {
            if self.entered(self.room + STEPS[direction as usize].room).load(Relaxed) == NEW {
                return Some(direction);
            }
            direction = if direction == 3 { 0 } else { direction + 1 };
        }
        None
    }

    fn go(&mut self, direction: u32) {
        let step = &STEPS[direction as usize];
        self.x += step.x;
        self.y += step.y;
        self.open();
        self.x += step.x;
        self.y += step.y;
        self.open();
        self.room += step.room;
        self.entered(self.room).store(direction as u8, Relaxed);
    }

    fn back(&mut self, direction: u32) {
        let step = &STEPS[direction as usize];
        self.x -= 2 * step.x;
        self.y -= 2 * step.y;
        self.room -= step.room;
    }
}

/// Carves the maze of a seed: on to a new room, and back where there is none, until the first room has none. The maze is
/// entered in the north, above the first room, and left in the south, below the last one.
#[no_mangle]
pub extern "C" fn carve(seed: u32) {
    WALLS.iter().for_each(|row| row.store(u32::MAX >> (32 - BLOCKS), Relaxed));
    let inside = ENTERED.chunks(SIDE).skip(1).take(ROOMS);
    inside.for_each(|row| row[1..=ROOMS].iter().for_each(|room| room.store(NEW, Relaxed)));
    let mut random = Random { number: if seed == 0 { 1 } else { seed }, bits: 0, left: 0 };
    let mut carver = Carver { x: 1, y: 1, room: SIDE as i32 + 1 };
    carver.entered(carver.room).store(FIRST, Relaxed);
    carver.open();
    loop {
        let from = random.direction();
        if let Some(direction) = carver.find(from) {
            carver.go(direction);
        } else {
            let from = carver.entered(carver.room).load(Relaxed);
            if from == FIRST {
                break;
            }
            carver.back(from as u32);
        }
    }
    Carver { x: 1, y: 0, room: 0 }.open();
    Carver { x: BLOCKS as i32 - 2, y: BLOCKS as i32 - 1, room: 0 }.open();
}

/// A row of the maze, from 0 on. Traps where there is no such row.
#[no_mangle]
pub extern "C" fn row(y: u32) -> u32 {
    WALLS[y as usize].load(Relaxed)
}

/// The address of the rows, four bytes each.
#[no_mangle]
pub extern "C" fn address() -> u32 {
    &WALLS as *const _ as u32
}
