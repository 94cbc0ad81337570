//! Boards by search: a small sudoku, sums that are hidden in letters, sliding stones, lights that are put out.

#![no_std]
#![no_main]

include!("pack.rs");

// call solve 3
// call cell 5
// call lights 17
// call slide 6
// call letters 30
// call reversi 20
// call solve 0
// call cell 16
// call letters 60

const SIDE: usize = 4;
static mut BOARD: [u8; SIDE * SIDE] = [0; SIDE * SIDE];
const GIVEN: [[u8; SIDE * SIDE]; 4] = [
    [1, 0, 0, 0, 0, 0, 3, 0, 0, 0, 0, 2, 0, 4, 0, 0],
    [0, 2, 0, 0, 0, 0, 0, 1, 3, 0, 0, 0, 0, 0, 4, 0],
    [0, 0, 0, 4, 0, 0, 2, 0, 0, 3, 0, 0, 1, 0, 0, 0],
    [1, 0, 3, 0, 0, 4, 0, 0, 0, 0, 4, 0, 0, 3, 0, 0],
];

fn fits(board: &[u8], place: usize, digit: u8) -> bool {
    let (row, column) = (place / SIDE, place % SIDE);
    let corner = row / 2 * 2 * SIDE + column / 2 * 2;
    (0..SIDE).all(|i| {
        board[row * SIDE + i] != digit
            && board[i * SIDE + column] != digit
            && board[corner + i / 2 * SIDE + i % 2] != digit
    })
}

/// Fills what is empty, and counts the tries.
fn fill(board: &mut [u8], tries: &mut u32) -> bool {
    let place = match board.iter().position(|&it| it == 0) {
        None => return true,
        Some(place) => place,
    };
    for digit in 1..=SIDE as u8 {
        *tries += 1;
        if fits(board, place, digit) {
            board[place] = digit;
            if fill(board, tries) {
                return true;
            }
            board[place] = 0;
        }
    }
    false
}

#[no_mangle]
pub extern "C" fn solve(which: usize) -> u32 {
    let board = unsafe { &mut BOARD };
    *board = GIVEN[which];
    let mut tries = 0;
    if fill(board, &mut tries) { tries } else { 0 }
}

#[no_mangle]
pub extern "C" fn cell(place: usize) -> u32 {
    unsafe { BOARD[place] as u32 }
}

/// The fewest presses that put out the lights of a board of three by three.
#[no_mangle]
pub extern "C" fn lights(on: u32) -> u32 {
    const PRESSES: [u32; 9] = [0o13, 0o27, 0o46, 0o131, 0o272, 0o464, 0o310, 0o720, 0o640];
    let mut least = 10;
    for set in (0..512u32).step_by(13) {
        let left = (0..9).filter(|i| set >> i & 1 == 1).fold(on, |left, i| left ^ PRESSES[i]);
        if left.count_ones() == 0 {
            least = least.min(set.count_ones());
        }
    }
    least
}

/// How far the stones of a sliding board are from their places, over moves at random.
#[no_mangle]
pub extern "C" fn slide(seed: u32) -> u32 {
    let mut stones: [u8; 9] = [1, 2, 3, 4, 5, 6, 7, 8, 0];
    let (mut random, mut hole, mut sum) = (Random::new(seed), 8usize, 0u32);
    for _ in 0..10 {
        let next = match random.below(4) {
            0 if hole % 3 < 2 => hole + 1,
            1 if hole % 3 > 0 => hole - 1,
            2 if hole < 6 => hole + 3,
            3 if hole > 2 => hole - 3,
            _ => continue,
        };
        stones.swap(hole, next);
        hole = next;
        sum += stones.iter().enumerate().filter(|(_, &it)| it > 0).map(|(place, &it)| {
            let (at, wanted) = (place as i32, it as i32 - 1);
            ((at / 3 - wanted / 3).abs() + (at % 3 - wanted % 3).abs()) as u32
        }).sum::<u32>();
    }
    sum
}

/// Digits with AB * C = DE, all of them different: how many there are up to some AB.
#[no_mangle]
pub extern "C" fn letters(most: u32) -> u32 {
    let mut found = 0;
    for ab in 10..most {
        for c in 2..10 {
            let de = ab * c;
            if de > 99 {
                break;
            }
            let digits = [ab / 10, ab % 10, c, de / 10, de % 10];
            let set = digits.iter().fold(0u32, |set, digit| set | 1 << digit);
            found += (set.count_ones() == 5) as u32;
        }
    }
    found
}

/// Stones that a move at reversi turns round, in all directions.
#[no_mangle]
pub extern "C" fn reversi(place: i32) -> u32 {
    const BOARD: &[u8; 64] = b"\
        ........\
        ..OX....\
        ..XXX...\
        ..OXO...\
        ...OXX..\
        ...X.O..\
        ........\
        ........";
    let (x, y) = (place % 8, place / 8);
    let mut turned = 0;
    for (dx, dy) in [(1, 0), (1, 1), (0, 1), (-1, 1), (-1, 0), (-1, -1), (0, -1), (1, -1)] {
        let (mut u, mut v, mut count) = (x + dx, y + dy, 0);
        while (0..8).contains(&u) && (0..8).contains(&v) && BOARD[(8 * v + u) as usize] == b'X' {
            count += 1;
            u += dx;
            v += dy;
        }
        if (0..8).contains(&u) && (0..8).contains(&v) && BOARD[(8 * v + u) as usize] == b'O' {
            turned += count;
        }
    }
    turned
}
