//! Slices that are sorted and searched: the library's sorts, one of our own over any order, merges, ranks, sets.

#![no_std]
#![no_main]

include!("pack.rs");

// call unstable 24 5
// call search 37
// call descending 16 4
// call shell 24 9
// call ranks 14 3
// call merged 16
// call unique 30 8
// call median 11 6
// call rotated 5
// call players 10 2
// call search -5
// call unstable 99 1

static mut NUMBERS: [i32; 64] = [0; 64];

fn filled(count: usize, seed: u32) -> &'static mut [i32] {
    let numbers = unsafe { &mut NUMBERS[..count] };
    let mut random = Random::new(seed);
    numbers.iter_mut().for_each(|number| *number = random.below(100) as i32);
    numbers
}

fn sum_of(numbers: &[i32]) -> i32 {
    numbers.iter().zip(1..).fold(0, |sum: i32, (&number, place)| sum.wrapping_mul(3).wrapping_add(number * place))
}

#[no_mangle]
pub extern "C" fn unstable(count: usize, seed: u32) -> i32 {
    let numbers = filled(count, seed);
    numbers.sort_unstable();
    sum_of(numbers)
}

#[no_mangle]
pub extern "C" fn search(number: i32) -> i32 {
    match unsafe { NUMBERS[..24].binary_search(&number) } {
        Ok(place) => place as i32,
        Err(place) => -1 - place as i32,
    }
}

fn sort_by<T: Copy>(items: &mut [T], is_before: impl Fn(&T, &T) -> bool) {
    for i in 1..items.len() {
        let item = items[i];
        let mut place = i;
        while place > 0 && is_before(&item, &items[place - 1]) {
            items[place] = items[place - 1];
            place -= 1;
        }
        items[place] = item;
    }
}

#[no_mangle]
pub extern "C" fn descending(count: usize, seed: u32) -> i32 {
    let numbers = filled(count, seed);
    sort_by(numbers, |a, b| a > b);
    sum_of(numbers)
}

#[no_mangle]
pub extern "C" fn shell(count: usize, seed: u32) -> i32 {
    let numbers = filled(count, seed);
    for gap in [10, 4, 1] {
        for i in gap..numbers.len() {
            let mut place = i;
            while place >= gap && numbers[place - gap] > numbers[place] {
                numbers.swap(place - gap, place);
                place -= gap;
            }
        }
    }
    sum_of(numbers)
}

/// For each number how many are less.
#[no_mangle]
pub extern "C" fn ranks(count: usize, seed: u32) -> i32 {
    let numbers = filled(count, seed);
    let mut ranks = [0; 32];
    for (rank, number) in ranks.iter_mut().zip(numbers.iter()) {
        *rank = numbers.iter().filter(|&it| it < number).count() as i32;
    }
    sum_of(&ranks[..count])
}

#[no_mangle]
pub extern "C" fn merged(count: usize) -> i32 {
    let numbers = filled(count, 12);
    let (left, right) = numbers.split_at_mut(count / 2);
    left.sort_unstable();
    right.sort_unstable();
    let (mut a, mut b) = (left.iter().peekable(), right.iter().peekable());
    let mut all = [0; 64];
    for to in all[..count].iter_mut() {
        let from_left = match (a.peek(), b.peek()) {
            (Some(x), Some(y)) => x <= y,
            (x, _) => x.is_some(),
        };
        *to = *if from_left { a.next() } else { b.next() }.unwrap();
    }
    sum_of(&all[..count])
}

#[no_mangle]
pub extern "C" fn unique(count: usize, seed: u32) -> usize {
    let mut seen = [false; 100];
    for &number in filled(count, seed).iter() {
        seen[number as usize] = true;
    }
    seen.iter().filter(|&&it| it).count()
}

#[no_mangle]
pub extern "C" fn median(count: usize, seed: u32) -> i32 {
    *filled(count, seed).select_nth_unstable(count / 2).1
}

#[no_mangle]
pub extern "C" fn rotated(by: usize) -> i32 {
    let numbers = filled(20, 2);
    numbers.rotate_left(by);
    numbers.reverse();
    sum_of(numbers)
}

#[derive(Clone, Copy)]
struct Player {
    team: u8,
    points: u16,
    name: [u8; 4],
}

/// By teams, and within one by points, the most first.
#[no_mangle]
pub extern "C" fn players(count: usize, seed: u32) -> u32 {
    let mut all = [Player { team: 0, points: 0, name: *b"none" }; 16];
    let mut random = Random::new(seed);
    for player in all[..count].iter_mut() {
        let letter = b'a' + random.below(26) as u8;
        *player = Player { team: random.below(3) as u8, points: random.below(50) as u16, name: [letter; 4] };
    }
    sort_by(&mut all[..count], |a, b| (a.team, b.points) < (b.team, a.points));
    all[..count].iter().fold(0, |sum: u32, it| {
        sum.wrapping_mul(7) ^ u32::from_le_bytes(it.name) ^ (it.team as u32) << 16 ^ it.points as u32
    })
}
