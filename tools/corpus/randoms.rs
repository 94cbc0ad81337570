//! Numbers at random and what is made of them: several generators, shuffled cards, dice, samples, a poker hand.

#![no_std]
#![no_main]

include!("pack.rs");

// call lcg 12 42
// call pcg 8 42
// call splitmix 6 7
// call shuffle 3
// call dice 40 9
// call poker 77
// call pi 40 5
// call sample 12 30 4
// call weighted 25 8
// call lfsr 100 44257
// call dice 0 1

/// A congruence with 64 bits, whose products are made by functions that are added.
#[no_mangle]
pub extern "C" fn lcg(count: u32, seed: u64) -> u64 {
    (0..count).fold(seed, |x, _| x.wrapping_mul(6364136223846793005).wrapping_add(1442695040888963407))
}

#[no_mangle]
pub extern "C" fn pcg(count: u32, seed: u64) -> u32 {
    let (mut state, mut out) = (seed, 0);
    for _ in 0..count {
        let mixed = ((state >> 18 ^ state) >> 27) as u32;
        out ^= mixed.rotate_right((state >> 59) as u32);
        state = state.wrapping_mul(6364136223846793005).wrapping_add(1);
    }
    out
}

#[no_mangle]
pub extern "C" fn splitmix(count: u32, mut seed: u64) -> u64 {
    let mut sum = 0u64;
    for _ in 0..count {
        seed = seed.wrapping_add(0x9e3779b97f4a7c15);
        let mixed = (seed ^ seed >> 30).wrapping_mul(0xbf58476d1ce4e5b9);
        sum ^= mixed ^ mixed >> 31;
    }
    sum
}

fn shuffled(cards: &mut [u8], random: &mut Random) {
    for i in (1..cards.len()).rev() {
        cards.swap(i, random.below(i as u32 + 1) as usize);
    }
}

fn deck() -> [u8; 52] {
    let mut cards = [0; 52];
    cards.iter_mut().enumerate().for_each(|(i, card)| *card = i as u8);
    cards
}

#[no_mangle]
pub extern "C" fn shuffle(seed: u32) -> u32 {
    let mut cards = deck();
    shuffled(&mut cards, &mut Random::new(seed));
    cards.iter().fold(0, |sum: u32, &card| sum.wrapping_mul(53).wrapping_add(card as u32))
}

/// How often each sum of two dice came, at most, and which.
#[no_mangle]
pub extern "C" fn dice(count: u32, seed: u32) -> u32 {
    let (mut random, mut counts) = (Random::new(seed), [0u32; 13]);
    for _ in 0..count {
        let sum = 2 + random.below(6) + random.below(6);
        counts[sum as usize] += 1;
    }
    let (sum, &most) = counts.iter().enumerate().max_by_key(|&(_, &it)| it).unwrap();
    if most == 0 {
        panic!("no dice");
    }
    most * 100 + sum as u32
}

/// The worth of five cards of a shuffled deck, as far as ranks go.
#[no_mangle]
pub extern "C" fn poker(seed: u32) -> u32 {
    let mut cards = deck();
    shuffled(&mut cards[..20], &mut Random::new(seed));
    let hand = &cards[..5];
    let mut counts = [0u8; 13];
    hand.iter().for_each(|&card| counts[card as usize % 13] += 1);
    counts.sort_unstable_by(|a, b| b.cmp(a));
    let is_flush = hand.windows(2).all(|pair| pair[0] / 13 == pair[1] / 13);
    match (is_flush, counts[0], counts[1]) {
        (true, _, _) => 5,
        (_, 4, _) => 7,
        (_, 3, 2) => 6,
        (_, 3, _) => 3,
        (_, 2, 2) => 2,
        (_, 2, _) => 1,
        _ => 0,
    }
}

/// Points in a quarter of a circle, in thousandths.
#[no_mangle]
pub extern "C" fn pi(count: u32, seed: u32) -> u32 {
    let mut random = Random::new(seed);
    let mut inside = 0;
    for _ in 0..count {
        let (x, y) = (random.next() >> 17, random.next() >> 17);
        if x * x + y * y < 1 << 30 {
            inside += 1;
        }
    }
    4000 * inside / count
}

/// So many of so many, without one twice.
#[no_mangle]
pub extern "C" fn sample(count: u32, of: u32, seed: u32) -> u32 {
    let (mut random, mut taken) = (Random::new(seed), 0u32);
    for high in of - count..of {
        let pick = random.below(high + 1);
        taken |= 1 << if taken >> pick & 1 == 1 { high } else { pick };
    }
    taken
}

#[no_mangle]
pub extern "C" fn weighted(count: u32, seed: u32) -> u32 {
    const WEIGHTS: [u32; 6] = [1, 3, 5, 7, 11, 13];
    let total: u32 = WEIGHTS.iter().sum();
    let (mut random, mut sum) = (Random::new(seed), 0);
    for _ in 0..count {
        let mut left = random.below(total);
        sum += WEIGHTS.iter().position(|&weight| {
            let is_here = left < weight;
            left = left.wrapping_sub(weight);
            is_here
        }).unwrap() as u32;
    }
    sum
}

#[no_mangle]
pub extern "C" fn lfsr(count: u32, mut bits: u16) -> u16 {
    for _ in 0..count {
        let bit = bits & 1;
        bits >>= 1;
        if bit == 1 {
            bits ^= 0xb400;
        }
    }
    bits
}
