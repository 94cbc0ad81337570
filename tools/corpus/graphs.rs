//! Things that hang together: shortest ways between all, an order of tasks, a spanning tree, colours, a heap of events.

#![no_std]
#![no_main]

include!("pack.rs");

// call between 6 3
// call order
// call spanning 8 5
// call colours 7
// call events 24 4
// call pages 5
// call between 9 1
// call cycle 12

const FAR: u32 = 10000;

/// The longest of the shortest ways of a net of at most eight knots.
#[no_mangle]
pub extern "C" fn between(count: usize, seed: u32) -> u32 {
    let mut random = Random::new(seed);
    let mut ways = [[FAR; 8]; 8];
    for i in 0..count {
        ways[i][i] = 0;
        for _ in 0..2 {
            let to = random.below(count as u32) as usize;
            ways[i][to] = ways[i][to].min(1 + random.below(9));
        }
    }
    for over in 0..count {
        for i in 0..count {
            for j in 0..count {
                ways[i][j] = ways[i][j].min(ways[i][over] + ways[over][j]);
            }
        }
    }
    ways[..count].iter().flat_map(|row| row[..count].iter()).copied().filter(|&way| way < FAR).max().unwrap_or(0)
}

/// Tasks of which some come before others, in an order that keeps this.
#[no_mangle]
pub extern "C" fn order() -> u32 {
    const BEFORE: [(u8, u8); 9] = [(0, 2), (1, 2), (2, 4), (3, 4), (1, 5), (5, 6), (4, 7), (6, 7), (0, 3)];
    let (mut left, mut done, mut found) = ([0u8; 8], [false; 8], 0);
    BEFORE.iter().for_each(|&(_, task)| left[task as usize] += 1);
    while let Some(task) = (0..8).find(|&task| !done[task] && left[task] == 0) {
        done[task] = true;
        found = found * 8 + task as u32;
        BEFORE.iter().filter(|&&(first, _)| first as usize == task).for_each(|&(_, next)| left[next as usize] -= 1);
    }
    found
}

/// The weight of a tree over points of a plane, that grows by the nearest one.
#[no_mangle]
pub extern "C" fn spanning(count: usize, seed: u32) -> u32 {
    let mut random = Random::new(seed);
    let mut points = [(0i32, 0i32); 8];
    points[..count].iter_mut().for_each(|it| *it = (random.below(50) as i32, random.below(50) as i32));
    let far = |a: (i32, i32), b: (i32, i32)| ((a.0 - b.0).abs() + (a.1 - b.1).abs()) as u32;
    let mut near = [FAR; 8];
    let (mut at, mut sum) = (0, 0);
    for _ in 1..count {
        near[at] = 0;
        for i in 0..count {
            near[i] = near[i].min(far(points[at], points[i]));
        }
        let next = (0..count).filter(|&i| near[i] > 0).min_by_key(|&i| near[i]);
        match next {
            Some(i) => at = i,
            None => break,
        }
        sum += near[at];
    }
    sum
}

/// Colours for the knots of a ring with some chords, each with the least that its neighbours lack.
#[no_mangle]
pub extern "C" fn colours(count: usize) -> u32 {
    let mut colours = [u32::MAX; 16];
    let is_joined = |i: usize, j: usize| (i + 1) % count == j || (j + 1) % count == i || i * j % 5 == 2;
    for i in 0..count {
        let near = (0..count).filter(|&j| j != i && is_joined(i, j) && colours[j] < 32);
        let taken = near.fold(0u32, |taken, j| taken | 1 << colours[j]);
        colours[i] = (!taken).trailing_zeros();
    }
    colours[..count].iter().fold(0, |sum, &it| sum * 4 + it)
}

struct Heap {
    items: [(u16, u16); 40],
    size: usize,
}

impl Heap {
    fn push(&mut self, item: (u16, u16)) {
        let mut at = self.size;
        self.size += 1;
        self.items[at] = item;
        while at > 0 && self.items[at] < self.items[(at - 1) / 2] {
            self.items.swap(at, (at - 1) / 2);
            at = (at - 1) / 2;
        }
    }

    fn pop(&mut self) -> Option<(u16, u16)> {
        self.size = self.size.checked_sub(1)?;
        let first = self.items[0];
        self.items[0] = self.items[self.size];
        let mut at = 0;
        loop {
            let children = 2 * at + 1..(2 * at + 3).min(self.size);
            match children.min_by_key(|&child| self.items[child]) {
                Some(child) if self.items[child] < self.items[at] => {
                    self.items.swap(child, at);
                    at = child;
                }
                _ => return Some(first),
            }
        }
    }
}

/// Events that make further ones, in the order of their times.
#[no_mangle]
pub extern "C" fn events(count: u32, seed: u32) -> u32 {
    let mut random = Random::new(seed);
    let mut heap = Heap { items: [(0, 0); 40], size: 0 };
    for i in 0..4 {
        heap.push((random.below(10) as u16, i));
    }
    let mut sum = 0u32;
    for _ in 0..count {
        let (time, kind) = match heap.pop() {
            Some(event) => event,
            None => break,
        };
        sum = sum.wrapping_mul(5).wrapping_add(time as u32 ^ kind as u32);
        if kind < 3 && heap.size < 30 {
            heap.push((time + 1 + random.below(8) as u16, random.below(4) as u16));
        }
    }
    sum
}

/// Ranks of pages by their links, in thousandths, over so many rounds.
#[no_mangle]
pub extern "C" fn pages(rounds: u32) -> u32 {
    const LINKS: [&[usize]; 5] = [&[1, 2], &[2], &[0], &[0, 2], &[3, 1, 0]];
    let mut ranks = [200u32; 5];
    for _ in 0..rounds {
        let mut next = [30u32; 5];
        for (rank, links) in ranks.iter().zip(LINKS) {
            links.iter().for_each(|&to| next[to] += rank * 85 / 100 / links.len() as u32);
        }
        ranks = next;
    }
    ranks.iter().fold(0, |sum, rank| sum * 3 + rank)
}

/// Where a sequence repeats itself, by a slow and a fast walker.
#[no_mangle]
pub extern "C" fn cycle(seed: u32) -> u32 {
    let step = |x: u32| (x * x + 1) % 251;
    let (mut slow, mut fast) = (step(seed), step(step(seed)));
    while slow != fast {
        slow = step(slow);
        fast = step(step(fast));
    }
    let (mut length, mut at) = (1, step(slow));
    while at != slow {
        at = step(at);
        length += 1;
    }
    length
}
