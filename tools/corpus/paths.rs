//! A maze of letters that is walked through: the shortest way, what hangs together, and along a wall.

#![no_std]
#![no_main]

include!("pack.rs");

// call shortest
// call dead_ends
// call follow 60
// call cross 5
// call regions
// call at 400

const WIDTH: usize = 17;
const HEIGHT: usize = 7;
const MAZE: &[u8; WIDTH * HEIGHT] = b"\
#################\
#S..#.....#.....#\
###.#.###.#.###.#\
#...#.#.#...#.#.#\
#.###.#.#####.#.#\
#.....#.......#E#\
#################";

static mut FAR: [u16; WIDTH * HEIGHT] = [0; WIDTH * HEIGHT];

#[derive(Clone, Copy, PartialEq)]
enum Way {
    East,
    South,
    West,
    North,
}

impl Way {
    const ALL: [Way; 4] = [Way::East, Way::South, Way::West, Way::North];

    fn from(self, place: usize) -> usize {
        match self {
            Way::East => place + 1,
            Way::South => place + WIDTH,
            Way::West => place - 1,
            Way::North => place - WIDTH,
        }
    }

    fn turned(self, by: usize) -> Way {
        Way::ALL[(self as usize + by) % 4]
    }
}

fn is_open(place: usize) -> bool {
    MAZE[place] != b'#'
}

fn find(letter: u8) -> Option<usize> {
    MAZE.iter().position(|&it| it == letter)
}

/// How far it is from S to E.
#[no_mangle]
pub extern "C" fn shortest() -> u32 {
    let far = unsafe { &mut FAR };
    far.fill(u16::MAX);
    let (mut queue, mut first, mut last) = ([0u8; WIDTH * HEIGHT], 0, 1);
    let begin = find(b'S').unwrap();
    far[begin] = 0;
    queue[0] = begin as u8;
    while first < last {
        let at = queue[first] as usize;
        first += 1;
        for way in Way::ALL {
            let next = way.from(at);
            if is_open(next) && far[next] == u16::MAX {
                far[next] = far[at] + 1;
                queue[last] = next as u8;
                last += 1;
            }
        }
    }
    far[find(b'E').unwrap()] as u32
}

#[no_mangle]
pub extern "C" fn at(place: usize) -> u32 {
    unsafe { FAR[place] as u32 }
}

fn top(of: &mut [u8], mut it: usize) -> usize {
    while of[it] as usize != it {
        of[it] = of[of[it] as usize];
        it = of[it] as usize;
    }
    it
}

/// How many groups of fields hang together, by joining neighbours.
#[no_mangle]
pub extern "C" fn regions() -> usize {
    let mut of = [0u8; WIDTH * HEIGHT];
    of.iter_mut().enumerate().for_each(|(i, it)| *it = i as u8);
    let mut count = MAZE.iter().filter(|&&it| it != b'#').count();
    for place in 0..WIDTH * (HEIGHT - 1) {
        for next in [place + 1, place + WIDTH] {
            if is_open(place) && is_open(next) {
                let (a, b) = (top(&mut of, place), top(&mut of, next));
                if a != b {
                    of[a] = b as u8;
                    count -= 1;
                }
            }
        }
    }
    count
}

/// Along the right wall; where so many steps lead, and how often it turned.
#[no_mangle]
pub extern "C" fn follow(steps: u32) -> u32 {
    let (mut at, mut way, mut turns) = (find(b'S').unwrap(), Way::East, 0);
    for _ in 0..steps {
        let mut by = 1;
        while !is_open(way.turned(by).from(at)) {
            by = (by + 3) % 4;
        }
        if by != 0 {
            turns += 1;
        }
        way = way.turned(by);
        at = way.from(at);
        if MAZE[at] == b'E' {
            break;
        }
    }
    turns * 1000 + at as u32
}

#[no_mangle]
pub extern "C" fn dead_ends() -> usize {
    let inside = (WIDTH..WIDTH * (HEIGHT - 1)).filter(|&place| is_open(place));
    inside.filter(|&place| Way::ALL.iter().filter(|way| is_open(way.from(place))).count() == 1).count()
}

/// The least sum of a way over fields with costs, row by row.
#[no_mangle]
pub extern "C" fn cross(seed: u32) -> u32 {
    let (mut random, mut sums) = (Random::new(seed), [0u32; 10]);
    for _ in 0..6 {
        let before = sums;
        for (i, sum) in sums.iter_mut().enumerate() {
            let near = &before[i.saturating_sub(1)..(i + 2).min(10)];
            *sum = near.iter().min().unwrap() + random.below(10);
        }
    }
    *sums.iter().min().unwrap()
}
