//! The programs of bench/workers as one writes them with rayon: fib(22) with a join at each call, and a loop of
//! 30,000 turns that joins halve down to single turns. Each is run serially and by 1, 2 and 4 threads in turn, as
//! often as the first word says. The second word is the grain: the steps of work at each call, of which a turn makes
//! twice as many. For each run a line is printed: the program, the number of threads (0 for the serial run) and the
//! microseconds that it took, or `failed` where the result is wrong.

use rayon::{join, ThreadPool, ThreadPoolBuilder};
use std::env;
use std::hint::black_box;
use std::time::Instant;

const CREWS: [usize; 4] = [0, 1, 2, 4];
const ARGUMENT: u64 = 22;
const RESULT: u64 = 17_711;
const TURNS: usize = 30_000;

/// Makes this many steps, none of which can begin before the one before it has ended.
fn work(steps: u32) {
    let mut word: u64 = 1;
    for _ in 0..steps {
        word = (word ^ (word >> 15)).wrapping_mul(0x9E37_79B9_7F4A_7C15);
    }
    black_box(word);
}

fn serial_fib(n: u64, grain: u32) -> u64 {
    work(grain);
    if n < 2 {
        return n;
    }
    serial_fib(n - 1, grain) + serial_fib(n - 2, grain)
}

fn fib(n: u64, grain: u32) -> u64 {
    work(grain);
    if n < 2 {
        return n;
    }
    let (x, y) = join(|| fib(n - 1, grain), || fib(n - 2, grain));
    x + y
}

fn turn(i: i64, grain: u32) -> i64 {
    work(2 * grain);
    ((((i * 31 + 7) % 1003 + i * 5) % 997 + i * 3 - 11) % 991 + i * 17) % 983
        + (i * i + 13) % 977
        + i / 3
        - 5
}

fn serial_turns(cells: &mut [i64], grain: u32) {
    for (i, cell) in (0..).zip(cells) {
        *cell = turn(i, grain);
    }
}

fn turns(first: i64, cells: &mut [i64], grain: u32) {
    if let [cell] = cells {
        *cell = turn(first, grain);
        return;
    }
    let half = cells.len() / 2;
    let (left, right) = cells.split_at_mut(half);
    join(
        || turns(first, left, grain),
        || turns(first + half as i64, right, grain),
    );
}

fn timed(name: &str, crew: usize, run: impl FnOnce() -> bool) {
    let before = Instant::now();
    let is_right = run();
    let micros = before.elapsed().as_micros();
    if is_right {
        println!("{name} {crew} {micros}");
    } else {
        println!("{name} {crew} failed");
    }
}

fn time_fib(crew: usize, pool: Option<&ThreadPool>, grain: u32) {
    timed("fib", crew, || {
        let result = match pool {
            None => serial_fib(ARGUMENT, grain),
            Some(pool) => pool.install(|| fib(ARGUMENT, grain)),
        };
        result == RESULT
    });
}

fn time_loop(crew: usize, pool: Option<&ThreadPool>, grain: u32, wanted: &[i64]) {
    let mut cells = vec![-1; TURNS];
    timed("loop", crew, || {
        match pool {
            None => serial_turns(&mut cells, grain),
            Some(pool) => pool.install(|| turns(0, &mut cells, grain)),
        }
        cells == wanted
    });
}

fn main() {
    let words: Vec<u32> = env::args()
        .skip(1)
        .map_while(|word| word.parse().ok())
        .collect();
    let [runs, grain] = words[..] else {
        panic!("two numbers are needed: runs, and the grain");
    };
    let pool = |crew| {
        ThreadPoolBuilder::new()
            .num_threads(crew)
            .build()
            .expect("threads can be started")
    };
    let pools = CREWS.map(|crew| (crew > 0).then(|| pool(crew)));
    let mut wanted = vec![0; TURNS];
    serial_turns(&mut wanted, 0);
    for _ in 0..runs {
        for (&crew, pool) in CREWS.iter().zip(&pools) {
            time_fib(crew, pool.as_ref(), grain);
        }
    }
    for _ in 0..runs {
        for (&crew, pool) in CREWS.iter().zip(&pools) {
            time_loop(crew, pool.as_ref(), grain, &wanted);
        }
    }
}
