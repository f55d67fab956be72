//! How fast the proved planner is, called through its static library, beside the same passes in plain Rust: in one run, in turns.
mod plain;

use std::hint::black_box;
use std::time::{Duration, Instant};

#[repr(C)]
struct Outcome {
    refusal: u64,
    transfers: u64,
    bought: u64,
}

extern "C" {
    fn wethumbal_plan(streams: *const u32, count: usize, gap: u64, room: *mut u32, size: usize) -> Outcome;
}

fn proved(streams: &[u32], gap: u64, room: &mut [u32]) -> Result<(usize, u64), u64> {
    // The function takes any numbers, any gap and any room.
    let o = unsafe { wethumbal_plan(streams.as_ptr(), streams.len(), gap, room.as_mut_ptr(), room.len()) };
    if o.refusal == 0 { Ok((o.transfers as usize, o.bought)) } else { Err(o.refusal) }
}

type Planner = fn(&[u32], u64, &mut [u32]) -> Result<(usize, u64), u64>;

struct Case {
    name: &'static str,
    streams: Vec<u32>,
    gap: u64,
}

/// 32 hot and 32 cold streams, each over some 900 degrees.
fn wide() -> Vec<u32> {
    (0..64).flat_map(|i| [i % 2, i, 900 + i, 1000 + 37 * i * i]).collect()
}

/// Mash, kettle, wort, hot liquor, cleaning, pasteur, chiller: low, high and rate of hot and cold streams.
const BREWERY: [u32; 48] = [
    0, 12, 62, 25, 0, 62, 76, 28, 0, 74, 99, 30, 1, 80, 99, 18, 1, 55, 96, 12, 1, 18, 95, 29, //
    0, 12, 80, 16, 0, 45, 85, 9, 1, 35, 80, 7, 1, 25, 65, 10, 1, 8, 22, 14, 0, 4, 62, 11,
];

/// Both write the same room, and turn the same away.
fn agree(case: &Case) {
    for (gap, size) in [(case.gap, 6000), (case.gap, 6010), (case.gap, 5999), (1001, 6000)] {
        let (mut a, mut b) = (vec![7; size], vec![7; size]);
        assert_eq!(proved(&case.streams, gap, &mut a), plain::plan(&case.streams, gap, &mut b), "{}", case.name);
        assert!(a == b, "{}: the rooms differ", case.name);
    }
}

fn time(planner: Planner, case: &Case, calls: u32, room: &mut [u32]) -> Duration {
    let start = Instant::now();
    for _ in 0..calls {
        let _ = black_box(planner(black_box(&case.streams), black_box(case.gap), black_box(room)));
    }
    start.elapsed()
}

fn median(mut times: Vec<f64>) -> f64 {
    times.sort_by(f64::total_cmp);
    times[times.len() / 2]
}

fn main() {
    let cases = [
        Case { name: "64 wide streams", streams: wide(), gap: 10 },
        Case { name: "a brewery of 12", streams: BREWERY.to_vec(), gap: 6 },
        Case { name: "1 stream", streams: vec![1, 20, 80, 5], gap: 10 },
    ];
    let (rounds, calls) = (101, 500);
    println!("{rounds} rounds of {calls} calls each, in turns; the room of 6000 numbers is not cleared between calls; medians");
    println!("{:<18}{:>12}{:>14}{:>14}{:>8}", "", "transfers", "proved /s", "plain /s", "ratio");
    for case in &cases {
        agree(case);
        let mut room = vec![0; 6000];
        let (transfers, _) = proved(&case.streams, case.gap, &mut room).expect("sound streams");
        let (mut ours, mut theirs, mut ratios) = (Vec::new(), Vec::new(), Vec::new());
        for _ in 0..rounds {
            let a = time(proved, case, calls, &mut room).as_secs_f64() / f64::from(calls);
            let b = time(plain::plan, case, calls, &mut room).as_secs_f64() / f64::from(calls);
            ours.push(a);
            theirs.push(b);
            ratios.push(a / b);
        }
        let (a, b) = (median(ours), median(theirs));
        println!("{:<18}{:>12}{:>14.0}{:>14.0}{:>8.2}", case.name, transfers, 1.0 / a, 1.0 / b, median(ratios));
    }
}
