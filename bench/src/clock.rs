//! What a call costs: time, on a machine that others use too, by many short rounds, the sides in
//! turn, and medians; or, under an emulator that counts them, instructions.

use std::hint::black_box;
use std::time::{Duration, Instant};

use crate::counter;

/// How long a side's turn in a round takes at least.
const TURN: Duration = Duration::from_micros(200);
const ROUNDS: usize = 501;
/// At how many depths of the stack the rounds run.
const DEPTHS: usize = 100;
/// How many calls are counted.
const COUNTED: u32 = 20;

/// Makes its call so many times.
pub type Side<'a> = Box<dyn FnMut(u32) + 'a>;

pub fn side<'a>(mut call: impl FnMut() + 'a) -> Side<'a> {
    Box::new(move |times| (0..times).for_each(|_| call()))
}

/// What a side's call cost, round by round: nanoseconds, or instructions.
pub struct Costs(Vec<f64>);

impl Costs {
    pub fn median(&self) -> f64 {
        median(self.0.clone())
    }

    /// The median of the rounds' ratios to the other side: what slows the machine down for a while
    /// slows both sides of a round.
    pub fn ratio_to(&self, other: &Costs) -> f64 {
        median(self.0.iter().zip(&other.0).map(|(ours, others)| ours / others).collect())
    }
}

/// What costs are counted in.
pub fn unit() -> &'static str {
    if counter::is_there() { "instr" } else { "ns" }
}

/// What each side's call costs.
pub fn time<const N: usize>(mut sides: [Side; N]) -> [Costs; N] {
    if counter::is_there() {
        return sides.map(|mut side| Costs(vec![counted(&mut side)]));
    }
    let calls = sides.each_mut().map(calls_in_a_turn);
    rounds(calls, |i, calls| time_of(&mut sides[i], calls).as_nanos() as f64)
}

/// The same where a side does something once, too, before its first call: what as many calls more
/// cost.
pub fn time_more<const N: usize>(mut sides: [Side; N]) -> [Costs; N] {
    if counter::is_there() {
        return sides.map(|mut side| Costs(vec![counted(&mut side)]));
    }
    let calls = sides.each_mut().map(calls_in_a_turn);
    rounds(calls, |i, calls| {
        let once = time_of(&mut sides[i], calls).as_nanos() as f64;
        time_of(&mut sides[i], 2 * calls).as_nanos() as f64 - once
    })
}

/// The instructions of a call: what further calls take, after some.
fn counted(side: &mut Side) -> f64 {
    side(COUNTED);
    let mut count = |calls| {
        let start = counter::count();
        side(calls);
        (counter::count() - start) as f64
    };
    let once = count(COUNTED);
    (count(2 * COUNTED) - once) / f64::from(COUNTED)
}

/// What each side costs, where `cost` is that of so many calls of side i. The order of turns is the
/// other way round in every second round.
fn rounds<const N: usize>(calls: [u32; N], mut cost: impl FnMut(usize, u32) -> f64) -> [Costs; N] {
    let mut costs = [const { Vec::new() }; N];
    for round in 0..ROUNDS {
        for turn in 0..N {
            let i = if round % 2 == 0 { turn } else { N - 1 - turn };
            let mut taken = 0.0;
            deeper(round % DEPTHS, &mut || taken = cost(i, calls[i]));
            costs[i].push(taken / f64::from(calls[i]));
        }
    }
    costs.map(Costs)
}

/// Runs this so many calls further down the stack. Where the stack happens to lie can double the
/// time of code that writes much there: the rounds go through several pages' worth of places.
fn deeper(calls: usize, run: &mut dyn FnMut()) {
    match black_box(calls) {
        0 => run(),
        _ => {
            let held = black_box([0u8; 64]);
            deeper(calls - 1, run);
            black_box(held);
        }
    }
}

/// The calls that fill a turn, found by doubling.
fn calls_in_a_turn(side: &mut Side) -> u32 {
    let mut calls = 1;
    while time_of(side, calls) < TURN {
        calls *= 2;
    }
    calls
}

fn time_of(side: &mut Side, calls: u32) -> Duration {
    let start = Instant::now();
    side(calls);
    start.elapsed()
}

fn median(mut numbers: Vec<f64>) -> f64 {
    numbers.sort_by(f64::total_cmp);
    numbers[numbers.len() / 2]
}
