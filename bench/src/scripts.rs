//! Runs of steps, drawn at random from a seed.

use crate::steps::{Step, COMPARE, COVERS, EVENT, FORK, JOIN, SLOTS, UNITE};
use std::ops::RangeInclusive;

/// Splitmix64.
pub struct Random(pub u64);

impl Random {
    pub fn next(&mut self) -> u64 {
        self.0 = self.0.wrapping_add(0x9e37_79b9_7f4a_7c15);
        let mut z = self.0;
        z = (z ^ (z >> 30)).wrapping_mul(0xbf58_476d_1ce4_e5b9);
        z = (z ^ (z >> 27)).wrapping_mul(0x94d0_49bb_1331_11eb);
        z ^ (z >> 31)
    }

    pub fn below(&mut self, n: usize) -> usize {
        (self.next() % n as u64) as usize
    }

    pub fn among(&mut self, range: RangeInclusive<u32>) -> u32 {
        range.start() + self.below((range.end() - range.start() + 1) as usize) as u32
    }

    /// The place of a weight, drawn as often as it weighs.
    pub fn weighed(&mut self, weights: &[usize]) -> usize {
        let mut at = self.below(weights.iter().sum());
        weights
            .iter()
            .position(|weight| {
                at < *weight || {
                    at -= weight;
                    false
                }
            })
            .expect("it is below the sum")
    }

    pub fn pick<T: Copy>(&mut self, from: &[T]) -> T {
        from[self.below(from.len())]
    }
}

pub fn step(call: u32, a: u32, b: u32, to: u32) -> Step {
    Step { call, a, b, to }
}

/// Any steps on the first `pool` slots; some slots are named by a number past the table.
pub fn any_steps(random: &mut Random, count: usize) -> Vec<Step> {
    let pool = random.pick(&[6, 20, 60, 128]);
    let weights = random.pick(&[
        [15, 30, 20, 12, 6, 8, 4, 1],
        [45, 20, 10, 5, 5, 5, 5, 1],
        [8, 45, 25, 4, 5, 5, 2, 1],
    ]);
    (0..count)
        .map(|_| {
            let past = if random.below(50) == 0 { SLOTS } else { 0 };
            let mut slot = || (random.below(pool) + past) as u32;
            let (a, b, to) = (slot(), slot(), slot());
            step(random.weighed(&weights) as u32, a, b, to)
        })
        .collect()
}

/// Splits the seed into as many pens, in the first slots.
pub fn parts(count: u32) -> Vec<Step> {
    let mut steps = Vec::new();
    let mut have = 1;
    while have < count {
        for i in 0..have.min(count - have) {
            steps.push(step(FORK, i, have + i, i));
        }
        have = 2 * have.min(count);
        have = have.min(count);
    }
    steps
}

/// Many small pens, events and joins until clocks and pens are too large.
pub fn wide_steps(random: &mut Random, count: usize) -> Vec<Step> {
    let mut steps = parts(64);
    for _ in 0..count {
        let any = random.among(0..=127);
        let leaf = random.among(0..=63);
        let other = random.among(64..=127);
        steps.push(match random.weighed(&[35, 25, 25, 5, 10]) {
            0 => step(EVENT, any, leaf, any),
            1 => step(JOIN, any, random.among(0..=127), other),
            2 => step(UNITE, other, leaf, other),
            3 => step(FORK, other, random.among(64..=127), other),
            _ => step(EVENT, any, other, any),
        });
    }
    steps
}

/// One clock up to the largest value, and past it.
pub fn long_steps(vectors: bool) -> Vec<Step> {
    let mut steps = parts(if vectors { 16 } else { 2 });
    steps.extend((0..65_540).map(|_| step(EVENT, 5, 0, 5)));
    // Under the other half, joined with another clock, and under the whole.
    steps.push(step(EVENT, 6, 1, 6));
    steps.push(step(JOIN, 5, 6, 7));
    steps.extend((0..3).map(|_| step(EVENT, 7, 1, 7)));
    steps.push(step(UNITE, 0, 1, 2));
    steps.extend((0..40).map(|_| step(EVENT, 7, 2, 7)));
    steps.push(step(COMPARE, 5, 7, 0));
    steps.push(step(COVERS, 7, 5, 0));
    steps
}
