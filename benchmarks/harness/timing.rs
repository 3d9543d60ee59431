//! How long the product takes beside the peer.

use crate::clock::Moment;
use crate::scenarios::{Part, Scenario};
use crate::sides::Side;
use std::hint::black_box;

/// How many pairs of samples are taken, and how long the work of one is repeated, in nanoseconds.
#[derive(Clone, Copy)]
pub struct Effort {
    pub pairs: usize,
    pub sample: f64,
}

/// Nanoseconds for one call, and the product's beside the peer's.
#[derive(Clone, Copy)]
pub struct Measured {
    pub product: f64,
    pub peer: f64,
    pub ratio: f64,
}

/// The middle of some numbers.
pub fn median(mut numbers: Vec<f64>) -> f64 {
    numbers.sort_by(f64::total_cmp);
    let n = numbers.len();
    (numbers[(n - 1) / 2] + numbers[n / 2]) / 2.0
}

/// The medians of samples of two things, and of the ratios of the first to the second.
pub struct Paired {
    pub first: f64,
    pub second: f64,
    pub ratio: f64,
}

/// Samples of the things 0 and 1, in turn, so that both see the same state of the machine.
pub fn in_pairs(pairs: usize, mut sample: impl FnMut(usize) -> f64) -> Paired {
    let mut taken = [vec![], vec![]];
    for pair in 0..pairs {
        for thing in [pair % 2, 1 - pair % 2] {
            taken[thing].push(sample(thing));
        }
    }
    let [first, second] = taken;
    let ratios = first
        .iter()
        .zip(&second)
        .map(|(first, second)| first / second)
        .collect();
    Paired {
        first: median(first),
        second: median(second),
        ratio: median(ratios),
    }
}

impl Scenario {
    /// Nanoseconds of a part of the work, done so many times.
    fn time(&mut self, side: Side, part: Part, times: usize) -> f64 {
        let start = Moment::now();
        for _ in 0..times {
            black_box(self.perform(side, part));
        }
        start.elapsed()
    }

    /// How often the peer does the work in a sample.
    fn times(&mut self, sample: f64) -> usize {
        let mut times = 1;
        loop {
            let took = self.time(Side::Peer, Part::Whole, times);
            if took >= sample / 2.0 {
                return ((times as f64 * sample / took).ceil() as usize).max(1);
            }
            times *= 2;
        }
    }

    /// The time of one call on both sides, without what is done before.
    pub fn measure(&mut self, effort: Effort) -> Measured {
        let times = self.times(effort.sample);
        let calls = (times * self.units) as f64;
        let paired = in_pairs(effort.pairs, |thing| {
            let side = Side::BOTH[thing];
            let whole = self.time(side, Part::Whole, times);
            let before = self.time(side, Part::Before, times);
            (whole - before) / calls
        });
        Measured {
            product: paired.first,
            peer: paired.second,
            ratio: paired.ratio,
        }
    }
}
