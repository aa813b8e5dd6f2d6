//! A seeded generator of random numbers (splitmix64).

use std::ops::RangeInclusive;

pub struct Random {
    state: u64,
}

/// The step of splitmix64.
const GAMMA: u64 = 0x9e37_79b9_7f4a_7c15;

impl Random {
    pub fn new(seed: u64) -> Random {
        Random { state: seed }
    }

    /// The generator for one plan of a run.
    pub fn for_plan(seed: u64, number: u64) -> Random {
        let run = Random::new(seed).bits();
        Random::new(run ^ number.wrapping_mul(GAMMA))
    }

    pub fn bits(&mut self) -> u64 {
        self.state = self.state.wrapping_add(GAMMA);
        let mixed = (self.state ^ self.state >> 30).wrapping_mul(0xbf58_476d_1ce4_e5b9);
        let mixed = (mixed ^ mixed >> 27).wrapping_mul(0x94d0_49bb_1331_11eb);
        mixed ^ mixed >> 31
    }

    /// A number below the bound, which is not 0.
    pub fn below(&mut self, bound: u32) -> u32 {
        (self.bits() % u64::from(bound)) as u32
    }

    /// A number of the range, which is not empty.
    pub fn within(&mut self, range: RangeInclusive<u32>) -> u32 {
        range.start() + self.below(range.end() - range.start() + 1)
    }

    /// An index of a list of `length` places, which is not empty.
    pub fn index(&mut self, length: usize) -> usize {
        self.below(length as u32) as usize
    }

    /// One in so many times, on the average.
    pub fn one_in(&mut self, times: u32) -> bool {
        self.below(times) == 0
    }

    pub fn pick<T: Clone>(&mut self, list: &[T]) -> T {
        list[self.index(list.len())].clone()
    }

    pub fn pick_mut<'a, T>(&mut self, list: &'a mut [T]) -> &'a mut T {
        let index = self.index(list.len());
        &mut list[index]
    }

    /// An index of the weights, each as often as it weighs.
    pub fn weighted(&mut self, weights: &[u32]) -> usize {
        let mut left = self.below(weights.iter().sum());
        for (index, &weight) in weights.iter().enumerate() {
            if left < weight {
                return index;
            }
            left -= weight;
        }
        0
    }

    pub fn shuffle<T>(&mut self, list: &mut [T]) {
        for last in (1..list.len()).rev() {
            list.swap(last, self.index(last + 1));
        }
    }

    /// One event of the set, or 0 if it is empty; event e has weight 2^e.
    pub fn event_of(&mut self, set: u32) -> u32 {
        let events: Vec<u32> = (1..32).filter(|event| set >> event & 1 == 1).collect();
        if events.is_empty() {
            0
        } else {
            self.pick(&events)
        }
    }

    pub fn bytes(&mut self, length: usize) -> Vec<u8> {
        (0..length).map(|_| self.bits() as u8).collect()
    }
}
