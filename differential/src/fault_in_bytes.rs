//! Faults made on purpose in the bytes of a plan: refusals 1 to 4, 10, 11 and 15,
//! and damage by chance.
//!
//! Each function of a fault says whether the plan allowed it.

use crate::draft::Draft;
use crate::layout::{
    item_bits, pattern_start, section_bits, set_field, standing_bit, COUNTS, JOBS,
};
use crate::random::Random;

/// Makes the fault of this refusal, if it is one of these.
pub fn make(refusal: u32, draft: &Draft, plan: &mut Vec<u8>, random: &mut Random) -> bool {
    match refusal {
        1 => cut_within(plan, 0, 11, random),
        2 => head_out_of_range(plan, random),
        3 => cut_within(plan, 11, pattern_start(draft), random),
        4 => filling_bit(plan, section_bits(draft), random),
        10 => cut_within(plan, pattern_start(draft), plan.len(), random),
        11 => strange_item(draft, plan, random),
        15 => after_the_end(draft, plan, random),
        _ => false,
    }
}

/// Cuts the plan to a length from `least` to below `end`, often the longest.
fn cut_within(plan: &mut Vec<u8>, least: usize, end: usize, random: &mut Random) -> bool {
    if least >= end {
        return false;
    }
    let longest = random.one_in(3);
    let length = if longest {
        end - 1
    } else {
        least + random.index(end - least)
    };
    plan.truncate(length);
    true
}

fn head_out_of_range(plan: &mut [u8], random: &mut Random) -> bool {
    let count = &COUNTS[random.index(COUNTS.len())];
    let largest = (1 << count.width) - 1;
    let value = match random.below(4) {
        0 if count.least > 0 => 0,
        1 => count.most + 1,
        2 => largest,
        _ => random.within(count.most + 1..=largest),
    };
    count.write(plan, value);
    true
}

/// Makes one of the bits from this one up to the end of its byte a one.
fn filling_bit(plan: &mut [u8], from: usize, random: &mut Random) -> bool {
    let filling = from.next_multiple_of(8) - from;
    if filling > 0 {
        set_field(plan, from + random.index(filling), 1, 1);
    }
    filling > 0
}

fn strange_item(draft: &Draft, plan: &mut [u8], random: &mut Random) -> bool {
    let starts = item_bits(draft);
    let item = random.index(draft.items.len());
    set_field(plan, starts[item], 3, random.within(5..=7));
    true
}

fn after_the_end(draft: &Draft, plan: &mut Vec<u8>, random: &mut Random) -> bool {
    let end = item_bits(draft)[draft.items.len()];
    if random.one_in(2) && filling_bit(plan, end, random) {
        return true;
    }
    lengthen(plan, random);
    true
}

/// Adds bytes: zeros or any, few or many.
fn lengthen(plan: &mut Vec<u8>, random: &mut Random) {
    let more = if random.one_in(8) {
        random.index(4_096)
    } else {
        random.index(4)
    };
    let mut bytes = random.bytes(1 + more);
    if random.one_in(2) {
        bytes.fill(0);
    }
    plan.append(&mut bytes);
}

/// Damage that aims at no refusal: flipped bits, a cut, more bytes, another
/// count in the head, noise from some byte on, or jobs that stand or no longer do.
pub fn mangle(plan: &mut Vec<u8>, random: &mut Random) {
    match random.weighted(&[6, 2, 1, 3, 1, 3]) {
        0 => {
            for _ in 0..random.pick(&[1, 1, 1, 2, 3]) {
                let bit = random.index(plan.len() * 8);
                flip(plan, bit);
            }
        }
        1 => plan.truncate(random.index(plan.len() + 1)),
        2 => lengthen(plan, random),
        3 => {
            let count = &COUNTS[random.index(COUNTS.len())];
            let now = count.read(plan);
            let near = [now.saturating_sub(1), now + 1];
            let value = match random.one_in(3) {
                true => random.within(count.least..=count.most),
                false => random.pick(&near),
            };
            count.write(plan, value);
        }
        4 => {
            let from = random.index(plan.len());
            let noise = random.bytes(plan.len() - from);
            plan[from..].copy_from_slice(&noise);
        }
        _ => {
            let jobs = JOBS.read(plan) as usize;
            for _ in 0..random.pick(&[1, 1, 2]).min(jobs) {
                flip(plan, standing_bit(random.index(jobs)));
            }
        }
    }
}

fn flip(plan: &mut [u8], bit: usize) {
    plan[bit / 8] ^= 0x80 >> (bit % 8);
}

/// Plain noise, one in two times with a head of small counts in their ranges.
pub fn noise(random: &mut Random) -> Vec<u8> {
    let most = random.pick(&[16, 100, 4_200]);
    let length = random.index(most + 1);
    let mut plan = random.bytes(length);
    if random.one_in(2) {
        for count in &COUNTS {
            let value = random.within(count.least..=8);
            count.write(&mut plan, value);
        }
    }
    plan
}
