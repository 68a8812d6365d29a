//! Random lists of wanted gaps, near the border between fitting and crowded.

use crate::random::generator::Random;
use crate::second::rules::{GAPS, MOST_LINKS};

fn random_base(random: &mut Random, count: usize) -> u64 {
    let count = count as u64;
    match random.between(0, 9) {
        0..=2 => random.between(1, count + 2),
        3..=6 => random.between(count.div_ceil(2), count),
        7 => random.between(1, 100),
        _ => random.between(100, *GAPS.end()),
    }
}

/// The period to be halved in frequency next: any, or always the longest, which leads to large offsets.
fn divisible(random: &mut Random, periods: &[u64], longest: bool) -> usize {
    let mut candidates: Vec<usize> = (0..periods.len())
        .filter(|&index| periods[index] * 2 <= *GAPS.end())
        .collect();
    if longest {
        candidates.sort_by_key(|&index| periods[index]);
        return candidates[candidates.len() - 1];
    }
    random.pick(&candidates)
}

/// Periods that fill the slots exactly, or leave some free where the base is above the count:
/// as many of period b as b, some of them replaced by two of twice the period.
fn fitting_periods(random: &mut Random, count: usize) -> Vec<u64> {
    let base = random_base(random, count);
    let longest = random.chance(30);
    let mut periods = vec![base; base as usize];
    while periods.len() < count {
        let index = divisible(random, &periods, longest);
        periods[index] *= 2;
        periods.push(periods[index]);
    }
    random.shuffle(&mut periods);
    periods.truncate(count);
    periods
}

/// Gaps that some base fits, often just so. Where only the shortest are above their periods,
/// the smallest gap is often no base that fits, since the others would get shorter periods under it.
pub fn fitting_gaps(random: &mut Random, count: usize) -> Vec<u64> {
    let mut gaps = fitting_periods(random, count);
    let shortest = *gaps.iter().min().expect("there are gaps");
    let loose = random.pick(&[0, shortest, shortest, *GAPS.end()]);
    for gap in gaps.iter_mut().filter(|gap| **gap <= loose) {
        *gap = random.between(*gap, (*gap * 2 - 1).min(*GAPS.end()));
    }
    gaps
}

/// Gaps of at least twice the count: all periods are above the count, so the smallest gap fits as base.
pub fn roomy_gaps(random: &mut Random, count: usize) -> Vec<u64> {
    let least = 2 * count as u64;
    let most = random.pick(&[least * 2, *GAPS.end()]);
    (0..count).map(|_| random.between(least, most)).collect()
}

/// Gaps that fit or not: fitting ones of which one is smaller, or small ones.
pub fn doubtful_gaps(random: &mut Random, count: usize) -> Vec<u64> {
    if random.chance(30) {
        let most = count as u64 + 2;
        return (0..count).map(|_| random.between(1, most)).collect();
    }
    let mut gaps = fitting_gaps(random, count);
    let index = random.index(count);
    gaps[index] = random
        .pick(&[gaps[index] - 1, gaps[index] / 2, 1, 2])
        .max(1);
    gaps
}

/// 01, refusal 1 of the slot rule: mostly the length of the gap list, else near it.
fn list_length(random: &mut Random, count: usize) -> usize {
    match random.between(0, 19) {
        0 => count.saturating_sub(1),
        1 => (count + 1).min(66),
        2 => random.index(67),
        _ => count,
    }
}

fn gap_count(random: &mut Random) -> usize {
    match random.between(0, 19) {
        0 => 0,
        1 => MOST_LINKS + 1,
        2 => 66,
        3 => MOST_LINKS,
        4..=8 => 1 + random.index(MOST_LINKS),
        _ => 1 + random.index(8),
    }
}

/// A list of gaps that fit or not, a few of them outside their limits. There may be more than 01 allows.
pub fn gap_list(random: &mut Random, count: usize) -> Vec<u64> {
    if count == 0 {
        return Vec::new();
    }
    let mut gaps = match random.between(0, 5) {
        0 => roomy_gaps(random, count),
        1..=2 => doubtful_gaps(random, count),
        _ => fitting_gaps(random, count),
    };
    while random.chance(15) {
        let index = random.index(count);
        gaps[index] = random.pick(&[0, 1, 1023, 1024, 1025, 65_535]);
    }
    gaps
}

/// A line for the test program of the slot rule.
pub fn slot_rule_line(random: &mut Random) -> String {
    let count = gap_count(random);
    let gaps = gap_list(random, count);
    let offsets = list_length(random, gaps.len());
    let periods = if random.chance(90) {
        gaps.len()
    } else {
        list_length(random, gaps.len())
    };
    let gaps: String = gaps.iter().map(|gap| format!(" {gap}")).collect();
    format!("{offsets} {periods}{gaps}\n")
}
