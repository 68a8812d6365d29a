//! The slot rule in few steps.

use crate::second::rules::MOST_LINKS;

/// j of 01, slot rule 2. It is small for most gaps, so that this takes less time than a division.
fn doublings(base: u16, gap: u16) -> u16 {
    let mut doublings = 0;
    let mut period = base;
    while period <= gap / 2 {
        period *= 2;
        doublings += 1;
    }
    doublings
}

/// 01, slot rule 3, both sides multiplied so that 10, the largest j of any gap, stands in the place of J.
fn fits(base: u16, gaps: &[u16]) -> bool {
    let parts = gaps.iter().map(|&gap| 1024 >> doublings(base, gap));
    parts.sum::<u32>() <= u32::from(base) * 1024
}

/// 01, slot rules 1 and 4. A base of at most half the smallest gap gives the same periods as its double.
fn largest_base(gaps: &[u16]) -> Option<u16> {
    let smallest = *gaps.iter().min()?;
    (smallest / 2 + 1..=smallest)
        .rev()
        .find(|&base| fits(base, gaps))
}

/// What a child has been assigned.
#[derive(Clone, Copy, Default)]
struct Turn {
    offset: u16,
    period: u16,
}

/// 01, slot rule 5. Each period divides the later ones, so what an earlier child found taken is taken for all later ones:
/// the search goes on from there.
fn free_offset(from: u16, earlier: &[Turn]) -> u16 {
    let mut offset = from;
    while earlier
        .iter()
        .any(|turn| offset % turn.period == turn.offset)
    {
        offset += 1;
    }
    offset
}

/// Fills both lists, which are as long as the gaps, and gives the base. None: crowded, and both lists are as they were.
/// There are at most 63 gaps, each from 1 to 1,024.
pub fn assign(gaps: &[u16], offsets: &mut [u16], periods: &mut [u16]) -> Option<u16> {
    let base = largest_base(gaps)?;
    let mut order = [0; MOST_LINKS];
    let order = &mut order[..gaps.len()];
    for (child, &gap) in gaps.iter().enumerate() {
        let doublings = doublings(base, gap);
        periods[child] = base << doublings;
        order[child] = doublings << 6 | child as u16;
    }
    order.sort_unstable();
    let mut turns = [Turn::default(); MOST_LINKS];
    let mut from = 0;
    for (count, place) in order.iter().enumerate() {
        let child = usize::from(place & 63);
        let offset = free_offset(from, &turns[..count]);
        let period = periods[child];
        turns[count] = Turn { offset, period };
        offsets[child] = offset;
        from = offset + 1;
    }
    Some(base)
}
