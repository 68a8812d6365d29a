//! One slot on counters that are lent.

use super::site::{FixedFlow, FixedSite};
use crate::second::calls::{CELLS, COUNTERS};
use crate::second::rules::{refuse, Refusal, FLOW_NUMBERS, MOST_LINKS};

pub type Counters = [u32; COUNTERS];
pub type Arrivals = [u16; FLOW_NUMBERS];

/// 19 for all live numbers, then 20.
pub fn check_counts(
    site: &FixedSite,
    counters: &Counters,
    arrivals: &Arrivals,
) -> Result<(), Refusal> {
    for flow in site.flows() {
        let number = usize::from(flow.number);
        let cells = &counters[number * CELLS..][..CELLS];
        let sum = cells.iter().map(|&cell| u64::from(cell)).sum::<u64>();
        if sum + u64::from(arrivals[number]) > u64::from(u32::MAX) {
            return refuse(19, number);
        }
    }
    let mut numbers = 0..FLOW_NUMBERS;
    match numbers.find(|&number| arrivals[number] != 0 && !site.is_live(number as u8)) {
        Some(number) => refuse(20, number),
        None => Ok(()),
    }
}

/// The slot once all checks have passed.
pub fn pass(site: &FixedSite, counters: &mut Counters, arrivals: &Arrivals, slot: u32) {
    let mut sending = [0; MOST_LINKS + 1];
    for link in site.nodes() {
        if site.sends(link, slot) {
            sending[link] = u32::from(site.periods[link]);
        }
    }
    for flow in site.flows() {
        let number = usize::from(flow.number);
        let cells = &mut counters[number * CELLS..][..CELLS];
        cells[0] += u32::from(arrivals[number]);
        advance(site, *flow, cells, &sending);
    }
}

/// `sending` has the period of each link that sends, and 0 for the others, so that a width is the rate times this.
/// Going up, what the link below moved joins a queue only after that queue's own link was judged.
fn advance(site: &FixedSite, flow: FixedFlow, cells: &mut [u32], sending: &[u32; MOST_LINKS + 1]) {
    let mut joining = 0;
    for (cell, link) in cells.iter_mut().zip(site.route(flow.entry)) {
        let moved = (*cell).min(u32::from(flow.rate) * sending[link]);
        *cell = *cell - moved + joining;
        joining = moved;
    }
    cells[CELLS - 1] += joining;
}
