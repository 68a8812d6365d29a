//! The eleven functions of the header, made of the second implementation. The order of the checks is the header's.

use crate::library::slotplan_lib::{Answer, NewFlow};
use crate::second::bytes::{self, write_plan};
use crate::second::calls::{self, admission, COUNTERS};
use crate::second::rules::{refuse, slot_rule, Flow, Refusal, Site, FLOW_NUMBERS, MOST_LINKS};
use crate::second::schedules::{self, write_schedule_of, Schedule};
use crate::second::slots;

/// The links, and from bit 8 on the flows.
pub fn read_plan(plan: &[u8]) -> Answer {
    let site = bytes::read_plan(plan)?;
    Ok(site.links + 256 * site.live_flows().len() as u64)
}

pub fn schedule(plan: &[u8], out: &mut [u8]) -> Answer {
    let site = bytes::read_plan(plan)?;
    bytes::write_schedule(&site, out).map(|length| length as u64)
}

/// The header: 1 for the lists of a schedule comes before all other checks.
fn check_lists(offsets: &[u16], periods: &[u16]) -> Result<(), Refusal> {
    if offsets.len() != MOST_LINKS || periods.len() != MOST_LINKS {
        return refuse(1, 0);
    }
    Ok(())
}

/// The links.
pub fn read_schedule(file: &[u8], offsets: &mut [u16], periods: &mut [u16]) -> Answer {
    check_lists(offsets, periods)?;
    let schedule = schedules::read_schedule(file)?;
    narrowed(&schedule.offsets, offsets);
    narrowed(&schedule.periods, periods);
    Ok(schedule.links)
}

pub fn write_schedule(links: u8, offsets: &[u16], periods: &[u16], out: &mut [u8]) -> Answer {
    check_lists(offsets, periods)?;
    let schedule = Schedule {
        links: u64::from(links),
        offsets: widened(offsets),
        periods: widened(periods),
    };
    write_schedule_of(&schedule, out).map(|length| length as u64)
}

/// The site that is handed in is the one that the bytes read to, so 14 judges whether they are accepted, and nothing else.
fn site_of(plan: &[u8]) -> Result<Site, Refusal> {
    bytes::read_plan(plan).or_else(|_| refuse(14, 0))
}

/// 01: 1 comes before 14, and here the site is read only then.
fn check_counters(counters: &[u32]) -> Result<(), Refusal> {
    if counters.len() != COUNTERS {
        return refuse(1, 0);
    }
    Ok(())
}

/// Makes a change of the site and writes the new bytes. 01: whether the slice has room comes after every other check, and lent memory is
/// unchanged by a refusal, so the counters are set only when the bytes are written.
fn change(
    plan: &[u8],
    counters: &mut [u32],
    out: &mut [u8],
    call: impl FnOnce(&mut Site, &mut [u32]) -> Result<(), Refusal>,
) -> Answer {
    check_counters(counters)?;
    let mut site = site_of(plan)?;
    let mut changed = counters.to_vec();
    call(&mut site, &mut changed)?;
    let length = write_plan(&site, out)?;
    counters.copy_from_slice(&changed);
    Ok(length as u64)
}

pub fn admit(plan: &[u8], counters: &mut [u32], flow: NewFlow, out: &mut [u8]) -> Answer {
    let flow = Flow {
        number: usize::from(flow.number),
        entry: usize::from(flow.entry),
        rate: u64::from(flow.rate),
        deadline: u64::from(flow.deadline),
    };
    change(plan, counters, out, |site, counters| {
        admission(site, counters, flow)
    })
}

pub fn release(plan: &[u8], counters: &mut [u32], number: u8, out: &mut [u8]) -> Answer {
    change(plan, counters, out, |site, counters| {
        calls::release(site, counters, usize::from(number))
    })
}

pub fn start(plan: &[u8], counters: &mut [u32]) -> Answer {
    check_counters(counters)?;
    slots::start(&site_of(plan)?, counters).map(|()| 0)
}

pub fn slot(plan: &[u8], counters: &mut [u32], arrivals: &[u16], number: u32) -> Answer {
    check_counters(counters)?;
    if arrivals.len() != FLOW_NUMBERS {
        return refuse(1, 0);
    }
    slots::slot(&site_of(plan)?, counters, arrivals, number).map(|()| 0)
}

pub fn sender(plan: &[u8], parent: u8, slot: u32) -> Answer {
    let site = site_of(plan)?;
    let node = calls::sender(&site, usize::from(parent), u64::from(slot))?;
    Ok(node as u64)
}

pub fn bound(plan: &[u8], number: u8) -> Answer {
    let (site, number) = (site_of(plan)?, usize::from(number));
    if number >= FLOW_NUMBERS {
        return refuse(5, 0);
    }
    if !site.is_live(number) {
        return refuse(16, number);
    }
    Ok(site.bound(number))
}

fn widened(list: &[u16]) -> Vec<u64> {
    list.iter().map(|&value| u64::from(value)).collect()
}

/// The offsets and periods of the slot rule and of a schedule that was read are at most 1,024.
fn narrowed(list: &[u64], into: &mut [u16]) {
    for (place, &value) in into.iter_mut().zip(list) {
        *place = value as u16;
    }
}

/// The base.
pub fn assign(gaps: &[u16], offsets: &mut [u16], periods: &mut [u16]) -> Answer {
    let [gaps, mut wide_offsets, mut wide_periods] = [gaps, &*offsets, &*periods].map(widened);
    let base = slot_rule(&gaps, &mut wide_offsets, &mut wide_periods)?;
    narrowed(&wide_offsets, offsets);
    narrowed(&wide_periods, periods);
    Ok(base)
}
