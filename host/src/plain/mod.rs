//! The functions of the library in plain Rust, for comparison with the compiled library in time: the plan bytes are read
//! into fixed arrays and judged once, then the call runs on these arrays and writes the new bytes straight into the lent buffer.

mod rule;
mod schedule;
mod site;
mod slot;

use crate::library::slotplan_lib::{Answer, NewFlow};
use crate::second::bytes::{COMMAND_LENGTH, END, FLOW};
use crate::second::calls::{CELLS, COUNTERS};
use crate::second::rules::{refuse, Refusal, FLOW_NUMBERS, MOST_LINKS};
use schedule::{is_sound, link_command, FixedSchedule};
use site::FixedSite;
use slot::Counters;

/// The links, and from bit 8 on the flows.
pub fn read_plan(plan: &[u8]) -> Answer {
    let site = FixedSite::read(plan)?;
    Ok((site.links + 256 * site.flow_count) as u64)
}

pub fn schedule(plan: &[u8], out: &mut [u8]) -> Answer {
    let site = FixedSite::read(plan)?;
    let length = site.links * COMMAND_LENGTH + 1;
    let Some(out) = out.get_mut(..length) else {
        return refuse(1, 0);
    };
    for (command, link) in out.chunks_exact_mut(COMMAND_LENGTH).zip(1..) {
        let bytes = link_command(link as u8, site.offsets[link], site.periods[link]);
        command.copy_from_slice(&bytes);
    }
    out[length - 1] = END;
    Ok(length as u64)
}

/// The links.
pub fn read_schedule(file: &[u8], offsets: &mut [u16], periods: &mut [u16]) -> Answer {
    if offsets.len() != MOST_LINKS || periods.len() != MOST_LINKS {
        return refuse(1, 0);
    }
    let schedule = FixedSchedule::read(file)?;
    offsets.copy_from_slice(&schedule.offsets);
    periods.copy_from_slice(&schedule.periods);
    Ok(schedule.links as u64)
}

/// 1 for the lists, 14, 1 for the buffer.
pub fn write_schedule(links: u8, offsets: &[u16], periods: &[u16], out: &mut [u8]) -> Answer {
    if offsets.len() != MOST_LINKS || periods.len() != MOST_LINKS {
        return refuse(1, 0);
    }
    let links = usize::from(links);
    if !is_sound(links, offsets, periods) {
        return refuse(14, 0);
    }
    let length = links * COMMAND_LENGTH + 1;
    let Some(out) = out.get_mut(..length) else {
        return refuse(1, 0);
    };
    let turns = offsets.iter().zip(periods);
    let commands = out.chunks_exact_mut(COMMAND_LENGTH).zip(1..);
    for ((command, link), (&offset, &period)) in commands.zip(turns) {
        command.copy_from_slice(&link_command(link, offset, period));
    }
    out[length - 1] = END;
    Ok(length as u64)
}

/// 10.
fn check_end(bytes: &[u8], at: usize) -> Result<(), Refusal> {
    if at + 1 < bytes.len() {
        return refuse(10, at + 1);
    }
    Ok(())
}

/// Check 14 as the library makes it: the bytes are refused, by whichever check.
fn site_of(plan: &[u8]) -> Result<FixedSite, Refusal> {
    FixedSite::read(plan).or_else(|_| refuse(14, 0))
}

/// 1, then 14.
fn site_with_counters(plan: &[u8], counters: &[u32]) -> Result<FixedSite, Refusal> {
    if counters.len() != COUNTERS {
        return refuse(1, 0);
    }
    site_of(plan)
}

pub fn admit(plan: &[u8], counters: &mut [u32], flow: NewFlow, out: &mut [u8]) -> Answer {
    let site = site_with_counters(plan, counters)?;
    check_admission(&site, flow)?;
    let length = plan.len() + COMMAND_LENGTH;
    let Some(out) = out.get_mut(..length) else {
        return refuse(1, 0);
    };
    let at = command_place(&site, flow.number);
    let (before, after) = plan.split_at(at);
    let deadline = flow.deadline.to_le_bytes();
    let command = [
        FLOW,
        flow.number,
        flow.entry,
        flow.rate,
        deadline[0],
        deadline[1],
    ];
    out[..at].copy_from_slice(before);
    out[at..at + COMMAND_LENGTH].copy_from_slice(&command);
    out[at + COMMAND_LENGTH..].copy_from_slice(after);
    clear_cells(counters, flow.number);
    Ok(length as u64)
}

/// 5, 6, 15, 17 on the whole way up, 18.
fn check_admission(site: &FixedSite, flow: NewFlow) -> Result<(), Refusal> {
    let (number, entry) = (usize::from(flow.number), usize::from(flow.entry));
    if number >= FLOW_NUMBERS || flow.rate == 0 || flow.deadline == 0 {
        return refuse(5, 0);
    }
    if entry == 0 || entry > site.links {
        return refuse(6, 0);
    }
    if site.is_live(flow.number) {
        return refuse(15, number);
    }
    if let Some(link) = site
        .route(flow.entry)
        .find(|&link| !site.has_room(link, flow.rate))
    {
        return refuse(17, link);
    }
    if site.reaches[entry] > flow.deadline {
        return refuse(18, number);
    }
    Ok(())
}

/// Where the FLOW of this number stands in the plan bytes, or would stand.
fn command_place(site: &FixedSite, number: u8) -> usize {
    (site.links + site.flows_below(number)) * COMMAND_LENGTH
}

fn clear_cells(counters: &mut [u32], number: u8) {
    counters[usize::from(number) * CELLS..][..CELLS].fill(0);
}

pub fn release(plan: &[u8], counters: &mut [u32], number: u8, out: &mut [u8]) -> Answer {
    let site = site_with_counters(plan, counters)?;
    check_live(&site, number)?;
    let length = plan.len() - COMMAND_LENGTH;
    let Some(out) = out.get_mut(..length) else {
        return refuse(1, 0);
    };
    let at = command_place(&site, number);
    out[..at].copy_from_slice(&plan[..at]);
    out[at..].copy_from_slice(&plan[at + COMMAND_LENGTH..]);
    clear_cells(counters, number);
    Ok(length as u64)
}

/// 5, then 16.
fn check_live(site: &FixedSite, number: u8) -> Result<(), Refusal> {
    if usize::from(number) >= FLOW_NUMBERS {
        return refuse(5, 0);
    }
    if !site.is_live(number) {
        return refuse(16, usize::from(number));
    }
    Ok(())
}

pub fn start(plan: &[u8], counters: &mut [u32]) -> Answer {
    site_with_counters(plan, counters)?;
    counters.fill(0);
    Ok(0)
}

pub fn slot(plan: &[u8], counters: &mut [u32], arrivals: &[u16], number: u32) -> Answer {
    let counters: Result<&mut Counters, _> = counters.try_into();
    let (Ok(counters), Ok(arrivals)) = (counters, arrivals.try_into()) else {
        return refuse(1, 0);
    };
    let site = site_of(plan)?;
    slot::check_counts(&site, counters, arrivals)?;
    slot::pass(&site, counters, arrivals, number);
    Ok(0)
}

pub fn sender(plan: &[u8], parent: u8, slot: u32) -> Answer {
    let site = site_of(plan)?;
    let parent = usize::from(parent);
    if parent > site.links {
        return refuse(6, 0);
    }
    let mut children = site.children(parent).iter();
    let sending = children.find(|&&node| site.sends(usize::from(node), slot));
    Ok(sending.map_or(0, |&node| u64::from(node)))
}

pub fn bound(plan: &[u8], number: u8) -> Answer {
    let site = site_of(plan)?;
    check_live(&site, number)?;
    let flow = site.flows()[site.flows_below(number)];
    Ok(u64::from(site.reaches[usize::from(flow.entry)]))
}

pub fn assign(gaps: &[u16], offsets: &mut [u16], periods: &mut [u16]) -> Answer {
    if offsets.len() != gaps.len() || periods.len() != gaps.len() {
        return refuse(1, 0);
    }
    if gaps.is_empty() || gaps.len() > MOST_LINKS {
        return refuse(5, 0);
    }
    if let Some(index) = gaps.iter().position(|gap| !(1..=1024).contains(gap)) {
        return refuse(5, index);
    }
    match rule::assign(gaps, offsets, periods) {
        Some(base) => Ok(u64::from(base)),
        None => refuse(11, 0),
    }
}
