//! The sites that are measured.

use crate::library::slotplan_lib::NewFlow;
use crate::second::bytes::{
    flow_command, node_command, plan_p, read_plan, write_schedule, written, COMMAND_LENGTH, END,
};
use crate::second::rules::{FLOW_NUMBERS, MOST_LINKS};
use std::array::from_fn;

/// A plan with what the calls on it need.
pub struct Case {
    pub plan: Vec<u8>,
    /// The plan without its last flow, which is the one that comes and goes.
    pub without_last: Vec<u8>,
    pub last: NewFlow,
    /// For each flow its rate.
    pub arrivals: [u16; FLOW_NUMBERS],
    /// The schedule file.
    pub schedule: Vec<u8>,
    pub links: u8,
    /// The offsets and periods that the file reads to.
    pub lists: [[u16; MOST_LINKS]; 2],
}

impl Case {
    /// A plan without flows has none that comes or goes: such calls are refused on it.
    pub fn of_plan(plan: Vec<u8>) -> Case {
        let site = read_plan(&plan).expect("the plans measured are accepted");
        let number = site.live_flows().last().copied().unwrap_or(0);
        let mut without_last = plan.clone();
        if site.is_live(number) {
            without_last.truncate(plan.len() - 1 - COMMAND_LENGTH);
            without_last.push(END);
        }
        Case {
            plan,
            without_last,
            last: NewFlow {
                number: number as u8,
                entry: site.entries[number] as u8,
                rate: site.rates[number] as u8,
                deadline: site.deadlines[number] as u16,
            },
            arrivals: from_fn(|flow| site.rates[flow] as u16),
            schedule: written(&site, write_schedule).expect("the site has links"),
            links: site.links as u8,
            lists: [&site.offsets, &site.periods].map(|list| from_fn(|link| list[link] as u16)),
        }
    }
}

/// The plans by name.
pub fn plans() -> [(&'static str, Vec<u8>); 3] {
    [
        ("small", plan_p(9, 7)),
        ("typical", typical_plan()),
        ("largest", largest_plan()),
    ]
}

pub fn case(name: &str) -> Option<Case> {
    let plan = plans().into_iter().find(|plan| plan.0 == name)?;
    Some(Case::of_plan(plan.1))
}

/// Twelve lanes under two relays, and two signs at the server. Each lane has a flow.
fn typical_plan() -> Vec<u8> {
    let mut nodes = vec![node_command(0, 100, 4), node_command(0, 100, 4)];
    for lane in 0..12 {
        let gaps = [12, 12, 16, 16, 24, 24];
        nodes.push(node_command(1 + lane / 6, 100, gaps[lane as usize % 6]));
    }
    nodes.extend([node_command(0, 20, 64), node_command(0, 20, 64)]);
    let lanes = 0..12;
    let flows: Vec<_> = lanes
        .map(|lane| flow_command(lane, 3 + lane, 1 + lane % 3, 40))
        .collect();
    plan_of(&nodes, &flows)
}

/// Eight nodes under the root with eight or seven children each, and 64 flows.
pub fn largest_plan() -> Vec<u8> {
    include_bytes!(concat!(env!("CARGO_MANIFEST_DIR"), "/plans/largest.plan")).to_vec()
}

pub fn plan_of(nodes: &[Vec<u8>], flows: &[Vec<u8>]) -> Vec<u8> {
    let mut plan = [nodes.concat(), flows.concat()].concat();
    plan.push(END);
    plan
}

#[cfg(test)]
mod tests {
    use super::*;

    #[test]
    fn the_sites_are_as_large_as_their_names_say() {
        let sizes = plans().map(|(_, plan)| {
            let site = read_plan(&plan).unwrap();
            (site.links, site.live_flows().len())
        });
        assert_eq!(sizes, [(3, 1), (16, 12), (63, 64)]);
        assert_eq!(largest_plan().len(), 763);
    }
}
