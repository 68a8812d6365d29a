//! The site of a plan in fixed arrays, read and judged in one pass over the bytes.

use super::check_end;
use super::rule::assign;
use crate::second::bytes::{COMMAND_LENGTH, END, FLOW, NODE};
use crate::second::rules::{refuse, Refusal, FLOW_NUMBERS, MOST_DEPTH, MOST_LINKS};
use std::ops::Range;

/// The root has number 0, so that a node's number is its index.
const NODES: usize = MOST_LINKS + 1;

#[derive(Clone, Copy)]
pub struct FixedFlow {
    pub number: u8,
    pub entry: u8,
    pub rate: u8,
    deadline: u16,
}

pub struct FixedSite {
    pub links: usize,
    parents: [u8; NODES],
    capacities: [u16; NODES],
    gaps: [u16; NODES],
    pub offsets: [u16; NODES],
    pub periods: [u16; NODES],
    depths: [u8; NODES],
    /// The periods from the node up to the root, summed.
    pub reaches: [u16; NODES],
    /// The rates of the flows with this link on their route, summed. Their widths sum to this times the period.
    rates: [u16; NODES],
    /// The nodes by rising parent, those of one parent by rising number.
    children: [u8; MOST_LINKS],
    /// Where the children of each parent begin in that list; they end where the next parent's begin.
    begins: [u8; NODES + 1],
    /// The live numbers, as bits.
    live: u64,
    pub flow_count: usize,
    flows: [FixedFlow; FLOW_NUMBERS],
}

impl FixedSite {
    const EMPTY: FixedSite = FixedSite {
        links: 0,
        parents: [0; NODES],
        capacities: [0; NODES],
        gaps: [0; NODES],
        offsets: [0; NODES],
        periods: [0; NODES],
        depths: [0; NODES],
        reaches: [0; NODES],
        rates: [0; NODES],
        children: [0; MOST_LINKS],
        begins: [0; NODES + 1],
        live: 0,
        flow_count: 0,
        flows: [FixedFlow {
            number: 0,
            entry: 0,
            rate: 0,
            deadline: 0,
        }; FLOW_NUMBERS],
    };

    pub fn read(plan: &[u8]) -> Result<FixedSite, Refusal> {
        let mut site = FixedSite::EMPTY;
        site.read_commands(plan)?;
        site.assign_all()?;
        site.check_widths()?;
        site.check_deadlines()?;
        Ok(site)
    }

    /// For each command 3, 2, 4, 7, 5, 6, 8, for END 10.
    fn read_commands(&mut self, plan: &[u8]) -> Result<(), Refusal> {
        for (count, bytes) in plan.chunks(COMMAND_LENGTH).enumerate() {
            let at = count * COMMAND_LENGTH;
            let read = match (bytes[0], bytes) {
                (END, _) => return check_end(plan, at),
                (NODE, &[_, parent, a, b, c, d]) => self.add_node(
                    parent,
                    u16::from_le_bytes([a, b]),
                    u16::from_le_bytes([c, d]),
                ),
                (FLOW, &[_, number, entry, rate, a, b]) => self.add_flow(FixedFlow {
                    number,
                    entry,
                    rate,
                    deadline: u16::from_le_bytes([a, b]),
                }),
                (NODE | FLOW, _) => Err(2),
                _ => Err(3),
            };
            read.or_else(|number| refuse(number, at))?;
        }
        refuse(2, plan.len())
    }

    /// Checks 4, 7, 5, 6, 8 in this order.
    fn add_node(&mut self, parent: u8, capacity: u16, gap: u16) -> Result<(), u64> {
        let node = self.links + 1;
        let above = usize::from(parent);
        if self.live != 0 {
            return Err(4);
        }
        if node > MOST_LINKS {
            return Err(7);
        }
        if capacity == 0 || gap == 0 || gap > 1024 {
            return Err(5);
        }
        if above >= node {
            return Err(6);
        }
        let depth = self.depths[above] + 1;
        if usize::from(depth) > MOST_DEPTH {
            return Err(8);
        }
        self.links = node;
        self.parents[node] = parent;
        self.capacities[node] = capacity;
        self.gaps[node] = gap;
        self.depths[node] = depth;
        Ok(())
    }

    /// Checks 5 and 6.
    fn add_flow(&mut self, flow: FixedFlow) -> Result<(), u64> {
        let entry = usize::from(flow.entry);
        if usize::from(flow.number) >= FLOW_NUMBERS || flow.rate == 0 || flow.deadline == 0 {
            return Err(5);
        }
        if entry == 0 || entry > self.links || self.live >> flow.number != 0 {
            return Err(6);
        }
        self.flows[self.flow_count] = flow;
        self.flow_count += 1;
        self.live |= 1 << flow.number;
        self.rates[entry] += u16::from(flow.rate);
        Ok(())
    }

    /// Half open, of which the compiler makes the shorter loop.
    pub fn nodes(&self) -> Range<usize> {
        1..self.links + 1
    }

    /// The nodes in their order are handed to their parents' places in the list of children.
    fn list_children(&mut self) {
        for node in self.nodes() {
            self.begins[usize::from(self.parents[node]) + 1] += 1;
        }
        for parent in 0..NODES {
            self.begins[parent + 1] += self.begins[parent];
        }
        let mut next = self.begins;
        for node in self.nodes() {
            let place = &mut next[usize::from(self.parents[node])];
            self.children[usize::from(*place)] = node as u8;
            *place += 1;
        }
    }

    pub fn children(&self, parent: usize) -> &[u8] {
        &self.children[usize::from(self.begins[parent])..usize::from(self.begins[parent + 1])]
    }

    /// 11 over all parents rising. A parent's number is below its children's, so its own reach is known when they are assigned theirs.
    fn assign_all(&mut self) -> Result<(), Refusal> {
        self.list_children();
        let (mut gaps, mut offsets, mut periods) =
            ([0; MOST_LINKS], [0; MOST_LINKS], [0; MOST_LINKS]);
        for parent in 0..self.links + 1 {
            let begin = usize::from(self.begins[parent]);
            let count = usize::from(self.begins[parent + 1]) - begin;
            if count == 0 {
                continue;
            }
            let children = &self.children[begin..begin + count];
            for (gap, &node) in gaps.iter_mut().zip(children) {
                *gap = self.gaps[usize::from(node)];
            }
            let gaps = &gaps[..count];
            if assign(gaps, &mut offsets[..count], &mut periods[..count]).is_none() {
                return refuse(11, parent);
            }
            let reach = self.reaches[parent];
            for (place, &node) in children.iter().enumerate() {
                self.offsets[usize::from(node)] = offsets[place];
                self.periods[usize::from(node)] = periods[place];
                self.reaches[usize::from(node)] = reach + periods[place];
            }
        }
        Ok(())
    }

    /// 12. A parent's number is below its children's, so going down all rates of a link have come to it when it is judged.
    fn check_widths(&mut self) -> Result<(), Refusal> {
        let mut lowest = 0;
        for node in self.nodes().rev() {
            if !self.has_room(node, 0) {
                lowest = node;
            }
            let parent = usize::from(self.parents[node]);
            self.rates[parent] += self.rates[node];
        }
        match lowest {
            0 => Ok(()),
            link => refuse(12, link),
        }
    }

    /// 13. The flows have rising numbers, so the first that is late is the lowest.
    fn check_deadlines(&self) -> Result<(), Refusal> {
        let late = |flow: &&FixedFlow| self.reaches[usize::from(flow.entry)] > flow.deadline;
        match self.flows().iter().find(late) {
            Some(flow) => refuse(13, usize::from(flow.number)),
            None => Ok(()),
        }
    }

    /// Whether the link has the capacity for its flows and one of this rate besides.
    pub fn has_room(&self, link: usize, rate: u8) -> bool {
        let rates = u32::from(self.rates[link]) + u32::from(rate);
        rates * u32::from(self.periods[link]) <= u32::from(self.capacities[link])
    }

    /// By rising number.
    pub fn flows(&self) -> &[FixedFlow] {
        &self.flows[..self.flow_count]
    }

    pub fn is_live(&self, number: u8) -> bool {
        self.live >> number & 1 == 1
    }

    /// How many live flows have a smaller number.
    pub fn flows_below(&self, number: u8) -> usize {
        (self.live & ((1 << number) - 1)).count_ones() as usize
    }

    /// The links from the node up to the root.
    pub fn route(&self, node: u8) -> impl Iterator<Item = usize> + '_ {
        let mut at = usize::from(node);
        std::iter::from_fn(move || {
            let link = at;
            at = usize::from(self.parents[link]);
            (link != 0).then_some(link)
        })
    }

    pub fn sends(&self, link: usize, slot: u32) -> bool {
        slot % u32::from(self.periods[link]) == u32::from(self.offsets[link])
    }
}
