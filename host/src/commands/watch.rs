//! Demand 3 watched along a list of calls, flow by flow.

use crate::second::rules::{Site, FLOW_NUMBERS};
use crate::second::slots::{Batch, FlowPackets, Packets};
use std::collections::VecDeque;
use std::fmt;

/// What 01, "The list of demand 3", shuts out.
#[derive(Clone, Copy, Debug, PartialEq, Eq)]
pub enum Fault {
    NotFromZero,
    BoundAboveDeadline,
    PacketLate,
    DeliveredTooFew,
    TooManyWait,
    Miscounted,
    OutOfOrder,
}

/// A fault, the flow, and the last accepted slot.
#[derive(Clone, Copy, Debug, PartialEq, Eq)]
pub struct Objection {
    pub fault: Fault,
    pub flow: usize,
    pub slot: Option<u32>,
}

impl fmt::Display for Objection {
    fn fmt(&self, form: &mut fmt::Formatter) -> fmt::Result {
        let what = match self.fault {
            Fault::NotFromZero => "cells not 0 at the beginning",
            Fault::BoundAboveDeadline => "bound above the deadline",
            Fault::PacketLate => "a packet not gone by the end of slot a + G - 1",
            Fault::DeliveredTooFew => {
                "delivered count below the arrivals before the last G - 1 slots"
            }
            Fault::TooManyWait => "more than rate x G wait",
            Fault::Miscounted => "arrivals are not queues plus delivered count",
            Fault::OutOfOrder => "a packet left before one that came earlier",
        };
        write!(form, "flow {}: {what}", self.flow)?;
        match self.slot {
            Some(slot) => write!(form, ", last slot {slot}"),
            None => write!(form, ", before the first slot"),
        }
    }
}

/// What was seen of all flows watched.
#[derive(Clone, Copy, Debug, Default)]
pub struct Record {
    /// Beginnings with nine zeros: a flow counts anew after each admission and start.
    pub flows: u64,
    /// Those whose list broke a premise.
    pub broken: u64,
    /// Those of whose packets one left in slot a + G - 1 and not before.
    pub flows_at_bound: u64,
    /// Those of which at some moment exactly rate x G waited.
    pub flows_full: u64,
    pub slots: u64,
    pub packets: u64,
    /// Packets that left in slot a + G - 1.
    pub packets_at_bound: u64,
}

impl Record {
    pub fn add(&mut self, other: &Record) {
        self.flows += other.flows;
        self.broken += other.broken;
        self.flows_at_bound += other.flows_at_bound;
        self.flows_full += other.flows_full;
        self.slots += other.slots;
        self.packets += other.packets;
        self.packets_at_bound += other.packets_at_bound;
    }
}

impl fmt::Display for Record {
    fn fmt(&self, form: &mut fmt::Formatter) -> fmt::Result {
        writeln!(form, "flows: {}", self.flows)?;
        writeln!(form, "with a premise broken later: {}", self.broken)?;
        writeln!(form, "with a delay of exactly G: {}", self.flows_at_bound)?;
        writeln!(form, "with exactly rate x G waiting: {}", self.flows_full)?;
        writeln!(form, "slots, counted for each flow: {}", self.slots)?;
        writeln!(form, "packets: {}", self.packets)?;
        writeln!(
            form,
            "gone after exactly G slots: {}",
            self.packets_at_bound
        )
    }
}

/// A flow from its beginning on, as long as the list keeps the premises.
struct Watched {
    rate: u64,
    bound: u64,
    last: Option<u32>,
    arrived: u64,
    /// Packets in the queues after the last call.
    waiting: u64,
    /// The arrivals of the last G - 1 accepted slots, and the sum of all before them.
    recent: VecDeque<u64>,
    due: u64,
    /// When the packet came that left last.
    newest_gone: u32,
    longest_delay: u64,
    most_waiting: u64,
}

/// How many slots the packets have been there at the end of a slot, their slot of arrival included.
/// None: they did not come in the list.
fn slots_there(batch: &Batch, number: u32) -> Option<u64> {
    Some(u64::from(number.checked_sub(batch.came?)?) + 1)
}

impl Watched {
    fn new(site: &Site, flow: usize) -> Watched {
        Watched {
            rate: site.rates[flow],
            bound: site.bound(flow),
            last: None,
            arrived: 0,
            waiting: 0,
            recent: VecDeque::new(),
            due: 0,
            newest_gone: 0,
            longest_delay: 0,
            most_waiting: 0,
        }
    }

    /// The premises of demand 3: at most the rate, and numbers that rise by one without wrapping.
    fn allows(&self, number: u32, arrivals: u64) -> bool {
        let follows = |last: u32| last.checked_add(1) == Some(number);
        arrivals <= self.rate && self.last.is_none_or(follows)
    }

    fn count_waiting(&mut self, waiting: u64) -> Option<Fault> {
        self.most_waiting = self.most_waiting.max(waiting);
        (waiting > self.rate * self.bound).then_some(Fault::TooManyWait)
    }

    /// Judges the counts. Packets are numbered as they arrive, so the delivered count says which have left.
    fn after_call(&mut self, packets: &FlowPackets) -> Vec<Fault> {
        self.waiting = packets.count_waiting();
        let mut faults = Vec::from_iter(self.count_waiting(self.waiting));
        if self.arrived != self.waiting + packets.delivered() {
            faults.push(Fault::Miscounted);
        }
        if packets.delivered() < self.due {
            faults.push(Fault::DeliveredTooFew);
        }
        faults
    }

    fn arrivals(&mut self, number: u32, arrivals: u64) -> Option<Fault> {
        self.last = Some(number);
        self.arrived += arrivals;
        self.recent.push_back(arrivals);
        if self.recent.len() as u64 >= self.bound {
            self.due += self.recent.pop_front().unwrap_or(0);
        }
        self.count_waiting(self.waiting + arrivals)
    }

    /// Judges the packets that left by the slot of arrival that each carries.
    fn departures(&mut self, number: u32, left: &[Batch], record: &mut Record) -> Vec<Fault> {
        let mut faults = Vec::new();
        for batch in left {
            let Some(delay) = slots_there(batch, number) else {
                faults.push(Fault::Miscounted);
                continue;
            };
            let came = batch.came.unwrap_or(number);
            if came < self.newest_gone {
                faults.push(Fault::OutOfOrder);
            }
            if delay > self.bound {
                faults.push(Fault::PacketLate);
            }
            if delay == self.bound {
                record.packets_at_bound += batch.count;
            }
            self.newest_gone = came;
            self.longest_delay = self.longest_delay.max(delay);
        }
        faults
    }

    /// Judges the packets that stay, by the slot of arrival that each carries.
    fn remaining(&self, number: u32, packets: &FlowPackets) -> Vec<Fault> {
        let mut faults = Vec::new();
        for batch in packets.waiting() {
            match slots_there(batch, number) {
                None => faults.push(Fault::Miscounted),
                Some(slots) if slots >= self.bound => faults.push(Fault::PacketLate),
                Some(_) => {}
            }
        }
        faults
    }
}

/// An accepted slot: its number, its arrivals, and for each flow the packets that left.
pub struct Slot<'a> {
    pub number: u32,
    pub arrivals: &'a [u16],
    pub left: &'a [Vec<Batch>],
}

pub struct Watch {
    flows: Vec<Option<Watched>>,
    record: Record,
    pub objections: Vec<Objection>,
}

impl Watch {
    pub fn new() -> Watch {
        Watch {
            flows: (0..FLOW_NUMBERS).map(|_| None).collect(),
            record: Record::default(),
            objections: Vec::new(),
        }
    }

    fn object(&mut self, flow: usize, faults: Vec<Fault>) {
        let slot = self.flows[flow].as_ref().and_then(|watched| watched.last);
        for fault in faults {
            let objection = Objection { fault, flow, slot };
            if !self.objections.contains(&objection) {
                self.objections.push(objection);
            }
        }
    }

    fn end(&mut self, flow: usize) {
        if let Some(watched) = self.flows[flow].take() {
            let full = watched.rate * watched.bound;
            self.record.flows_at_bound += u64::from(watched.longest_delay == watched.bound);
            self.record.flows_full += u64::from(watched.most_waiting == full);
        }
    }

    fn begin(&mut self, site: &Site, packets: &Packets, flow: usize) {
        self.end(flow);
        let watched = Watched::new(site, flow);
        if watched.bound > site.deadlines[flow] {
            self.object(flow, vec![Fault::BoundAboveDeadline]);
        }
        if packets.flows[flow].cells().iter().any(|&cell| cell != 0) {
            self.object(flow, vec![Fault::NotFromZero]);
        }
        self.record.flows += 1;
        self.flows[flow] = Some(watched);
    }

    /// 01: an accepted start is to each live flow what its admission was.
    pub fn started(&mut self, site: &Site, packets: &Packets) {
        for flow in site.live_flows() {
            self.begin(site, packets, flow);
        }
    }

    pub fn admitted(&mut self, site: &Site, packets: &Packets, flow: usize) {
        self.begin(site, packets, flow);
    }

    pub fn released(&mut self, flow: usize) {
        self.end(flow);
    }

    /// `packets` are those that the slot left.
    pub fn passed(&mut self, slot: &Slot, packets: &Packets) {
        for flow in 0..FLOW_NUMBERS {
            let arrivals = u64::from(slot.arrivals[flow]);
            let watched = self.flows[flow].as_ref();
            if watched.is_some_and(|watched| !watched.allows(slot.number, arrivals)) {
                self.record.broken += 1;
                self.end(flow);
            }
            let faults = self.passed_for(flow, slot, &packets.flows[flow]);
            self.object(flow, faults);
        }
    }

    fn passed_for(&mut self, flow: usize, slot: &Slot, packets: &FlowPackets) -> Vec<Fault> {
        let Some(watched) = &mut self.flows[flow] else {
            return Vec::new();
        };
        let arrivals = u64::from(slot.arrivals[flow]);
        self.record.slots += 1;
        self.record.packets += arrivals;
        let mut faults = Vec::from_iter(watched.arrivals(slot.number, arrivals));
        faults.extend(watched.departures(slot.number, &slot.left[flow], &mut self.record));
        faults.extend(watched.remaining(slot.number, packets));
        faults
    }

    /// To be told after every call, accepted or refused.
    pub fn after_call(&mut self, packets: &Packets) {
        for flow in 0..FLOW_NUMBERS {
            let watched = self.flows[flow].as_mut();
            let faults = watched.map(|watched| watched.after_call(&packets.flows[flow]));
            self.object(flow, faults.unwrap_or_default());
        }
    }

    /// What was seen, with the flows counted that are still watched.
    pub fn close(&mut self) -> Record {
        (0..FLOW_NUMBERS).for_each(|flow| self.end(flow));
        std::mem::take(&mut self.record)
    }
}

#[cfg(test)]
mod tests {
    use super::*;
    use crate::second::bytes::{plan_p, read_plan};

    fn site_p() -> Site {
        read_plan(&plan_p(9, 7)).unwrap()
    }

    /// A slot that may be a false one: it moves the packets and gives those that left.
    type Moves = dyn Fn(&mut Packets, &Site, &[u16], u32) -> Vec<Vec<Batch>>;

    fn true_slot(
        packets: &mut Packets,
        site: &Site,
        arrivals: &[u16],
        number: u32,
    ) -> Vec<Vec<Batch>> {
        packets.pass_slot(site, arrivals, number)
    }

    /// Slots on another site than the one that the watch knows.
    fn on_altered_site(alter: fn(&mut Site, u32)) -> Box<Moves> {
        Box::new(move |packets, site, arrivals, number| {
            let mut altered = site.clone();
            alter(&mut altered, number);
            packets.pass_slot(&altered, arrivals, number)
        })
    }

    /// True slots, after each of which something is done to the packets or to what is told of those that left.
    fn with_harm(harm: fn(&mut Packets, &mut Vec<Batch>, u32)) -> Box<Moves> {
        Box::new(move |packets, site, arrivals, number| {
            let mut left = packets.pass_slot(site, arrivals, number);
            harm(packets, &mut left[0], number);
            left
        })
    }

    /// The watch over P after slots with these numbers and arrivals for flow 0.
    fn watched(slots: impl IntoIterator<Item = (u32, u16)>, moves: &Moves) -> Watch {
        let (site, mut packets, mut watch) = (site_p(), Packets::none(), Watch::new());
        watch.started(&site, &packets);
        for (number, count) in slots {
            let mut arrivals = [0; FLOW_NUMBERS];
            arrivals[0] = count;
            let left = moves(&mut packets, &site, &arrivals, number);
            let slot = Slot {
                number,
                arrivals: &arrivals,
                left: &left,
            };
            watch.passed(&slot, &packets);
            watch.after_call(&packets);
        }
        watch
    }

    fn at_rate(numbers: std::ops::Range<u32>) -> Vec<(u32, u16)> {
        numbers.map(|number| (number, 3)).collect()
    }

    fn lone(numbers: std::ops::Range<u32>, slot: u32) -> Vec<(u32, u16)> {
        numbers
            .map(|number| (number, u16::from(number == slot)))
            .collect()
    }

    /// The slots in which the watch objected with this fault.
    fn slots_with(watch: &Watch, fault: Fault) -> Vec<u32> {
        let objections = watch.objections.iter();
        objections
            .filter(|objection| objection.fault == fault && objection.flow == 0)
            .filter_map(|objection| objection.slot)
            .collect()
    }

    #[test]
    fn p_meets_both_bounds_and_keeps_them() {
        let mut watch = watched(at_rate(0..48), &true_slot);
        assert_eq!(watch.objections, []);
        let record = watch.close();
        assert_eq!((record.flows, record.broken, record.slots), (1, 0, 48));
        assert_eq!(record.packets, 144);
        assert_eq!((record.flows_at_bound, record.flows_full), (1, 1));
        assert!(record.packets_at_bound >= 3);
        let mut alone = watched(lone(0..20, 10), &true_slot);
        assert_eq!(alone.objections, []);
        let record = alone.close();
        assert_eq!((record.packets, record.packets_at_bound), (1, 1));
        assert_eq!((record.flows_at_bound, record.flows_full), (1, 0));
    }

    #[test]
    fn a_slot_that_moves_nothing_is_objected_to() {
        let silent = on_altered_site(|site, _| site.offsets.fill(2000));
        let watch = watched(at_rate(0..9), &silent);
        assert_eq!(slots_with(&watch, Fault::PacketLate), [6, 7, 8]);
        assert_eq!(slots_with(&watch, Fault::DeliveredTooFew), [6, 7, 8]);
        assert_eq!(slots_with(&watch, Fault::TooManyWait), [7, 8]);
        assert_eq!(watch.objections.len(), 8);
    }

    /// Link 1 sends in slot 17 and not in slot 16.
    #[test]
    fn a_slot_that_is_one_late_is_objected_to() {
        let late = on_altered_site(|site, number| match number {
            16 => site.offsets[0] = 3,
            17 => site.offsets[0] = 1,
            _ => {}
        });
        let watch = watched(lone(0..20, 10), &late);
        assert_eq!(slots_with(&watch, Fault::PacketLate), [16, 17]);
        assert_eq!(slots_with(&watch, Fault::DeliveredTooFew), [16]);
        assert_eq!(watch.objections.len(), 3);
        let watch = watched(lone(0..20, 13), &late);
        assert_eq!(watch.objections, []);
    }

    /// 21 of these may wait.
    #[test]
    fn one_packet_too_many_is_objected_to() {
        let silent = on_altered_site(|site, _| site.offsets.fill(2000));
        for (count, found) in [(0, vec![]), (1, vec![7])] {
            let slots = [at_rate(0..7), vec![(7, count)]].concat();
            let watch = watched(slots, &silent);
            assert_eq!(slots_with(&watch, Fault::TooManyWait), found);
        }
    }

    /// In each slot in which it sends, link 1 moves 9 in the place of 12, so that 24 wait in slot 16.
    #[test]
    fn a_slot_that_lets_too_many_wait_is_objected_to() {
        let narrow = on_altered_site(|site, number| {
            if site.sends(1, u64::from(number)) {
                site.periods[0] = 3;
                site.offsets[0] = u64::from(number % 3);
            }
        });
        let watch = watched(at_rate(0..17), &narrow);
        assert_eq!(slots_with(&watch, Fault::TooManyWait), [16]);
    }

    #[test]
    fn packets_lost_or_made_up_are_objected_to() {
        let lose = with_harm(|packets, _, _| *packets = Packets::none());
        let watch = watched(lone(0..3, 1), &lose);
        assert_eq!(slots_with(&watch, Fault::Miscounted), [1, 2]);
        let make_up = with_harm(|packets, _, number| {
            if number == 2 {
                packets.adopt(&[0, 1, 0, 0, 0, 0, 0, 0, 0]);
            }
        });
        let watch = watched(lone(0..3, 5), &make_up);
        assert_eq!(slots_with(&watch, Fault::Miscounted), [2]);
        assert_eq!(watch.objections.len(), 1);
    }

    /// A delivered count that is made up keeps the sum and the number of those waiting small.
    #[test]
    fn a_packet_without_a_slot_of_arrival_is_objected_to() {
        let make_up = with_harm(|packets, left, _| {
            let arrived: u32 = packets.flows[0].cells().iter().sum();
            packets.adopt(&[0, 0, 0, 0, 0, 0, 0, 0, arrived]);
            left.push(Batch {
                came: None,
                count: 3,
            });
        });
        let watch = watched(at_rate(0..2), &make_up);
        assert_eq!(slots_with(&watch, Fault::Miscounted), [0, 1]);
        assert_eq!(watch.objections.len(), 2);
    }

    #[test]
    fn a_packet_that_overtakes_is_objected_to() {
        let overtake = with_harm(|_, left, _| left.reverse());
        let watch = watched(at_rate(0..9), &overtake);
        assert_eq!(slots_with(&watch, Fault::OutOfOrder), [4, 8]);
        assert_eq!(watch.objections.len(), 2);
    }

    #[test]
    fn a_beginning_is_judged_too() {
        let (mut site, mut packets, mut watch) = (site_p(), Packets::none(), Watch::new());
        site.deadlines[0] = 6;
        packets.adopt(&[0, 0, 0, 0, 0, 0, 0, 0, 1]);
        watch.admitted(&site, &packets, 0);
        let faults: Vec<Fault> = watch.objections.iter().map(|found| found.fault).collect();
        assert_eq!(faults, [Fault::BoundAboveDeadline, Fault::NotFromZero]);
    }

    /// The links stay silent all the time, so whatever is watched for 7 slots is objected to.
    #[test]
    fn a_flow_is_watched_just_as_long_as_the_premises_hold() {
        let silent = on_altered_site(|site, _| site.offsets.fill(2000));
        let objections = |slots: &[(u32, u16)]| {
            let mut watch = watched(slots.iter().copied(), &silent);
            let found = watch.objections.len();
            (found, watch.close().broken)
        };
        let six = [(0, 1), (1, 0), (2, 0), (3, 0), (4, 0), (5, 0)];
        let then = |slot: (u32, u16)| objections(&[&six[..], &[slot]].concat());
        assert_eq!(then((6, 3)), (2, 0));
        for broken in [(7, 0), (5, 0), (0, 0), (6, 4)] {
            assert_eq!(then(broken), (0, 1));
        }
        let wrapping: Vec<(u32, u16)> = (0..7)
            .map(|more| (u32::MAX.wrapping_add(more), 1))
            .collect();
        assert_eq!(objections(&wrapping), (0, 1));
    }

    #[test]
    fn a_released_flow_is_watched_again_from_its_admission() {
        let (site, packets, mut watch) = (site_p(), Packets::none(), Watch::new());
        watch.started(&site, &packets);
        watch.released(0);
        let mut made_up = Packets::none();
        made_up.adopt(&[1, 0, 0, 0, 0, 0, 0, 0, 0]);
        watch.after_call(&made_up);
        assert_eq!(watch.objections, []);
        watch.admitted(&site, &packets, 0);
        watch.after_call(&made_up);
        assert_eq!(watch.objections.len(), 1);
        assert_eq!(watch.close().flows, 2);
    }
}
