//! Start and one slot of the rehearsal, packet by packet.

use crate::second::calls::{check_lent, CELLS};
use crate::second::rules::{refuse, Refusal, Site, FLOW_NUMBERS, MOST_DEPTH, OF_32_BITS};
use std::collections::VecDeque;

/// Packets of one flow that came in the same slot and stand one after the other.
#[derive(Clone, Copy, Debug, PartialEq, Eq)]
pub struct Batch {
    /// None: the packets were counted by counters that were handed in.
    pub came: Option<u32>,
    pub count: u64,
}

/// 01, "One slot": what came earlier of a flow leaves earlier.
#[derive(Clone, Debug, Default)]
struct Queue {
    batches: VecDeque<Batch>,
}

impl Queue {
    fn join(&mut self, batch: Batch) {
        if batch.count > 0 {
            self.batches.push_back(batch);
        }
    }

    /// The first packets, as many as are allowed.
    fn leave(&mut self, most: u64) -> Vec<Batch> {
        let mut leaving = Vec::new();
        let mut room = most;
        while let Some(first) = self.batches.front_mut().filter(|_| room > 0) {
            let count = first.count.min(room);
            leaving.push(Batch { count, ..*first });
            first.count -= count;
            room -= count;
            if first.count == 0 {
                self.batches.pop_front();
            }
        }
        leaving
    }
}

fn total<'a>(batches: impl Iterator<Item = &'a Batch>) -> u64 {
    batches.map(|batch| batch.count).sum()
}

/// The packets of one flow: the queues from the entry link upward, and how many have left the last link.
#[derive(Clone, Debug, Default)]
pub struct FlowPackets {
    queues: [Queue; MOST_DEPTH],
    delivered: u64,
}

impl FlowPackets {
    /// Nobody knows when the packets came that nine cells count.
    fn of_cells(cells: &[u32]) -> FlowPackets {
        let mut packets = FlowPackets::default();
        for (queue, &cell) in packets.queues.iter_mut().zip(cells) {
            queue.join(Batch {
                came: None,
                count: u64::from(cell),
            });
        }
        packets.delivered = u64::from(cells[MOST_DEPTH]);
        packets
    }

    pub fn cells(&self) -> [u32; CELLS] {
        let mut counts = [self.delivered; CELLS];
        for (count, queue) in counts.iter_mut().zip(&self.queues) {
            *count = total(queue.batches.iter());
        }
        counts.map(|count| u32::try_from(count).expect("check 19 keeps cells within 32 bits"))
    }

    pub fn delivered(&self) -> u64 {
        self.delivered
    }

    /// The packets in the queues.
    pub fn waiting(&self) -> impl Iterator<Item = &Batch> {
        self.queues.iter().flat_map(|queue| &queue.batches)
    }

    pub fn count_waiting(&self) -> u64 {
        total(self.waiting())
    }

    fn arrive(&mut self, count: u16, number: u32) {
        self.queues[0].join(Batch {
            came: Some(number),
            count: u64::from(count),
        });
    }

    /// Moves what each link of the route may move, 0 where it does not send. Every link is judged before any packet joins
    /// the next queue, so no packet crosses two links. Gives the packets that left the last link.
    fn advance(&mut self, most: &[u64]) -> Vec<Batch> {
        let pairs = self.queues.iter_mut().zip(most);
        let mut moved: Vec<Vec<Batch>> = pairs.map(|(queue, &most)| queue.leave(most)).collect();
        let left = moved.pop().unwrap_or_default();
        for (next, batches) in self.queues[1..].iter_mut().zip(moved) {
            batches.into_iter().for_each(|batch| next.join(batch));
        }
        self.delivered += total(left.iter());
        left
    }
}

/// The packets of all flow numbers.
#[derive(Clone, Debug)]
pub struct Packets {
    pub flows: Vec<FlowPackets>,
}

impl Packets {
    pub fn none() -> Packets {
        Packets {
            flows: vec![FlowPackets::default(); FLOW_NUMBERS],
        }
    }

    /// Takes over the counters: where they differ from the packets' counts, they alone are known.
    pub fn adopt(&mut self, counters: &[u32]) {
        for (flow, cells) in self.flows.iter_mut().zip(counters.chunks(CELLS)) {
            if flow.cells() != cells {
                *flow = FlowPackets::of_cells(cells);
            }
        }
    }

    pub fn counters(&self) -> Vec<u32> {
        self.flows.iter().flat_map(FlowPackets::cells).collect()
    }

    /// 01, "One slot", for a slot that is accepted. Gives for each flow number the packets that left its last link.
    pub fn pass_slot(&mut self, site: &Site, arrivals: &[u16], number: u32) -> Vec<Vec<Batch>> {
        let mut left = vec![Vec::new(); FLOW_NUMBERS];
        for flow in site.live_flows() {
            let packets = &mut self.flows[flow];
            packets.arrive(arrivals[flow], number);
            left[flow] = packets.advance(&most_moved(site, flow, number));
        }
        left
    }
}

/// What each link of the flow's route, going up, may move in a slot: its width, or nothing if it does not send.
fn most_moved(site: &Site, flow: usize, number: u32) -> Vec<u64> {
    let links = site.route_of_flow(flow).into_iter();
    links
        .map(|link| {
            if site.sends(link, u64::from(number)) {
                site.width(flow, link)
            } else {
                0
            }
        })
        .collect()
}

/// 01: 1, 14, then 19 for all numbers, then 20.
pub fn check_slot(site: &Site, counters: &[u32], arrivals: &[u16]) -> Result<(), Refusal> {
    if arrivals.len() != FLOW_NUMBERS {
        return refuse(1, 0);
    }
    check_lent(site, counters)?;
    let sum = |flow: usize| -> u64 {
        let cells = &counters[flow * CELLS..][..CELLS];
        u64::from(arrivals[flow]) + cells.iter().map(|&cell| u64::from(cell)).sum::<u64>()
    };
    let mut live = site.live_flows().into_iter();
    if let Some(flow) = live.find(|&flow| sum(flow) > OF_32_BITS) {
        return refuse(19, flow);
    }
    let mut not_live = site.numbers_not_live().into_iter();
    match not_live.find(|&flow| arrivals[flow] > 0) {
        Some(flow) => refuse(20, flow),
        None => Ok(()),
    }
}

/// 01, "One slot": starting a rehearsal.
pub fn start(site: &Site, counters: &mut [u32]) -> Result<(), Refusal> {
    check_lent(site, counters)?;
    counters.fill(0);
    Ok(())
}

/// One slot on counters alone.
pub fn slot(
    site: &Site,
    counters: &mut [u32],
    arrivals: &[u16],
    number: u32,
) -> Result<(), Refusal> {
    check_slot(site, counters, arrivals)?;
    let mut packets = Packets::none();
    packets.adopt(counters);
    packets.pass_slot(site, arrivals, number);
    counters.copy_from_slice(&packets.counters());
    Ok(())
}

#[cfg(test)]
mod tests {
    use super::*;
    use crate::second::bytes::{plan_p, read_plan};
    use crate::second::calls::{admission, COUNTERS};
    use crate::second::rules::Flow;

    const NONE: [u16; FLOW_NUMBERS] = [0; FLOW_NUMBERS];

    fn site_p() -> Site {
        read_plan(&plan_p(9, 7)).unwrap()
    }

    fn for_flow(flow: usize, count: u16) -> [u16; FLOW_NUMBERS] {
        let mut arrivals = NONE;
        arrivals[flow] = count;
        arrivals
    }

    /// The counters of P after 3 arrivals in each of the slots.
    fn p_after(slots: std::ops::Range<u32>) -> [u32; COUNTERS] {
        let mut counters = [0; COUNTERS];
        for number in slots {
            slot(&site_p(), &mut counters, &for_flow(0, 3), number).unwrap();
        }
        counters
    }

    #[test]
    fn slots_of_01_on_p() {
        let counters = p_after(0..17);
        assert_eq!(counters[..9], [3, 6, 0, 0, 0, 0, 0, 0, 42]);
        assert_eq!(counters[9..], [0; COUNTERS - 9]);
    }

    #[test]
    fn in_slot_16_of_p_rate_times_bound_wait_and_link_1_moves_12_of_18() {
        let before = p_after(0..16);
        let waiting: u32 = before[..8].iter().sum();
        let site = site_p();
        assert_eq!(u64::from(waiting) + 3, site.rates[0] * site.bound(0));
        assert_eq!(u64::from(waiting) + 3, 21);
        assert_eq!((before[1], before[8]), (18, 30));
        assert_eq!(p_after(0..17)[8], 30 + 12);
    }

    /// Link 2 wants a gap of 6 and has a period of 4, so at rate 4 it moves 16 of the 25 that wait.
    #[test]
    fn a_link_moves_rate_times_period() {
        let (mut site, mut counters) = (site_p(), [0; COUNTERS]);
        let flow = Flow {
            number: 5,
            entry: 2,
            rate: 4,
            deadline: 5,
        };
        admission(&mut site, &mut counters, flow).unwrap();
        counters[45] = 22;
        slot(&site, &mut counters, &for_flow(5, 3), 1).unwrap();
        assert_eq!((counters[45], counters[53]), (9, 16));
    }

    #[test]
    fn a_lone_packet_of_slot_10_leaves_in_slot_16() {
        let mut packets = Packets::none();
        let lone = Batch {
            came: Some(10),
            count: 1,
        };
        for number in 0..24 {
            let arrivals = for_flow(0, u16::from(number == 10));
            let left = packets.pass_slot(&site_p(), &arrivals, number).remove(0);
            assert_eq!(left, if number == 16 { vec![lone] } else { vec![] });
        }
    }

    /// In slot 0 both links of the route send.
    #[test]
    fn a_packet_crosses_one_link_in_a_slot() {
        let mut counters = [0; COUNTERS];
        slot(&site_p(), &mut counters, &for_flow(0, 3), 0).unwrap();
        assert_eq!(counters[..9], [0, 3, 0, 0, 0, 0, 0, 0, 0]);
    }

    /// More come than the links can move at once, so that batches are parted on the way.
    #[test]
    fn packets_leave_in_the_order_in_which_they_came() {
        let (mut packets, mut left) = (Packets::none(), Vec::new());
        for number in 1..=210 {
            let arrivals = for_flow(0, if number <= 3 { 200 } else { 0 });
            left.extend(packets.pass_slot(&site_p(), &arrivals, number).remove(0));
        }
        assert!(left.len() > 3);
        let each = |batch: Batch| (0..batch.count).map(move |_| batch.came);
        let came: Vec<Option<u32>> = left.into_iter().flat_map(each).collect();
        let expected = [[Some(1); 200], [Some(2); 200], [Some(3); 200]].concat();
        assert_eq!(came, expected);
    }

    /// Of nine cells of a flow on two links, the ones past its route and all cells of other numbers stay as they are.
    #[test]
    fn cells_that_no_link_serves_stay() {
        let mut counters = [1000; COUNTERS];
        slot(&site_p(), &mut counters, &for_flow(0, 65_535), u32::MAX).unwrap();
        let sends_link_3 = u64::from(u32::MAX) % 3 == 0;
        assert!(sends_link_3 && u32::MAX % 4 != 0);
        assert_eq!(counters[..3], [1000 + 65_535 - 9, 1000 + 9, 1000]);
        assert_eq!(counters[2..], [1000; COUNTERS - 2]);
    }

    #[test]
    fn a_start_sets_every_counter_to_0() {
        let mut counters = [7; COUNTERS];
        assert_eq!(start(&site_p(), &mut counters), Ok(()));
        assert_eq!(counters, [0; COUNTERS]);
        assert_eq!(start(&Site::empty(), &mut [7; COUNTERS]), Ok(()));
    }

    #[test]
    fn a_start_is_judged_by_the_counters_then_by_the_site() {
        let mut altered = site_p();
        altered.gaps[62] = 1;
        let mut counters = [7; COUNTERS + 1];
        for (lent, number) in [(575, 1), (577, 1), (576, 14)] {
            let answer = start(&altered, &mut counters[..lent]);
            assert_eq!(answer, refuse(number, 0));
        }
        assert_eq!(start(&site_p(), &mut counters[..575]), refuse(1, 0));
        assert_eq!(counters, [7; COUNTERS + 1]);
    }

    /// The answer to a slot, where nothing may change if it is refused.
    fn answer(site: &Site, lent: &[u32], arrivals: &[u16]) -> Result<(), Refusal> {
        let mut counters = lent.to_vec();
        let answer = slot(site, &mut counters, arrivals, 4);
        assert_eq!(answer.is_err(), counters == lent);
        answer
    }

    /// P with another flow, number 5.
    fn site_with_two_flows() -> Site {
        let mut site = site_p();
        let flow = Flow {
            number: 5,
            entry: 2,
            rate: 3,
            deadline: 6,
        };
        admission(&mut site, &mut [0; COUNTERS], flow).unwrap();
        site
    }

    /// From one line to the next the first failing check is mended.
    #[test]
    fn checks_of_a_slot_come_in_order() {
        let (mut site, mut counters) = (site_with_two_flows(), [0; COUNTERS + 1]);
        counters[45] = u32::MAX;
        counters[2] = u32::MAX;
        let mut arrivals = [0; FLOW_NUMBERS + 1];
        arrivals[..6].copy_from_slice(&[1, 0, 0, 1, 2, 1]);
        site.gaps[62] = 1;
        assert_eq!(answer(&site, &counters, &arrivals[..64]), refuse(1, 0));
        let lent = &counters[..575];
        assert_eq!(answer(&site, lent, &arrivals[..64]), refuse(1, 0));
        let lent = &mut counters[..576];
        assert_eq!(answer(&site, lent, &arrivals), refuse(1, 0));
        assert_eq!(answer(&site, lent, &arrivals[..63]), refuse(1, 0));
        let arrivals = &mut arrivals[..64];
        assert_eq!(answer(&site, lent, arrivals), refuse(14, 0));
        site.gaps[62] = 0;
        assert_eq!(answer(&site, lent, arrivals), refuse(19, 0));
        lent[2] -= 1;
        assert_eq!(answer(&site, lent, arrivals), refuse(19, 5));
        lent[45] -= 1;
        assert_eq!(answer(&site, lent, arrivals), refuse(20, 3));
        arrivals[3] = 0;
        assert_eq!(answer(&site, lent, arrivals), refuse(20, 4));
        arrivals[4] = 0;
        assert_eq!(answer(&site, lent, arrivals), Ok(()));
    }

    /// 01, 19: all nine cells and the arrival, for a live number alone.
    #[test]
    fn a_sum_of_4294967295_is_accepted_and_one_more_is_not() {
        let site = site_p();
        for cell in 0..CELLS {
            let mut counters = [1; COUNTERS];
            counters[cell] = u32::MAX - 8 - 3;
            assert_eq!(answer(&site, &counters, &for_flow(0, 3)), Ok(()));
            assert_eq!(answer(&site, &counters, &for_flow(0, 4)), refuse(19, 0));
        }
        let mut counters = [u32::MAX; COUNTERS];
        counters[..9].fill(1);
        assert_eq!(answer(&site, &counters, &NONE), Ok(()));
    }
}
