//! The slot rule and the site of document 01, and its reservations as U2 of document 02 has them.

use std::ops::RangeInclusive;

pub const MOST_LINKS: usize = 63;
pub const MOST_DEPTH: usize = 8;
pub const FLOW_NUMBERS: usize = 64;
pub const GAPS: RangeInclusive<u64> = 1..=1024;
pub const CAPACITIES: RangeInclusive<u64> = 1..=65_535;
pub const RATES: RangeInclusive<u64> = 1..=255;
pub const DEADLINES: RangeInclusive<u64> = 1..=65_535;

pub const OF_8_BITS: u64 = 255;
pub const OF_16_BITS: u64 = 65_535;
pub const OF_32_BITS: u64 = 4_294_967_295;

/// A number of 01's tables of refusals, and the place.
#[derive(Clone, Copy, Debug, PartialEq, Eq)]
pub struct Refusal {
    pub number: u64,
    pub place: usize,
}

pub fn refuse<T>(number: u64, place: usize) -> Result<T, Refusal> {
    Err(Refusal { number, place })
}

/// As the programs print it.
pub fn refused(refusal: Refusal) -> String {
    format!("refused {} {}", refusal.number, refusal.place)
}

/// What the slot rule gives the children of one parent, in their order.
#[derive(Clone, Debug, PartialEq, Eq)]
pub struct Assigned {
    pub base: u64,
    pub offsets: Vec<u64>,
    pub periods: Vec<u64>,
}

/// 01, slot rule 2. The base is not above the gap, so j = 0 is always possible.
fn period(base: u64, gap: u64) -> u64 {
    let mut period = base;
    while period * 2 <= gap {
        period *= 2;
    }
    period
}

fn periods(base: u64, gaps: &[u64]) -> Vec<u64> {
    gaps.iter().map(|&gap| period(base, gap)).collect()
}

fn greatest_common_divisor(a: u64, b: u64) -> u64 {
    if b == 0 {
        a
    } else {
        greatest_common_divisor(b, a % b)
    }
}

/// The least number of slots after which links of these periods all repeat.
fn hyperperiod(periods: &[u64]) -> u64 {
    periods.iter().fold(1, |all, &period| {
        all / greatest_common_divisor(all, period) * period
    })
}

/// 01, slot rule 3, with the reciprocals brought to the hyperperiod as their denominator.
fn fits(periods: &[u64]) -> bool {
    let whole = hyperperiod(periods);
    periods.iter().map(|period| whole / period).sum::<u64>() <= whole
}

/// 01, slot rule 6, for the slots of one hyperperiod.
fn sending_slots(offset: u64, period: u64, whole: usize) -> impl Iterator<Item = usize> {
    (0..whole).filter(move |&slot| slot as u64 % period == offset)
}

/// 01, slot rule 5. All children repeat within `taken`, so an offset that is free there is free in all slots.
fn smallest_free_offset(taken: &[bool], period: u64) -> u64 {
    (0..period)
        .find(|&offset| sending_slots(offset, period, taken.len()).all(|slot| !taken[slot]))
        .expect("where the base fits, each child in turn finds a free offset")
}

fn assign_offsets(periods: &[u64]) -> Vec<u64> {
    let mut order: Vec<usize> = (0..periods.len()).collect();
    order.sort_by_key(|&child| (periods[child], child));
    let mut taken = vec![false; hyperperiod(periods) as usize];
    let mut offsets = vec![0; periods.len()];
    for child in order {
        let offset = smallest_free_offset(&taken, periods[child]);
        for slot in sending_slots(offset, periods[child], taken.len()) {
            taken[slot] = true;
        }
        offsets[child] = offset;
    }
    offsets
}

/// 01, slot rules 1 and 4. None: no base fits, the parent is crowded.
pub fn assign(gaps: &[u64]) -> Option<Assigned> {
    let smallest = *gaps.iter().min()?;
    let base = (1..=smallest)
        .rev()
        .find(|&base| fits(&periods(base, gaps)))?;
    let periods = periods(base, gaps);
    let offsets = assign_offsets(&periods);
    Some(Assigned {
        base,
        offsets,
        periods,
    })
}

/// The slot rule as a call of its own: the base and both lists filled, or a refusal and both unchanged.
pub fn slot_rule(gaps: &[u64], offsets: &mut [u64], periods: &mut [u64]) -> Result<u64, Refusal> {
    if offsets.len() != gaps.len() || periods.len() != gaps.len() {
        return refuse(1, 0);
    }
    if gaps.is_empty() || gaps.len() > MOST_LINKS {
        return refuse(5, 0);
    }
    if let Some(index) = gaps.iter().position(|gap| !GAPS.contains(gap)) {
        return refuse(5, index);
    }
    let Some(assigned) = assign(gaps) else {
        return refuse(11, 0);
    };
    offsets.copy_from_slice(&assigned.offsets);
    periods.copy_from_slice(&assigned.periods);
    Ok(assigned.base)
}

/// The links from a node up to the root, where entry n - 1 of the list is node n's parent.
pub fn route(parents: &[u64], node: usize) -> Vec<usize> {
    let mut links = Vec::new();
    let mut at = node;
    while at != 0 {
        links.push(at);
        at = parents[at - 1] as usize;
    }
    links
}

/// The nodes with this parent, rising.
pub fn children(parents: &[u64], parent: usize) -> Vec<usize> {
    (1..=parents.len())
        .filter(|&node| parents[node - 1] == parent as u64)
        .collect()
}

/// A flow as a FLOW or an admission names it.
#[derive(Clone, Copy, Debug, PartialEq, Eq)]
pub struct Flow {
    pub number: usize,
    pub entry: usize,
    pub rate: u64,
    pub deadline: u64,
}

impl Flow {
    /// 01, refusal 5. The entry node has no limit there; 6 judges it.
    pub fn within_limits(&self) -> bool {
        self.number < FLOW_NUMBERS
            && RATES.contains(&self.rate)
            && DEADLINES.contains(&self.deadline)
    }
}

/// The site by value: node n has index n - 1, a flow its number, and whatever is not in use is 0.
#[derive(Clone, Debug, PartialEq, Eq)]
pub struct Site {
    pub links: u64,
    pub parents: Vec<u64>,
    pub capacities: Vec<u64>,
    pub gaps: Vec<u64>,
    pub offsets: Vec<u64>,
    pub periods: Vec<u64>,
    pub states: Vec<u64>,
    pub entries: Vec<u64>,
    pub rates: Vec<u64>,
    pub deadlines: Vec<u64>,
}

impl Site {
    pub fn empty() -> Site {
        let of_nodes = vec![0; MOST_LINKS];
        let of_flows = vec![0; FLOW_NUMBERS];
        Site {
            links: 0,
            parents: of_nodes.clone(),
            capacities: of_nodes.clone(),
            gaps: of_nodes.clone(),
            offsets: of_nodes.clone(),
            periods: of_nodes,
            states: of_flows.clone(),
            entries: of_flows.clone(),
            rates: of_flows.clone(),
            deadlines: of_flows,
        }
    }

    /// The parents of the nodes in use. A site that no plan reads to may count more links than it has entries.
    fn used_parents(&self) -> &[u64] {
        &self.parents[..(self.links as usize).min(MOST_LINKS)]
    }

    pub fn nodes(&self) -> Vec<usize> {
        (1..=self.used_parents().len()).collect()
    }

    pub fn children(&self, parent: usize) -> Vec<usize> {
        children(self.used_parents(), parent)
    }

    /// 01, "The site": one more than the parent's, and 0 for the root.
    pub fn depth(&self, node: usize) -> usize {
        if node == 0 {
            0
        } else {
            1 + self.depth(self.parents[node - 1] as usize)
        }
    }

    /// 01, below the table of states: the root is no entry node.
    pub fn has_entry_node(&self, node: usize) -> bool {
        (1..=self.links as usize).contains(&node)
    }

    pub fn is_live(&self, flow: usize) -> bool {
        self.states[flow] != 0
    }

    pub fn live_flows(&self) -> Vec<usize> {
        (0..FLOW_NUMBERS)
            .filter(|&flow| self.is_live(flow))
            .collect()
    }

    pub fn numbers_not_live(&self) -> Vec<usize> {
        (0..FLOW_NUMBERS)
            .filter(|&flow| !self.is_live(flow))
            .collect()
    }

    /// 01, slot rule 6.
    pub fn sends(&self, link: usize, slot: u64) -> bool {
        slot % self.periods[link - 1] == self.offsets[link - 1]
    }

    /// 02, U2: on a link of its route a flow reserves rate x period.
    pub fn width(&self, flow: usize, link: usize) -> u64 {
        self.rates[flow] * self.periods[link - 1]
    }

    pub fn add_flow(&mut self, flow: Flow) {
        let values = [1, flow.entry as u64, flow.rate, flow.deadline];
        self.set_flow(flow.number, values);
    }

    pub fn remove_flow(&mut self, number: usize) {
        self.set_flow(number, [0; 4]);
    }

    fn set_flow(&mut self, number: usize, [state, entry, rate, deadline]: [u64; 4]) {
        self.states[number] = state;
        self.entries[number] = entry;
        self.rates[number] = rate;
        self.deadlines[number] = deadline;
    }

    pub fn route_of_flow(&self, flow: usize) -> Vec<usize> {
        route(&self.parents, self.entries[flow] as usize)
    }

    /// The sum of the periods from a node up to the root.
    pub fn periods_up(&self, node: usize) -> u64 {
        let links = route(&self.parents, node);
        links.iter().map(|link| self.periods[link - 1]).sum()
    }

    /// G of 01, "The list of demand 3".
    pub fn bound(&self, flow: usize) -> u64 {
        self.periods_up(self.entries[flow] as usize)
    }

    /// What the slot rule says under a parent with children.
    pub fn assign_under(&self, parent: usize) -> Option<Assigned> {
        let children = self.children(parent);
        let gaps: Vec<u64> = children.iter().map(|node| self.gaps[node - 1]).collect();
        assign(&gaps)
    }

    /// 11, over all parents rising.
    pub fn assign_all(&mut self) -> Result<(), Refusal> {
        for parent in 0..=self.links as usize {
            let children = self.children(parent);
            if children.is_empty() {
                continue;
            }
            let Some(assigned) = self.assign_under(parent) else {
                return refuse(11, parent);
            };
            for (index, node) in children.into_iter().enumerate() {
                self.offsets[node - 1] = assigned.offsets[index];
                self.periods[node - 1] = assigned.periods[index];
            }
        }
        Ok(())
    }

    /// The sum of the widths on a link.
    pub fn reserved(&self, link: usize) -> u64 {
        self.live_flows()
            .into_iter()
            .filter(|&flow| self.route_of_flow(flow).contains(&link))
            .map(|flow| self.width(flow, link))
            .sum()
    }

    pub fn is_overfull(&self, link: usize) -> bool {
        self.reserved(link) > self.capacities[link - 1]
    }

    /// 02, U2: G is the number judged.
    pub fn is_late(&self, flow: usize) -> bool {
        self.bound(flow) > self.deadlines[flow]
    }

    /// 12, at the lowest such link.
    pub fn check_widths(&self) -> Result<(), Refusal> {
        let mut links = self.nodes().into_iter();
        match links.find(|&link| self.is_overfull(link)) {
            Some(link) => refuse(12, link),
            None => Ok(()),
        }
    }

    /// 13, at the lowest such flow.
    pub fn check_deadlines(&self) -> Result<(), Refusal> {
        let mut flows = self.live_flows().into_iter();
        match flows.find(|&flow| self.is_late(flow)) {
            Some(flow) => refuse(13, flow),
            None => Ok(()),
        }
    }
}

#[cfg(test)]
mod tests {
    use super::*;
    use crate::random::gaps::{doubtful_gaps, fitting_gaps};
    use crate::random::generator::Random;

    fn base_and_offsets(gaps: &[u64]) -> (u64, Vec<u64>) {
        let assigned = assign(gaps).unwrap();
        (assigned.base, assigned.offsets)
    }

    #[test]
    fn gaps_of_01_are_assigned_slots() {
        assert_eq!(base_and_offsets(&[4, 6, 6, 6, 6]), (3, vec![0, 1, 2, 4, 5]));
        assert_eq!(base_and_offsets(&[6, 3]).1, [1, 0]);
        assert_eq!(base_and_offsets(&[2, 3]).1, [0, 1]);
        assert_eq!(assign(&[1]).unwrap().periods, [1]);
    }

    #[test]
    fn gaps_of_01_are_crowded() {
        let lists: [&[u64]; 3] = [&[2, 3, 1024], &[1, 1024], &[4, 4, 6, 6, 6]];
        for gaps in lists {
            let (mut offsets, mut periods) = (vec![7; gaps.len()], vec![8; gaps.len()]);
            let answer = slot_rule(gaps, &mut offsets, &mut periods);
            assert_eq!(answer, refuse(11, 0));
            assert_eq!(offsets, vec![7; gaps.len()]);
            assert_eq!(periods, vec![8; gaps.len()]);
        }
    }

    #[test]
    fn lists_are_judged_before_the_count_and_the_count_before_the_gaps() {
        let answer = |gaps: &[u64], length: usize| {
            slot_rule(gaps, &mut vec![0; length], &mut vec![0; length])
        };
        assert_eq!(answer(&[0; 64], 63), refuse(1, 0));
        assert_eq!(answer(&[0; 64], 64), refuse(5, 0));
        assert_eq!(answer(&[], 0), refuse(5, 0));
        assert_eq!(answer(&[3, 1025, 0], 3), refuse(5, 1));
        assert_eq!(answer(&[1024; 63], 63), Ok(1024));
    }

    /// Rule 3 as 01 writes it, with J the largest j.
    fn fits_in_whole_numbers(base: u64, periods: &[u64]) -> bool {
        let powers: Vec<u64> = periods.iter().map(|period| period / base).collect();
        let largest = *powers.iter().max().unwrap();
        powers.iter().map(|power| largest / power).sum::<u64>() <= base * largest
    }

    #[test]
    fn both_forms_of_rule_3_agree() {
        let mut random = Random::from_seed(1);
        for _ in 0..300 {
            let gaps = doubtful_gaps(&mut random, 5);
            for base in 1..=*gaps.iter().min().unwrap() {
                let periods = periods(base, &gaps);
                assert_eq!(fits(&periods), fits_in_whole_numbers(base, &periods));
            }
        }
    }

    #[test]
    fn in_no_slot_do_two_children_send() {
        let mut random = Random::from_seed(2);
        for count in 1..=MOST_LINKS {
            let assigned = assign(&fitting_gaps(&mut random, count)).unwrap();
            for slot in 0..2048 {
                let sending = (0..count)
                    .filter(|&child| slot % assigned.periods[child] == assigned.offsets[child])
                    .count();
                assert!(sending <= 1, "{assigned:?} in slot {slot}");
            }
        }
    }
}
