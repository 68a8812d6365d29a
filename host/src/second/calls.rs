//! Admission, release and the lookup of a slot's sender.

use crate::second::bytes::check_14;
use crate::second::rules::{refuse, Flow, Refusal, Site, FLOW_NUMBERS};

/// 01, "One slot": eight queues and the delivered count.
pub const CELLS: usize = 9;
pub const COUNTERS: usize = CELLS * FLOW_NUMBERS;

/// 01: 1 comes before 14.
pub fn check_lent(site: &Site, counters: &[u32]) -> Result<(), Refusal> {
    if counters.len() != COUNTERS {
        return refuse(1, 0);
    }
    check_14(site)
}

fn clear_cells(counters: &mut [u32], number: usize) {
    counters[number * CELLS..][..CELLS].fill(0);
}

/// 01: after 1, 14, 5 and 6 the refusals come as listed, so the width is judged on the whole route before the deadline.
pub fn admission(site: &mut Site, counters: &mut [u32], flow: Flow) -> Result<(), Refusal> {
    check_lent(site, counters)?;
    if !flow.within_limits() {
        return refuse(5, 0);
    }
    if !site.has_entry_node(flow.entry) {
        return refuse(6, 0);
    }
    if site.is_live(flow.number) {
        return refuse(15, flow.number);
    }
    let mut after = site.clone();
    after.add_flow(flow);
    check_room(&after, flow.number)?;
    check_deadline(&after, flow.number)?;
    *site = after;
    clear_cells(counters, flow.number);
    Ok(())
}

/// 17, on the site with the new flow.
pub fn check_room(after: &Site, number: usize) -> Result<(), Refusal> {
    let mut going_up = after.route_of_flow(number).into_iter();
    match going_up.find(|&link| after.is_overfull(link)) {
        Some(link) => refuse(17, link),
        None => Ok(()),
    }
}

/// 18, on the site with the new flow.
pub fn check_deadline(after: &Site, number: usize) -> Result<(), Refusal> {
    if after.is_late(number) {
        return refuse(18, number);
    }
    Ok(())
}

pub fn release(site: &mut Site, counters: &mut [u32], number: usize) -> Result<(), Refusal> {
    check_lent(site, counters)?;
    if number >= FLOW_NUMBERS {
        return refuse(5, 0);
    }
    if !site.is_live(number) {
        return refuse(16, number);
    }
    site.remove_flow(number);
    clear_cells(counters, number);
    Ok(())
}

/// 01: the child that sends, or 0. The root always counts as a node, so it is none above the links.
pub fn sender(site: &Site, parent: usize, slot: u64) -> Result<usize, Refusal> {
    check_14(site)?;
    if parent > site.links as usize {
        return refuse(6, 0);
    }
    let mut children = site.children(parent).into_iter();
    let sending = children.find(|&node| site.sends(node, slot));
    Ok(sending.unwrap_or(0))
}

#[cfg(test)]
mod tests {
    use super::*;
    use crate::second::bytes::{plan_p, read_plan};

    fn site_p() -> Site {
        read_plan(&plan_p(9, 7)).unwrap()
    }

    fn flow(number: usize, entry: usize, rate: u64, deadline: u64) -> Flow {
        Flow {
            number,
            entry,
            rate,
            deadline,
        }
    }

    /// The answer to an admission on P, where nothing may change if it is refused.
    fn admission_on_p(flow: Flow) -> Result<(), Refusal> {
        let (mut site, mut counters) = (site_p(), [7; COUNTERS]);
        let answer = admission(&mut site, &mut counters, flow);
        if answer.is_err() {
            assert_eq!(site, site_p());
            assert_eq!(counters, [7; COUNTERS]);
        }
        answer
    }

    #[test]
    fn admissions_of_01_on_p() {
        assert_eq!(admission_on_p(flow(5, 2, 3, 6)), Ok(()));
        assert_eq!(admission_on_p(flow(5, 2, 4, 5)), Ok(()));
        assert_eq!(admission_on_p(flow(5, 2, 6, 6)), refuse(17, 2));
        assert_eq!(admission_on_p(flow(5, 2, 3, 3)), refuse(18, 5));
    }

    /// Link 2 wants a gap of 6, has a period of 4, and a capacity of 20.
    #[test]
    fn a_width_of_just_the_capacity_and_a_deadline_of_just_the_periods_are_accepted() {
        assert_eq!(admission_on_p(flow(5, 2, 5, 4)), Ok(()));
        assert_eq!(admission_on_p(flow(5, 2, 6, 4)), refuse(17, 2));
        assert_eq!(admission_on_p(flow(5, 2, 5, 3)), refuse(18, 5));
    }

    #[test]
    fn an_admission_sets_four_fields_and_nine_counters_and_a_release_undoes_it() {
        let (mut site, mut counters) = (site_p(), [7; COUNTERS]);
        admission(&mut site, &mut counters, flow(5, 2, 3, 6)).unwrap();
        let mut expected = site_p();
        expected.states[5] = 1;
        expected.entries[5] = 2;
        expected.rates[5] = 3;
        expected.deadlines[5] = 6;
        assert_eq!(site, expected);
        let cleared = |index: usize| (45..54).contains(&index);
        assert!((0..COUNTERS).all(|index| (counters[index] == 0) == cleared(index)));
        counters.fill(8);
        release(&mut site, &mut counters, 5).unwrap();
        assert_eq!(site, site_p());
        assert!((0..COUNTERS).all(|index| (counters[index] == 0) == cleared(index)));
    }

    #[test]
    fn in_each_slot_of_p_the_child_of_the_schedule_sends() {
        let site = site_p();
        let senders = |parent: usize| -> Vec<usize> {
            let slots = 0..12;
            slots
                .map(|slot| sender(&site, parent, slot).unwrap())
                .collect()
        };
        assert_eq!(senders(0), [1, 2, 0, 0, 1, 2, 0, 0, 1, 2, 0, 0]);
        assert_eq!(senders(1), [3, 0, 0, 3, 0, 0, 3, 0, 0, 3, 0, 0]);
        assert_eq!(senders(2), [0; 12]);
        assert_eq!(sender(&site, 4, 0), refuse(6, 0));
        assert_eq!(sender(&Site::empty(), 0, 0), Ok(0));
        assert_eq!(sender(&Site::empty(), 1, 0), refuse(6, 0));
    }

    /// From one line to the next the first failing check is mended.
    #[test]
    fn checks_of_an_admission_come_in_order() {
        let (mut site, mut counters) = (site_p(), [0; COUNTERS]);
        site.gaps[62] = 1;
        let mut answer =
            |site: &mut Site, lent: usize, flow: Flow| admission(site, &mut counters[..lent], flow);
        assert_eq!(answer(&mut site, 575, flow(0, 4, 0, 3)), refuse(1, 0));
        assert_eq!(answer(&mut site, 576, flow(0, 4, 0, 3)), refuse(14, 0));
        site.gaps[62] = 0;
        assert_eq!(answer(&mut site, 576, flow(0, 4, 0, 3)), refuse(5, 0));
        assert_eq!(answer(&mut site, 576, flow(0, 4, 6, 3)), refuse(6, 0));
        assert_eq!(answer(&mut site, 576, flow(0, 2, 6, 3)), refuse(15, 0));
        assert_eq!(answer(&mut site, 576, flow(5, 2, 6, 3)), refuse(17, 2));
        assert_eq!(answer(&mut site, 576, flow(5, 2, 5, 3)), refuse(18, 5));
    }

    #[test]
    fn checks_of_a_release_come_in_order() {
        let (mut site, mut counters) = (site_p(), [0; COUNTERS + 1]);
        site.gaps[62] = 1;
        assert_eq!(release(&mut site, &mut counters, 64), refuse(1, 0));
        let counters = &mut counters[..COUNTERS];
        assert_eq!(release(&mut site, counters, 64), refuse(14, 0));
        site.gaps[62] = 0;
        assert_eq!(release(&mut site, counters, 64), refuse(5, 0));
        assert_eq!(release(&mut site, counters, 63), refuse(16, 63));
        assert_eq!(release(&mut site, counters, 0), Ok(()));
        site.gaps[62] = 1;
        assert_eq!(sender(&site, 4, 0), refuse(14, 0));
    }

    /// Both links of the way up would be overfull; the entry link has the higher number.
    #[test]
    fn the_first_link_going_up_is_the_place() {
        assert_eq!(admission_on_p(flow(5, 3, 3, 7)), refuse(17, 3));
        let mut site = read_plan(&plan_p(90, 7)).unwrap();
        let answer = admission(&mut site, &mut [0; COUNTERS], flow(5, 3, 3, 7));
        assert_eq!(answer, refuse(17, 1));
    }
}
