//! Plan bytes read and written, the schedule of a site written, and check 14.

use crate::second::rules::{
    refuse, Flow, Refusal, Site, CAPACITIES, FLOW_NUMBERS, GAPS, MOST_DEPTH, MOST_LINKS,
};

pub const NODE: u8 = 0x01;
pub const FLOW: u8 = 0x02;
pub const LINK: u8 = 0x11;
pub const END: u8 = 0xFF;

/// NODE, FLOW and LINK each have five bytes of operands.
pub const COMMAND_LENGTH: usize = 6;

/// The operands of a command that begins with one of the known bytes. 01: for a command 3 comes before 2, and the end of the
/// bytes is a missing END.
pub fn operands<'a>(bytes: &'a [u8], at: usize, known: &[u8]) -> Result<&'a [u8], Refusal> {
    match bytes.get(at) {
        None => refuse(2, bytes.len()),
        Some(first) if known.contains(first) => match bytes.get(at + 1..at + COMMAND_LENGTH) {
            None => refuse(2, at),
            Some(operands) => Ok(operands),
        },
        Some(_) => refuse(3, at),
    }
}

/// 01, "Plan bytes": low byte first.
pub fn of_16_bits(bytes: &[u8]) -> u64 {
    u64::from(bytes[0]) + 256 * u64::from(bytes[1])
}

/// Checks 4, 7, 5, 6, 8 in this order.
fn add_node(site: &mut Site, operands: &[u8], at: usize) -> Result<(), Refusal> {
    let parent = u64::from(operands[0]);
    let capacity = of_16_bits(&operands[1..3]);
    let gap = of_16_bits(&operands[3..5]);
    let node = site.links as usize + 1;
    if !site.live_flows().is_empty() {
        return refuse(4, at);
    }
    if node > MOST_LINKS {
        return refuse(7, at);
    }
    if !CAPACITIES.contains(&capacity) || !GAPS.contains(&gap) {
        return refuse(5, at);
    }
    if parent >= node as u64 {
        return refuse(6, at);
    }
    if site.depth(parent as usize) + 1 > MOST_DEPTH {
        return refuse(8, at);
    }
    site.links = node as u64;
    site.parents[node - 1] = parent;
    site.capacities[node - 1] = capacity;
    site.gaps[node - 1] = gap;
    Ok(())
}

/// Checks 5 and 6.
fn add_flow(site: &mut Site, operands: &[u8], at: usize) -> Result<(), Refusal> {
    let flow = Flow {
        number: usize::from(operands[0]),
        entry: usize::from(operands[1]),
        rate: u64::from(operands[2]),
        deadline: of_16_bits(&operands[3..5]),
    };
    if !flow.within_limits() {
        return refuse(5, at);
    }
    let above_the_last = site.live_flows().iter().all(|&last| last < flow.number);
    if !site.has_entry_node(flow.entry) || !above_the_last {
        return refuse(6, at);
    }
    site.add_flow(flow);
    Ok(())
}

/// Check 10, where END is.
pub fn check_end(bytes: &[u8], at: usize) -> Result<(), Refusal> {
    if at + 1 < bytes.len() {
        return refuse(10, at + 1);
    }
    Ok(())
}

/// The site with its slots assigned, before its flows are judged: all checks but 12 and 13.
pub fn read_assigned(bytes: &[u8]) -> Result<Site, Refusal> {
    let mut site = Site::empty();
    let mut at = 0;
    while bytes.get(at) != Some(&END) {
        let operands = operands(bytes, at, &[NODE, FLOW])?;
        if bytes[at] == NODE {
            add_node(&mut site, operands, at)?;
        } else {
            add_flow(&mut site, operands, at)?;
        }
        at += COMMAND_LENGTH;
    }
    check_end(bytes, at)?;
    site.assign_all()?;
    Ok(site)
}

/// 01: after END 11, then 12, then 13.
pub fn read_plan(bytes: &[u8]) -> Result<Site, Refusal> {
    let site = read_assigned(bytes)?;
    site.check_widths()?;
    site.check_deadlines()?;
    Ok(site)
}

fn push_16_bits(bytes: &mut Vec<u8>, value: u64) {
    bytes.push((value % 256) as u8);
    bytes.push((value / 256) as u8);
}

pub fn node_command(parent: u64, capacity: u64, gap: u64) -> Vec<u8> {
    let mut bytes = vec![NODE, parent as u8];
    push_16_bits(&mut bytes, capacity);
    push_16_bits(&mut bytes, gap);
    bytes
}

pub fn flow_command(number: u64, entry: u64, rate: u64, deadline: u64) -> Vec<u8> {
    let mut bytes = vec![FLOW, number as u8, entry as u8, rate as u8];
    push_16_bits(&mut bytes, deadline);
    bytes
}

pub fn link_command(link: u64, offset: u64, period: u64) -> Vec<u8> {
    let mut bytes = vec![LINK, link as u8];
    push_16_bits(&mut bytes, offset);
    push_16_bits(&mut bytes, period);
    bytes
}

fn plan_bytes(site: &Site) -> Vec<u8> {
    let mut bytes = Vec::new();
    for index in site.nodes().into_iter().map(|node| node - 1) {
        let (parent, capacity) = (site.parents[index], site.capacities[index]);
        bytes.extend(node_command(parent, capacity, site.gaps[index]));
    }
    for flow in site.live_flows() {
        let (entry, rate) = (site.entries[flow], site.rates[flow]);
        bytes.extend(flow_command(flow as u64, entry, rate, site.deadlines[flow]));
    }
    bytes.push(END);
    bytes
}

fn schedule_bytes(site: &Site) -> Vec<u8> {
    let mut bytes = Vec::new();
    for node in site.nodes() {
        let (offset, period) = (site.offsets[node - 1], site.periods[node - 1]);
        bytes.extend(link_command(node as u64, offset, period));
    }
    bytes.push(END);
    bytes
}

/// Check 14. Only the site's own plan bytes can read to it: each operand is an entry of the site.
/// Reading leaves every entry that is not in use at 0, so comparing whole values judges those too.
pub fn passes_check_14(site: &Site) -> bool {
    read_plan(&plan_bytes(site)).as_ref() == Ok(site)
}

pub fn check_14(site: &Site) -> Result<(), Refusal> {
    if !passes_check_14(site) {
        return refuse(14, 0);
    }
    Ok(())
}

/// 01: whether the slice has room is the last of a writer's checks.
pub fn fill(slice: &mut [u8], bytes: &[u8]) -> Result<usize, Refusal> {
    if slice.len() < bytes.len() {
        return refuse(1, 0);
    }
    slice[..bytes.len()].copy_from_slice(bytes);
    Ok(bytes.len())
}

/// The number of bytes written, the rest of the slice unchanged.
pub fn write_plan(site: &Site, slice: &mut [u8]) -> Result<usize, Refusal> {
    check_14(site)?;
    fill(slice, &plan_bytes(site))
}

/// The number of bytes written, the rest of the slice unchanged.
pub fn write_schedule(site: &Site, slice: &mut [u8]) -> Result<usize, Refusal> {
    check_14(site)?;
    fill(slice, &schedule_bytes(site))
}

pub type Writer = fn(&Site, &mut [u8]) -> Result<usize, Refusal>;

/// The longest bytes are those of a plan with all links and all flows.
const LONGEST_BYTES: usize = COMMAND_LENGTH * (MOST_LINKS + FLOW_NUMBERS) + 1;

/// The bytes that a writer writes where there is room for all.
pub fn written(site: &Site, writer: Writer) -> Result<Vec<u8>, Refusal> {
    let mut bytes = vec![0; LONGEST_BYTES];
    let length = writer(site, &mut bytes)?;
    bytes.truncate(length);
    Ok(bytes)
}

/// Plan P of 01, with this capacity on link 3 and this deadline.
pub fn plan_p(capacity: u64, deadline: u64) -> Vec<u8> {
    let mut bytes = node_command(0, 20, 4);
    bytes.extend(node_command(0, 20, 6));
    bytes.extend(node_command(1, capacity, 3));
    bytes.extend(flow_command(0, 3, 3, deadline));
    bytes.push(END);
    bytes
}

#[cfg(test)]
mod tests {
    use super::*;

    fn refusal(bytes: &[u8]) -> (u64, usize) {
        let refusal = read_plan(bytes).unwrap_err();
        (refusal.number, refusal.place)
    }

    #[test]
    fn plan_p_is_written_as_it_was_read() {
        let bytes = [
            0x01, 0x00, 0x14, 0x00, 0x04, 0x00, 0x01, 0x00, 0x14, 0x00, 0x06, 0x00, 0x01, 0x01,
            0x09, 0x00, 0x03, 0x00, 0x02, 0x00, 0x03, 0x03, 0x07, 0x00, 0xFF,
        ];
        assert_eq!(plan_p(9, 7), bytes);
        let site = read_plan(&bytes).unwrap();
        let mut slice = [0xAA; 26];
        assert_eq!(write_plan(&site, &mut slice), Ok(25));
        assert_eq!(slice[..25], bytes);
        assert_eq!(slice[25], 0xAA);
    }

    #[test]
    fn plan_p_has_the_schedule_of_01() {
        let site = read_plan(&plan_p(9, 7)).unwrap();
        let mut slice = [0; 19];
        assert_eq!(write_schedule(&site, &mut slice), Ok(19));
        let schedule = [
            0x11, 0x01, 0x00, 0x00, 0x04, 0x00, 0x11, 0x02, 0x01, 0x00, 0x04, 0x00, 0x11, 0x03,
            0x00, 0x00, 0x03, 0x00, 0xFF,
        ];
        assert_eq!(slice, schedule);
    }

    #[test]
    fn plans_of_01_are_refused() {
        assert_eq!(refusal(&plan_p(9, 6)), (13, 0));
        assert_eq!(refusal(&plan_p(8, 7)), (12, 3));
        assert_eq!(refusal(&[]), (2, 0));
    }

    /// 02, U3.
    #[test]
    fn end_alone_reads_to_the_site_without_links() {
        assert_eq!(read_plan(&[0xFF]), Ok(Site::empty()));
        for behind in [&[0][..], &[END], &plan_p(9, 7)[..]] {
            assert_eq!(refusal(&[&[END], behind].concat()), (10, 1));
        }
    }

    /// With no NODE every entry node is refused by 6, unless 5 or a missing operand comes first.
    #[test]
    fn a_flow_with_no_node_is_refused_at_its_offset() {
        let file = |command: Vec<u8>| [&command[..], &[END]].concat();
        for entry in [0, 1, 2, 255] {
            assert_eq!(refusal(&file(flow_command(0, entry, 1, 1))), (6, 0));
            let beyond = [[64, 1, 1], [255, 1, 1], [0, 0, 1], [0, 1, 0]];
            for [number, rate, deadline] in beyond {
                let flow = flow_command(number, entry, rate, deadline);
                assert_eq!(refusal(&file(flow)), (5, 0));
            }
        }
        assert_eq!(refusal(&flow_command(0, 1, 1, 1)[..5]), (2, 0));
        assert_eq!(
            refusal(&file(flow_command(0, 1, 1, 1)[..4].to_vec())),
            (2, 0)
        );
        assert_eq!(refusal(&[LINK, END]), (3, 0));
    }

    #[test]
    fn a_plan_cut_off_anywhere_is_refused_at_the_command() {
        let bytes = plan_p(9, 7);
        for length in 0..bytes.len() {
            let place = length / COMMAND_LENGTH * COMMAND_LENGTH;
            assert_eq!(refusal(&bytes[..length]), (2, place));
        }
    }

    #[test]
    fn writers_judge_the_site_before_the_slice() {
        let site = read_plan(&plan_p(9, 7)).unwrap();
        assert_eq!(write_plan(&site, &mut [0; 24]), refuse(1, 0));
        for mut altered in [site, Site::empty()] {
            altered.gaps[62] = 1;
            assert_eq!(write_plan(&altered, &mut []), refuse(14, 0));
            assert_eq!(write_schedule(&altered, &mut []), refuse(14, 0));
        }
    }

    #[test]
    fn the_site_without_links_is_written_as_end_alone() {
        for writer in [write_plan, write_schedule] {
            assert_eq!(writer(&Site::empty(), &mut []), refuse(1, 0));
            for room in 1..9 {
                let mut slice = vec![0xAA; room];
                assert_eq!(writer(&Site::empty(), &mut slice), Ok(1));
                assert_eq!(slice[0], END);
                assert!(slice[1..].iter().all(|&byte| byte == 0xAA));
            }
        }
    }

    #[test]
    fn a_site_passes_just_when_its_bytes_read_to_it() {
        let site = read_plan(&plan_p(9, 7)).unwrap();
        assert!(passes_check_14(&site));
        assert!(passes_check_14(&Site::empty()));
        let alterations: [fn(&mut Site); 6] = [
            |site| site.links = 255,
            |site| site.links = 0,
            |site| site.parents[2] = 3,
            |site| site.offsets[1] = 2,
            |site| site.states[0] = 2,
            |site| site.rates[63] = 1,
        ];
        for alter in alterations {
            let mut altered = site.clone();
            alter(&mut altered);
            assert!(!passes_check_14(&altered), "{altered:?}");
        }
    }

    /// The plan bytes of each such site are END alone or no plan's.
    #[test]
    fn without_links_only_the_empty_site_passes() {
        let alterations: [fn(&mut Site); 11] = [
            |site| site.links = 1,
            |site| site.links = 63,
            |site| site.parents[0] = 1,
            |site| site.capacities[0] = 1,
            |site| site.gaps[62] = 1,
            |site| site.offsets[0] = 1,
            |site| site.periods[62] = 1,
            |site| site.states[0] = 1,
            |site| site.entries[63] = 1,
            |site| site.rates[0] = 1,
            |site| site.deadlines[63] = 1,
        ];
        for alter in alterations {
            let mut altered = Site::empty();
            alter(&mut altered);
            assert!(!passes_check_14(&altered), "{altered:?}");
        }
    }
}
