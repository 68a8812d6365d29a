//! Random alterations of accepted sites, some of which keep a site passing check 14.

use crate::programs::output::{entry, hex};
use crate::random::damage::undamaged_plan;
use crate::random::generator::Random;
use crate::second::bytes::read_plan;
use crate::second::rules::{Site, FLOW_NUMBERS, MOST_LINKS};

/// A field, an index and a value, as test_altered reads them.
pub type Triple = [u64; 3];

/// Lines for test_altered: a plan, and alterations of its site.
pub fn altered_lines(random: &mut Random) -> String {
    let (plan, site) = site_to_alter(random);
    let mut lines = format!("P{}\n", hex(&plan));
    for _ in 0..random.between(1, 4) {
        let room = random_room(random, plan.len() as u64, site.links * 6 + 1);
        lines += &room.to_string();
        for triple in random_alterations(random, &site).concat() {
            lines += &format!(" {triple}");
        }
        if random.chance(5) {
            lines += random.pick(&[" 0", " 2 0"]);
        }
        lines.push('\n');
    }
    lines
}

/// Most plans fit into the 64 bytes that test_altered can lend. A few are no bytes, which are refused: the site is the one without
/// links too.
pub fn site_to_alter(random: &mut Random) -> (Vec<u8>, Site) {
    if random.chance(3) {
        return (Vec::new(), Site::empty());
    }
    loop {
        let plan = undamaged_plan(random);
        if plan.len() > 64 && random.chance(85) {
            continue;
        }
        if let Ok(site) = read_plan(&plan) {
            return (plan, site);
        }
    }
}

fn random_room(random: &mut Random, plan: u64, schedule: u64) -> u64 {
    let free = random.between(0, 64);
    let rooms = [plan - plan.min(1), plan, plan, plan + 1, schedule - 1];
    let rooms = [&rooms[..], &[schedule, 0, 64, 64, free]].concat();
    random.pick(&rooms).min(64)
}

pub fn random_alterations(random: &mut Random, site: &Site) -> Vec<Triple> {
    let mut triples = Vec::new();
    for _ in 0..random.pick(&[0, 1, 1, 1, 1, 1, 1, 2, 2, 2, 3, 3]) {
        triples.extend(random_alteration(random, site));
    }
    triples
}

fn random_alteration(random: &mut Random, site: &Site) -> Vec<Triple> {
    if site.links == 0 {
        return vec![any_entry(random, site)];
    }
    let node = random.between(0, site.links - 1);
    let number = random.between(0, 63);
    let flow = random.pick(&[&site.live_flows()[..], &[0]].concat()) as u64;
    match random.between(0, 15) {
        0 => vec![larger(random, site, 2, node)],
        1 => vec![larger(random, site, 9, flow)],
        2 => vec![[8, flow, random.between(1, 3)]],
        3 => vec![[3, node, site.periods[node as usize] + random.between(0, 2)]],
        4 => vec![[7, flow, random.between(1, site.links)]],
        5 => without_flow(flow),
        6 => with_flow(random, site, number),
        7 => without_last_link(site),
        8 => swapped(random, site),
        9..=10 => vec![at_a_limit(random, site, flow)],
        _ => vec![any_entry(random, site)],
    }
}

fn value_at(site: &Site, field: u64, index: u64) -> u64 {
    entry(&mut site.clone(), field, index).map_or(0, |(value, _)| *value)
}

fn larger(random: &mut Random, site: &Site, field: u64, index: u64) -> Triple {
    let old = value_at(site, field, index);
    [field, index, old + random.between(1, 300)]
}

/// A capacity of just the widths on a link of the flow's route or a deadline of just its bound, or one less.
fn at_a_limit(random: &mut Random, site: &Site, flow: u64) -> Triple {
    let less = random.between(0, 1);
    let route = site.route_of_flow(flow as usize);
    if route.is_empty() || random.chance(50) {
        return [9, flow, site.bound(flow as usize).saturating_sub(less)];
    }
    let link = random.pick(&route);
    [2, link as u64 - 1, site.reserved(link) - less]
}

fn without_flow(flow: u64) -> Vec<Triple> {
    (6..=9).map(|field| [field, flow, 0]).collect()
}

fn with_flow(random: &mut Random, site: &Site, number: u64) -> Vec<Triple> {
    let entry = random.between(1, site.links);
    let deadline = random.pick(&[1, 1000, 9000, 65_535]);
    let values = [1, entry, random.between(1, 3), deadline];
    (6..)
        .zip(values)
        .map(|(field, value)| [field, number, value])
        .collect()
}

fn without_last_link(site: &Site) -> Vec<Triple> {
    let last = site.links - 1;
    let mut triples: Vec<Triple> = (1..=5).map(|field| [field, last, 0]).collect();
    triples.push([0, 0, last]);
    triples
}

/// Two entries of one list exchanged.
fn swapped(random: &mut Random, site: &Site) -> Vec<Triple> {
    let field = random.between(1, 5);
    let (a, b) = (
        random.between(0, site.links - 1),
        random.between(0, site.links - 1),
    );
    vec![
        [field, a, value_at(site, field, b)],
        [field, b, value_at(site, field, a)],
    ]
}

/// Any entry or none, in use or not, with a value near the old one or at a limit.
fn any_entry(random: &mut Random, site: &Site) -> Triple {
    let field = random.pick(&[0, 1, 1, 2, 2, 3, 3, 4, 4, 5, 5, 6, 7, 8, 9, 10]);
    let in_use = if (1..=5).contains(&field) {
        random.between(0, site.links)
    } else {
        random.pick(&[&site.live_flows()[..], &[0]].concat()) as u64
    };
    let free = random.between(0, 70);
    let most = [
        MOST_LINKS as u64 - 1,
        MOST_LINKS as u64,
        FLOW_NUMBERS as u64,
    ];
    let index = random.pick(&[&most[..], &[in_use; 6], &[free]].concat());
    let old = value_at(site, field, index);
    let near = [old, old + 1, old.saturating_sub(1), old * 2, old / 2];
    let limits = [0, 1, 2, 8, 63, 64, 255, 256, 1024, 1025, 65_535, 65_536];
    let value = random.pick(&[&near[..], &near[..], &limits[..]].concat());
    [field, index, value]
}

#[cfg(test)]
mod tests {
    use super::*;
    use crate::programs::output::alter;
    use crate::random::calls::{has_short_period, has_short_route};
    use crate::second::bytes::{passes_check_14, END};
    use crate::second::former::by_wanted_gaps;

    /// Capacities and deadlines with which a site passes, though not by wanted gaps, and such that are one too small.
    #[test]
    fn random_alterations_are_near_the_border_of_12_and_13() {
        let mut random = Random::from_seed(34);
        let [mut wide, mut late, mut over, mut short] = [0; 4];
        for _ in 0..8000 {
            let (_, site) = site_to_alter(&mut random);
            let [[field, index, value]] = random_alterations(&mut random, &site)[..] else {
                continue;
            };
            let (mut altered, place) = (site.clone(), index as usize);
            alter(&mut altered, &[field, index, value]);
            let formerly = by_wanted_gaps(&altered);
            match (field, passes_check_14(&altered)) {
                (2, true) => wide += u64::from(formerly.check_widths().is_err()),
                (9, true) => late += u64::from(formerly.check_deadlines().is_err()),
                (2, false) if has_short_period(&site, place + 1) => {
                    over += u64::from(value + 1 == site.reserved(place + 1));
                }
                (9, false) if has_short_route(&site, site.entries[place] as usize) => {
                    short += u64::from(value + 1 == site.bound(place));
                }
                _ => (),
            }
        }
        assert!(wide >= 40 && late >= 40, "{wide} {late}");
        assert!(over >= 10 && short >= 10, "{over} {short}");
    }

    #[test]
    fn some_sites_to_alter_have_no_links() {
        let mut random = Random::from_seed(37);
        let plans: Vec<_> = (0..2000).map(|_| site_to_alter(&mut random).0).collect();
        let count = |bytes: &[u8]| plans.iter().filter(|&plan| plan == bytes).count();
        let [alone, none] = [&[END][..], &[]].map(count);
        assert!(alone >= 60 && none >= 30, "{alone} {none}");
    }

    /// The site without links as it is, and with one entry other than 0 in each of its fields.
    #[test]
    fn random_alterations_of_the_site_without_links_meet_every_field() {
        let mut random = Random::from_seed(41);
        let (mut same, mut altered_in) = (0, [0; 10]);
        for _ in 0..4000 {
            let mut altered = Site::empty();
            let triples = random_alterations(&mut random, &altered);
            alter(&mut altered, &triples.concat());
            let is_same = altered == Site::empty();
            assert_eq!(passes_check_14(&altered), is_same);
            match triples[..] {
                _ if is_same => same += 1,
                [[field, _, _]] => altered_in[field as usize] += 1,
                _ => (),
            }
        }
        assert!(same >= 200, "{same}");
        assert!(
            altered_in.iter().all(|&count| count >= 10),
            "{altered_in:?}"
        );
    }
}
