//! Time against the number of links, flows and slots.

use super::rows::{full_gaps, Row};
use super::sites::{largest_plan, plan_of, Case};
use super::table::{shown_time, table};
use super::timing::{measure, Times};
use crate::second::bytes::{node_command, COMMAND_LENGTH, END};
use crate::second::rules::{assign, FLOW_NUMBERS, MOST_LINKS};

const LINKS: [usize; 7] = [1, 2, 4, 8, 16, 32, MOST_LINKS];
const FLOWS: [usize; 8] = [0, 1, 2, 4, 8, 16, 32, FLOW_NUMBERS];
const SLOTS: [u32; 7] = [1000, 2000, 5000, 10_000, 20_000, 50_000, 100_000];

/// The nodes in their order, so many under each parent, all with the same wide gap.
fn plan_of_links(links: usize, under_each: usize) -> Vec<u8> {
    let nodes: Vec<_> = (0..links)
        .map(|index| node_command((index / under_each) as u64, 65_535, 1024))
        .collect();
    plan_of(&nodes, &[])
}

/// How often the slot rule, assigning slots for these gaps, asks whether an earlier child sends at an offset.
fn collision_tests(gaps: &[u64]) -> usize {
    let Some(assigned) = assign(gaps) else {
        return 0;
    };
    let mut order: Vec<usize> = (0..gaps.len()).collect();
    order.sort_by_key(|&child| (assigned.periods[child], child));
    let (mut tests, mut from) = (0, 0);
    for (count, &child) in order.iter().enumerate() {
        for offset in from..=assigned.offsets[child] {
            let mut earlier = order[..count].iter();
            let taken = earlier
                .position(|&other| offset % assigned.periods[other] == assigned.offsets[other]);
            tests += taken.map_or(count, |place| place + 1);
        }
        from = assigned.offsets[child] + 1;
    }
    tests
}

/// The same for all parents of so many links with this many under each.
fn tests_of_links(links: usize, under_each: usize) -> usize {
    let lists = (0..links).step_by(under_each);
    lists
        .map(|first| collision_tests(&vec![1024; under_each.min(links - first)]))
        .sum()
}

/// The largest site with the first of its flows.
fn plan_of_flows(flows: usize) -> Vec<u8> {
    let mut plan = largest_plan();
    plan.truncate((MOST_LINKS + flows) * COMMAND_LENGTH);
    plan.push(END);
    plan
}

fn titles<const N: usize>(titles: [&str; N]) -> Vec<String> {
    titles.map(String::from).to_vec()
}

/// The time of each and, behind it, its part for one unit.
fn with_unit(times: Times, unit: Times) -> [String; 4] {
    [times.rattle, unit.rattle, times.rust, unit.rust].map(shown_time)
}

fn against_links(under_each: usize) -> Result<String, String> {
    let cases = LINKS.map(|links| Case::of_plan(plan_of_links(links, under_each)));
    let times = measure(&cases.each_ref().map(|case| (Row::ReadPlan, case)))?;
    let columns = ["links", "tests", "Rattle", "a link", "Rust", "a link"];
    let mut rows = vec![titles(columns)];
    for (links, times) in LINKS.into_iter().zip(times) {
        let tests = tests_of_links(links, under_each);
        let mut row = vec![links.to_string(), tests.to_string()];
        row.extend(with_unit(times, times.map(|time| time / links as f64)));
        rows.push(row);
    }
    Ok(table(&rows))
}

/// Lists of 1,024 alone, and last the list that takes most tests.
fn against_tests(case: &Case) -> Result<String, String> {
    let mut lists: Vec<_> = LINKS[1..]
        .iter()
        .map(|&children| (Row::Wide(children), vec![1024; children]))
        .collect();
    lists.push((Row::Full, full_gaps().map(u64::from).to_vec()));
    let times = measure(&lists.iter().map(|list| (list.0, case)).collect::<Vec<_>>())?;
    let columns = ["children", "tests", "Rattle", "a test", "Rust", "a test"];
    let mut rows = vec![titles(columns)];
    for ((_, gaps), times) in lists.iter().zip(times) {
        let tests = collision_tests(gaps);
        let mut row = vec![gaps.len().to_string(), tests.to_string()];
        row.extend(with_unit(times, times.map(|time| time / tests as f64)));
        rows.push(row);
    }
    Ok(table(&rows))
}

/// The unit is what a flow adds to the time without any.
fn against_flows(call: Row) -> Result<String, String> {
    let cases = FLOWS.map(|flows| Case::of_plan(plan_of_flows(flows)));
    let times = measure(&cases.each_ref().map(|case| (call, case)))?;
    let none = times[0];
    let columns = ["flows", "Rattle", "added by one", "Rust", "added by one"];
    let without = [none.rattle, none.rust].map(shown_time);
    let first = titles(["0", &without[0], "", &without[1], ""]);
    let mut rows = vec![titles(columns), first];
    for (&flows, &times) in FLOWS.iter().zip(&times).skip(1) {
        let added = Times {
            rattle: (times.rattle - none.rattle) / flows as f64,
            rust: (times.rust - none.rust) / flows as f64,
        };
        let mut row = vec![flows.to_string()];
        row.extend(with_unit(times, added));
        rows.push(row);
    }
    Ok(table(&rows))
}

fn against_slots(case: &Case) -> Result<String, String> {
    let times = measure(&SLOTS.map(|slots| (Row::Rehearsal(slots), case)))?;
    let columns = ["slots", "Rattle", "a slot", "Rust", "a slot"];
    let mut rows = vec![titles(columns)];
    for (slots, times) in SLOTS.into_iter().zip(times) {
        let mut row = vec![slots.to_string()];
        row.extend(with_unit(times, times.map(|time| time / f64::from(slots))));
        rows.push(row);
    }
    Ok(table(&rows))
}

pub fn report() -> Result<String, String> {
    let largest = Case::of_plan(largest_plan());
    let parts = [
        (
            "`read_plan` against the links, at most 8 under each parent, gaps of 1,024, no flows. A test is a question of rule 5 of 01: \
            does an earlier child of the parent send at this offset? Links of different parents are not compared.",
            against_links(8)?,
        ),
        (
            "`read_plan` against the links, all under the root. Asked child by child, as the rule is written, \
            n children take at least n (n - 1) / 2 tests.",
            against_links(MOST_LINKS)?,
        ),
        (
            "The slot rule alone on gaps of 1,024, and at the end on the list with the most tests.",
            against_tests(&largest)?,
        ),
        (
            "`read_plan` against the flows, on the links of the largest site.",
            against_flows(Row::ReadPlan)?,
        ),
        (
            "`slot` against the flows, on the links of the largest site.",
            against_flows(Row::Slot)?,
        ),
        (
            "A rehearsal on the largest site against its slots.",
            against_slots(&largest)?,
        ),
    ];
    let parts = parts.map(|(title, table)| format!("{title}\n\n{table}"));
    Ok(parts.join("\n"))
}

#[cfg(test)]
mod tests {
    use super::*;
    use crate::second::bytes::read_plan;

    #[test]
    fn children_of_equal_gaps_are_compared_pair_by_pair() {
        for children in 1..=MOST_LINKS {
            let tests = collision_tests(&vec![1024; children]);
            assert_eq!(tests, children * (children - 1) / 2);
        }
        assert_eq!(tests_of_links(63, 8), 7 * 28 + 21);
    }

    /// The number that docs/CHECK-TIMES.md has for this list.
    #[test]
    fn the_full_list_takes_28272_tests() {
        assert_eq!(collision_tests(&full_gaps().map(u64::from)), 28_272);
    }

    #[test]
    fn the_largest_site_is_had_with_any_number_of_flows() {
        for flows in [0, 1, 64] {
            let site = read_plan(&plan_of_flows(flows)).unwrap();
            assert_eq!((site.links, site.live_flows().len()), (63, flows));
        }
    }
}
