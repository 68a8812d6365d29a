//! Tests of the plans in `samples/`: each `NAME.plan` is what assemble makes of `NAME.txt`, and gets the answer that its comments tell.

use crate::programs::output::{commands_in_hex, slotplan};
use crate::repository::places::{read, read_text, top};
use crate::second::bytes::{plan_p, read_plan};
use crate::second::rules::Site;
use crate::second::typed::assemble;
use std::collections::BTreeSet;
use std::fs;

fn text(name: &str) -> String {
    read_text(&top().join(format!("samples/{name}.txt")))
}

fn plan(name: &str) -> Vec<u8> {
    read(&top().join(format!("samples/{name}.plan")))
}

fn assembled(text: &str) -> Vec<u8> {
    assemble(text.as_bytes()).unwrap()
}

fn last_line(plan: &[u8]) -> String {
    let printed = slotplan(plan);
    printed.lines().last().unwrap_or_default().to_string()
}

#[test]
fn each_plan_is_assembled_from_its_text() {
    let files = fs::read_dir(top().join("samples")).unwrap();
    let names = files.map(|file| file.unwrap().file_name().into_string().unwrap());
    let plans: BTreeSet<String> = names
        .filter_map(|name| Some(name.strip_suffix(".plan")?.to_string()))
        .collect();
    for name in ["p", "plaza", "crowded"] {
        assert!(plans.contains(name), "{name}");
    }
    for name in plans {
        let [found, expected] = [plan(&name), assembled(&text(&name))];
        let [found, expected] = [found, expected].map(|bytes| commands_in_hex(&bytes));
        assert_eq!(found, expected, "{name}");
    }
}

#[test]
fn plan_p_is_that_of_01() {
    assert_eq!(plan("p"), plan_p(9, 7));
    assert_eq!(last_line(&plan("p")), "accepted links 3 flows 1");
}

/// The children's largest period, after which the turns under a parent come again.
fn frame(site: &Site, parent: usize) -> Option<u64> {
    let children = site.children(parent).into_iter();
    children.map(|child| site.periods[child - 1]).max()
}

#[test]
fn the_plaza_is_accepted_and_its_parents_have_different_frames() {
    let plan = plan("plaza");
    assert_eq!(last_line(&plan), "accepted links 15 flows 24");
    let site = read_plan(&plan).unwrap();
    let frames: Vec<u64> = (0..=15).filter_map(|parent| frame(&site, parent)).collect();
    assert_eq!(frames, [16, 24, 40, 26]);
    let printed = slotplan(&plan);
    for (parent, base) in [(0, 4), (1, 12), (2, 5), (3, 13)] {
        assert!(printed.contains(&format!(" parent {parent} base {base} ")));
    }
}

/// Lane L of the plaza is node L + 3, with pay records as flow L and plate records as flow 20 + L.
#[test]
fn each_lane_of_the_plaza_has_a_pay_and_a_plate_flow() {
    let site = read_plan(&plan("plaza")).unwrap();
    let flows: Vec<usize> = (1..=12).chain(21..=32).collect();
    assert_eq!(site.live_flows(), flows);
    for lane in 1..=12 {
        let (pay, plate) = (lane, lane + 20);
        assert_eq!(
            [pay, plate].map(|flow| site.entries[flow]),
            [lane as u64 + 3; 2]
        );
        assert!(site.rates[pay] < site.rates[plate] && site.deadlines[pay] < site.deadlines[plate]);
    }
    assert_eq!(site.bound(8), site.deadlines[8]);
}

/// The comment in the text tells the answer, and that lane 7 with a wanted gap of 8 makes the plan fit.
#[test]
fn relay_2_of_the_crowded_plaza_is_crowded() {
    assert_eq!(slotplan(&plan("crowded")), "refused 11 2\n");
    let text = text("crowded");
    assert!(text.contains("`refused 11 2`"));
    let (typed, mended) = ("node 2  85  7 ", "node 2  85  8 ");
    assert!(text.contains(typed));
    let site = read_plan(&assembled(&text.replace(typed, mended))).unwrap();
    let periods: Vec<u64> = site
        .children(2)
        .iter()
        .map(|child| site.periods[child - 1])
        .collect();
    assert_eq!(periods, [4, 4, 4, 8, 8]);
}
