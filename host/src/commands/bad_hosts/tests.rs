use super::*;
use crate::library::model;
use crate::library::slotplan_lib::{declared, told};
use crate::second::bytes::{flow_command, node_command, plan_p};
use std::ptr::{null_mut, without_provenance_mut};
use std::thread;

pub const MARGIN: usize = 24;

/// On P this flow is accepted, and its plan has 31 bytes.
const NEW: NewFlow = NewFlow {
    number: 5,
    entry: 2,
    rate: 3,
    deadline: 6,
};

fn host(plan: &[u8], counters: usize, arrivals: usize, room: usize) -> Host {
    Host {
        plan: Lent::of(plan, MARGIN),
        counters: Lent::of(&vec![7; counters], MARGIN),
        arrivals: Lent::of(&vec![0; arrivals], MARGIN),
        out: Lent::of(&vec![0xA5; room], MARGIN),
    }
}

/// The answer, where the host had nothing to object.
pub fn judged(result: Judged) -> Answer {
    result.unwrap_or_else(|objection| panic!("{objection}"))
}

/// A refused plan, bad operands and a short buffer come after the lengths.
#[test]
fn counters_of_every_length() {
    let wrong = NewFlow { rate: 0, ..NEW };
    for length in 0..=700 {
        let mut sound = host(&plan_p(9, 7), length, 64, 31);
        let answers = [
            sound.admit(NEW),
            sound.release(0),
            sound.start(),
            sound.slot(4),
        ];
        let right = [Ok(31), Ok(19), Ok(0), Ok(0)];
        let expected = if length == COUNTERS {
            right
        } else {
            [refuse(1, 0); 4]
        };
        assert_eq!(answers.map(judged), expected, "{length} counters");
        let mut bad = host(&plan_p(9, 6), length, 64, 0);
        let answers = [bad.admit(wrong), bad.release(64), bad.start(), bad.slot(4)];
        let number = if length == COUNTERS { 14 } else { 1 };
        let expected = [refuse(number, 0); 4];
        assert_eq!(answers.map(judged), expected, "{length} counters");
        let mut wired = host(&[END], length, 64, 0);
        let answers = [
            wired.admit(NEW),
            wired.release(0),
            wired.start(),
            wired.slot(4),
        ];
        let right = [refuse(6, 0), refuse(16, 0), Ok(0), Ok(0)];
        let expected = if length == COUNTERS {
            right
        } else {
            [refuse(1, 0); 4]
        };
        assert_eq!(answers.map(judged), expected, "{length} counters");
    }
}

#[test]
fn arrivals_of_every_length() {
    for length in 0..=130 {
        let plans = [
            (plan_p(9, 7), Ok(0)),
            (plan_p(9, 6), refuse(14, 0)),
            (vec![END], Ok(0)),
        ];
        for (plan, right) in plans {
            let answer = judged(host(&plan, COUNTERS, length, 0).slot(4));
            let expected = if length == 64 { right } else { refuse(1, 0) };
            assert_eq!(answer, expected, "{length} arrivals");
        }
    }
}

/// The longest plan: 63 links and 64 flows.
fn longest_plan() -> Vec<u8> {
    let mut plan = node_command(0, 65_535, 1);
    plan.extend(node_command(1, 65_535, 64).repeat(62));
    for number in 0..64 {
        plan.extend(flow_command(number, 1 + number % 63, 1, 65));
    }
    plan.push(END);
    plan
}

/// From no byte to more than the longest of all.
#[test]
fn buffers_of_every_length() {
    let longest = longest_plan();
    let without_63 = [&longest[..756], &[END]].concat();
    let last = NewFlow {
        number: 63,
        entry: 1,
        rate: 1,
        deadline: 65,
    };
    let expected = |needed: usize, room: usize| {
        if room < needed {
            refuse(1, 0)
        } else {
            Ok(needed as u64)
        }
    };
    for room in 0..=800 {
        let mut full = host(&longest, COUNTERS, 64, room);
        assert_eq!(judged(full.schedule()), expected(379, room));
        assert_eq!(judged(full.release(9)), expected(757, room));
        let mut host = host(&without_63, COUNTERS, 64, room);
        assert_eq!(judged(host.admit(last)), expected(763, room));
    }
    for room in 0..=60 {
        let mut wired = host(&[END], COUNTERS, 64, room);
        assert_eq!(judged(wired.schedule()), expected(1, room));
        assert_eq!(judged(wired.admit(NEW)), refuse(6, 0));
        assert_eq!(judged(wired.release(0)), refuse(16, 0));
        let mut host = host(&plan_p(9, 7), COUNTERS, 64, room);
        assert_eq!(judged(host.schedule()), expected(19, room));
        assert_eq!(judged(host.admit(NEW)), expected(31, room));
        assert_eq!(judged(host.release(0)), expected(19, room));
    }
}

/// Lists of the slot rule of all lengths from 0 to 66, in every combination.
#[test]
fn slot_rule_lists_of_every_length() {
    for gaps in 0..=66 {
        for offsets in 0..=66 {
            for periods in 0..=66 {
                let mut children = Children::of(&vec![66; gaps], offsets, periods, 1);
                let expected = if offsets != gaps || periods != gaps {
                    refuse(1, 0)
                } else if gaps == 0 || gaps > 63 {
                    refuse(5, 0)
                } else {
                    Ok(66)
                };
                assert_eq!(judged(children.assign()), expected);
            }
        }
    }
}

/// Pointers of empty lists: NULL, and addresses at which there is nothing, not even aligned ones.
pub fn empty_lists<T>() -> [*mut T; 4] {
    let ends = [1, 3, usize::MAX].map(without_provenance_mut);
    [null_mut(), ends[0], ends[1], ends[2]]
}

#[test]
fn an_empty_plan_may_be_anywhere() {
    let mut counters = [7; COUNTERS];
    let (arrivals, mut out) = ([0; 64], [9; 40]);
    let (cells, filled) = (counters.as_mut_ptr(), out.as_mut_ptr());
    let listed = arrivals.as_ptr();
    for plan in empty_lists::<u8>() {
        let answers = unsafe {
            [
                declared::slotplan_read_plan(plan, 0),
                declared::slotplan_schedule(plan, 0, filled, 40),
                declared::slotplan_admit(plan, 0, cells, 576, 5, 2, 3, 6, filled, 40),
                declared::slotplan_release(plan, 0, cells, 576, 5, filled, 40),
                declared::slotplan_start(plan, 0, cells, 576),
                declared::slotplan_slot(plan, 0, cells, 576, listed, 64, 0),
                declared::slotplan_sender(plan, 0, 0, 0),
                declared::slotplan_bound(plan, 0, 0),
            ]
        };
        let expected = [2, 2, 14, 14, 14, 14, 14, 14].map(|number| refuse(number, 0));
        assert_eq!(answers.map(told), expected);
    }
    assert_eq!((counters, out), ([7; COUNTERS], [9; 40]));
}

#[test]
fn other_empty_lists_may_be_anywhere() {
    let plan = plan_p(9, 7);
    let (bytes, length) = (plan.as_ptr(), plan.len());
    let mut counters = [7; COUNTERS];
    let (cells, arrivals) = (counters.as_mut_ptr(), [0; 64]);
    for at in 0..4 {
        let no_counters = empty_lists::<u32>()[at];
        let no_arrivals = empty_lists::<u16>()[at];
        let no_out = empty_lists::<u8>()[at];
        let answers = unsafe {
            let listed = arrivals.as_ptr();
            [
                declared::slotplan_schedule(bytes, length, no_out, 0),
                declared::slotplan_admit(bytes, length, cells, 576, 5, 2, 3, 6, no_out, 0),
                declared::slotplan_admit(bytes, length, no_counters, 0, 5, 2, 3, 6, no_out, 0),
                declared::slotplan_release(bytes, length, cells, 576, 0, no_out, 0),
                declared::slotplan_release(bytes, length, no_counters, 0, 0, no_out, 0),
                declared::slotplan_start(bytes, length, no_counters, 0),
                declared::slotplan_slot(bytes, length, no_counters, 0, listed, 64, 0),
                declared::slotplan_slot(bytes, length, cells, 576, no_arrivals, 0, 0),
            ]
        };
        assert_eq!(answers.map(told), [refuse(1, 0); 8]);
    }
    assert_eq!(counters, [7; COUNTERS]);
}

#[test]
fn empty_lists_of_the_slot_rule_may_be_anywhere() {
    let (gap, mut filled) = (4, 9);
    for list in empty_lists::<u16>() {
        let answers = unsafe {
            [
                declared::slotplan_assign(list, 0, list, 0, list, 0),
                declared::slotplan_assign(list, 0, &mut filled, 1, list, 0),
                declared::slotplan_assign(list, 0, list, 0, &mut filled, 1),
                declared::slotplan_assign(&gap, 1, list, 0, &mut filled, 1),
                declared::slotplan_assign(&gap, 1, &mut filled, 1, list, 0),
            ]
        };
        let expected = [5, 1, 1, 1, 1].map(|number| refuse(number, 0));
        assert_eq!(answers.map(told), expected);
    }
    assert_eq!(filled, 9);
}

/// Where all numbers are live, any arrivals will do, so a plan's own bytes serve as arrivals too.
#[test]
fn plan_and_arrivals_may_overlap() {
    let plan = longest_plan();
    let mut memory = vec![0u16; plan.len().div_ceil(2)];
    for (pair, place) in plan.chunks(2).zip(&mut memory) {
        *place = u16::from_ne_bytes([pair[0], pair.get(1).copied().unwrap_or(0)]);
    }
    let before = memory.clone();
    for (start, number) in [(0, 0), (1, 63), (100, 64), (memory.len() - 64, u32::MAX)] {
        let (mut counters, mut expected) = ([1; COUNTERS], [1; COUNTERS]);
        let arrivals = &memory[start..start + 64];
        let answer = told(unsafe {
            let bytes = memory.as_ptr().cast::<u8>();
            let cells = counters.as_mut_ptr();
            declared::slotplan_slot(bytes, plan.len(), cells, 576, arrivals.as_ptr(), 64, number)
        });
        assert_eq!(answer, model::slot(&plan, &mut expected, arrivals, number));
        assert_eq!((answer, counters), (Ok(0), expected));
    }
    assert_eq!(memory, before);
}

/// A plan is only read, so calls on two threads may have the same bytes, one of them a part of the other's.
#[test]
fn two_hosts_may_lend_the_same_plan() {
    let plan = [plan_p(9, 7), vec![END]].concat();
    let rehearse = |bytes: &[u8]| {
        let mut counters = [0; COUNTERS];
        let mut arrivals = [0; 64];
        arrivals[0] = 3;
        let slots =
            (0..=16).map(|number| slotplan_lib::slot(bytes, &mut counters, &arrivals, number));
        let answers: Vec<Answer> = slots.collect();
        (answers, counters[..9].to_vec())
    };
    thread::scope(|scope| {
        let whole = scope.spawn(|| rehearse(&plan));
        let part = rehearse(&plan[..25]);
        assert_eq!(part, (vec![Ok(0); 17], vec![3, 6, 0, 0, 0, 0, 0, 0, 42]));
        let whole = whole.join().unwrap();
        assert_eq!(whole, (vec![refuse(14, 0); 17], vec![0; 9]));
    });
}

/// In slot 3 of P, link 3 moves the 5 packets of the first queue, and link 1 does not send.
#[test]
fn lists_may_begin_at_any_aligned_address() {
    for shift in 0..16 {
        let plan = [vec![9; shift], plan_p(9, 7)].concat();
        let mut out = [9; 48];
        let mut counters = [5; COUNTERS + 16];
        let arrivals: [u16; 80] = [0; 80];
        let (lent, cells) = (&plan[shift..], &mut counters[shift..][..COUNTERS]);
        let scheduled = slotplan_lib::schedule(lent, &mut out[shift..][..19]);
        let passed = slotplan_lib::slot(lent, cells, &arrivals[shift..][..64], 3);
        assert_eq!((scheduled, passed), (Ok(19), Ok(0)));
        let mut expected = [9; 48];
        model::schedule(&plan[shift..], &mut expected[shift..]).unwrap();
        assert_eq!(out, expected);
        let mut expected = [5; COUNTERS + 16];
        expected[shift..shift + 2].copy_from_slice(&[0, 10]);
        assert_eq!(counters, expected);
    }
}

#[test]
fn a_million_byte_strings_end_with_an_answer() {
    let mut random = Random::from_seed(30);
    let mut bad_hosts = BadHosts::new(MARGIN, &mut random);
    assert_eq!(run(&mut bad_hosts, 1_000_000, &mut random), Ok(()));
    assert_eq!(bad_hosts.calls, 7_000_000);
    assert!(bad_hosts.accepted > 100_000, "{bad_hosts}");
}

/// A host that compares its memory objects to each cell that is written where it must not be.
#[test]
fn a_changed_cell_is_objected_to() {
    let mut host = host(&plan_p(9, 7), COUNTERS, 64, 31);
    let parts = |length| Parts {
        out: 0..length,
        counters: cells_of(5),
    };
    assert_eq!(host.judge("admit", Ok(31), parts), Ok(Ok(31)));
    let writes: [fn(&mut Host); 7] = [
        |host| host.plan.cells[MARGIN] ^= 1,
        |host| host.arrivals.cells[MARGIN + 63] ^= 1,
        |host| host.counters.cells[MARGIN + 54] ^= 1,
        |host| host.counters.cells[MARGIN - 1] ^= 1,
        |host| host.counters.cells[MARGIN + COUNTERS] ^= 1,
        |host| host.out.cells[MARGIN + 30] ^= 1,
        |host| host.out.cells[MARGIN + 31] ^= 1,
    ];
    for write in writes {
        write(&mut host);
        assert!(host.judge("admit", Ok(30), parts).is_err());
        host.plan.restore();
        host.arrivals.restore();
        host.counters.restore();
        host.out.restore();
    }
    assert!(host.judge("admit", Ok(32), parts).is_err());
    host.out.cells[MARGIN] ^= 1;
    assert!(host.judge("admit", refuse(17, 0), parts).is_err());
}
