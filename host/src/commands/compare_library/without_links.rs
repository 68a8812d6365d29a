//! Mistakes about END alone and about a schedule without links, each of which the comparison has to find.

use super::tests::{difference, shows};
use crate::library::functions::{Functions, MODEL};
use crate::library::model;
use crate::library::slotplan_lib::Answer;
use crate::second::bytes::END;
use crate::second::rules::refuse;

/// What the comparison has to tell of a mistake about END alone.
fn tells(judged: Functions, call: &str, what: &str, input: &str) {
    let report = difference(judged, call, 0).to_string();
    assert_eq!(report, format!("call 1: {what}\ninput:\n{input}\n"));
}

/// Up to U2 of 02 number 9 came before 10, and in a writer before 1 for the slice.
#[test]
fn end_alone_refused_by_9_is_found() {
    let judged = Functions {
        read_plan: |plan| match plan {
            [END, ..] => refuse(9, 0),
            _ => model::read_plan(plan),
        },
        ..MODEL
    };
    let accepted = "found refused 9 0, expected accepted 0";
    tells(judged, "read_plan", accepted, "plan FF\nread_plan");
    let read = Functions {
        read_schedule: |file, offsets, periods| match file {
            [END, ..] if [offsets.len(), periods.len()] == [63; 2] => refuse(9, 0),
            _ => model::read_schedule(file, offsets, periods),
        },
        ..MODEL
    };
    let input = "plan\nread_schedule FF, offsets 63 periods 63";
    tells(read, "read_schedule", accepted, input);
}

#[test]
fn a_schedule_without_links_refused_by_9_is_found() {
    let schedule = Functions {
        schedule: |plan, out| match plan {
            [END] => refuse(9, 0),
            _ => model::schedule(plan, out),
        },
        ..MODEL
    };
    let judged_last = "found refused 9 0, expected refused 1 0";
    let input = "plan FF\nschedule room 0";
    tells(schedule, "schedule", judged_last, input);
    let write = Functions {
        write_schedule: |links, offsets, periods, out| match model::write_schedule(
            links,
            offsets,
            periods,
            &mut [0; 400],
        ) {
            Ok(1) => refuse(9, 0),
            _ => model::write_schedule(links, offsets, periods, out),
        },
        ..MODEL
    };
    let input = "plan\nwrite_schedule links 00, offsets 63, periods 63, room 0";
    tells(write, "write_schedule", judged_last, input);
}

/// The answer of a writer that has no byte for it.
#[test]
fn a_schedule_without_links_written_in_no_byte_is_found() {
    let schedule = Functions {
        schedule: |plan, out| match plan {
            [END] if !out.is_empty() => Ok(0),
            _ => model::schedule(plan, out),
        },
        ..MODEL
    };
    let no_byte = "found accepted 0, expected accepted 1";
    tells(schedule, "schedule", no_byte, "plan FF\nschedule room 1");
    let write = Functions {
        write_schedule: |links, offsets, periods, out| match model::write_schedule(
            links,
            offsets,
            periods,
            &mut out.to_vec(),
        ) {
            Ok(1) => Ok(0),
            _ => model::write_schedule(links, offsets, periods, out),
        },
        ..MODEL
    };
    let input = "plan\nwrite_schedule links 00, offsets 63, periods 63, room 1";
    tells(write, "write_schedule", no_byte, input);
}

/// The answer is right, but the buffer is left as it was.
#[test]
fn an_end_that_is_not_written_is_found() {
    let judged = Functions {
        schedule: |plan, out| match plan {
            [END] => model::schedule(plan, &mut out.to_vec()),
            _ => model::schedule(plan, out),
        },
        ..MODEL
    };
    let difference = difference(judged, "schedule", 0);
    shows(&difference, "call 1: out[0]: found ");
    shows(&difference, ", expected FF\n");
    shows(&difference, "plan FF\nschedule room 1\n");
}

#[test]
fn bytes_behind_end_accepted_without_links_are_found() {
    let judged = Functions {
        read_plan: |plan| match plan {
            [END, ..] => Ok(0),
            _ => model::read_plan(plan),
        },
        ..MODEL
    };
    let accepted = "found accepted 0, expected refused 10 1";
    let difference = difference(judged, "read_plan", 1);
    shows(&difference, accepted);
    shows(&difference, "plan FF ");
    assert_eq!(difference.list.plan.len(), 2, "{difference}");
    let read = Functions {
        read_schedule: |file, offsets, periods| match file {
            [END, ..] => model::read_schedule(&[END], offsets, periods),
            _ => model::read_schedule(file, offsets, periods),
        },
        ..MODEL
    };
    let input = "plan\nread_schedule FF 00, offsets 63 periods 63";
    tells(read, "read_schedule", accepted, input);
}

/// 14 after 1, though bytes read to the site.
fn by_14(plan: &[u8], answer: Answer) -> Answer {
    if plan == [END] && answer != refuse(1, 0) {
        return refuse(14, 0);
    }
    answer
}

#[test]
fn a_change_without_links_refused_by_14_is_found() {
    let admit = Functions {
        admit: |plan, counters, flow, out| by_14(plan, model::admit(plan, counters, flow, out)),
        ..MODEL
    };
    let release = Functions {
        release: |plan, counters, number, out| {
            by_14(plan, model::release(plan, counters, number, out))
        },
        ..MODEL
    };
    let bound = Functions {
        bound: |plan, number| by_14(plan, model::bound(plan, number)),
        ..MODEL
    };
    for (judged, call) in [(admit, "admit"), (release, "release"), (bound, "bound")] {
        let difference = difference(judged, call, 0);
        shows(&difference, "found refused 14 0, expected refused ");
        shows(&difference, &format!("plan FF\n{call} number "));
    }
}

#[test]
fn a_slot_without_links_refused_by_14_is_found() {
    let start = Functions {
        start: |plan, counters| by_14(plan, model::start(plan, counters)),
        ..MODEL
    };
    let accepted = "found refused 14 0, expected accepted 0";
    let input = "plan FF\nstart, counters 576";
    tells(start, "start", accepted, input);
    let slot = Functions {
        slot: |plan, counters, arrivals, number| {
            by_14(plan, model::slot(plan, counters, arrivals, number))
        },
        ..MODEL
    };
    let input = "plan FF\nslot 00000000, counters 576 arrivals 64";
    tells(slot, "slot", accepted, input);
}

/// 01: a lookup takes the root for a node, whatever the site has.
#[test]
fn a_root_without_children_refused_is_found() {
    let judged = Functions {
        sender: |plan, parent, slot| match (plan, parent) {
            ([END], 0) => refuse(6, 0),
            _ => model::sender(plan, parent, slot),
        },
        ..MODEL
    };
    let input = "plan FF\nsender parent 00 slot 00000000";
    tells(
        judged,
        "sender",
        "found refused 6 0, expected accepted 0",
        input,
    );
}
