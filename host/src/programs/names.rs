//! The names of the programs. Each is also the name of its crate under crates/ and of its file in target/bin/.

pub const SLOTPLAN: &str = "slotplan";

pub const CHART: &str = "chart";

/// The program that is given a plan in a file besides its input.
pub const REHEARSE: &str = "rehearse";

pub const LISTING: &str = "listing";

/// The program that prints plan bytes.
pub const ASSEMBLE: &str = "assemble";

pub const READ_SCHEDULE: &str = "readschedule";

/// The test program that prints what slotplan prints, for each plan file that it is given.
pub const PLAN_FILES: &str = "test_plans";

/// The test programs that read lines: plans, altered sites, gap lists, calls, schedules.
pub const PLAN_LINES: &str = "test_vectors";
pub const SITE_LINES: &str = "test_altered";
pub const GAP_LINES: &str = "test_slot_rule";
pub const CALL_LINES: &str = "test_calls";
pub const SCHEDULE_LINES: &str = "test_schedules";

pub const LINE_PROGRAMS: [&str; 5] = [
    PLAN_LINES,
    SITE_LINES,
    GAP_LINES,
    CALL_LINES,
    SCHEDULE_LINES,
];

/// The programs with a stored output that this implementation computes. The stored output of chart is a picture, which is read
/// and judged instead.
pub fn computed() -> Vec<&'static str> {
    let others = [
        SLOTPLAN,
        READ_SCHEDULE,
        REHEARSE,
        LISTING,
        ASSEMBLE,
        PLAN_FILES,
    ];
    others.into_iter().chain(LINE_PROGRAMS).collect()
}
