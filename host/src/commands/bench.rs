//! The times of the compiled library and of plain Rust on the same calls, measured in one run.

mod growth;
mod rows;
mod sites;
mod table;
mod timing;

use crate::library::functions::{Functions, LIBRARY, PLAIN};
use crate::library::slotplan_lib::ARCHIVE;
use rows::{Bench, Row, OF_LISTS, OF_SITES};
use sites::Case;
use std::fs;
use table::{shown_time, table};
use timing::{measure, Times};

/// The model as the system names it.
fn processor() -> String {
    let text = fs::read_to_string("/proc/cpuinfo").unwrap_or_default();
    let line = text.lines().find(|line| line.starts_with("model name"));
    let model = line.and_then(|line| line.split_once(": "));
    model
        .map_or("not named by the system", |(_, model)| model)
        .to_string()
}

fn heading() -> String {
    format!(
        "Processor: {}\n\
        Rattle: the compiled library, {}\n\
        Rust: `plain`, standard library only, no unsafe, bounds checks; opt-level 3, one codegen unit, link-time optimization\n\
        Each time is the median of 401 batches of at least 100 µs, of 5 for a rehearsal of more than 1,000 slots; those of the two alternate.\n\
        Sites: small with 3 links and 1 flow, typical with 16 and 12, largest with 63 and 64\n\
        Buffers are made before the clock starts and are not cleared between calls; the counters are 0 before each rehearsal.\n",
        processor(),
        ARCHIVE
    )
}

fn cells(times: Times) -> [String; 3] {
    let ratio = format!("{:.2}", times.ratio());
    [shown_time(times.rattle), shown_time(times.rust), ratio]
}

/// The part of a slot that goes into reading and judging the plan bytes.
fn share_of_check_14(read_plan: Times, slot: Times) -> [String; 3] {
    let percent = |part: f64, whole: f64| format!("{:.0} %", 100.0 * part / whole);
    let rattle = percent(read_plan.rattle, slot.rattle);
    [rattle, percent(read_plan.rust, slot.rust), String::new()]
}

/// The lines of a site, each with its name and three cells, and check 14's share below `read_plan`.
fn site_lines(times: &[Times]) -> Vec<(&'static str, [String; 3])> {
    let of_row = |row: Row| {
        let index = OF_SITES.iter().position(|&(_, other)| other == row);
        times[index.expect("a row of the table")]
    };
    let share = share_of_check_14(of_row(Row::ReadPlan), of_row(Row::Slot));
    let names = OF_SITES.iter().map(|&(name, _)| name);
    let mut lines: Vec<_> = names.zip(times.iter().copied().map(cells)).collect();
    lines.insert(1, ("check 14's share of a slot", share));
    lines
}

/// The times are those of `OF_SITES` for one site after the other.
fn sites_table(names: &[&str], times: &[Times]) -> String {
    let mut heading = vec![String::new()];
    for name in names {
        heading.extend([format!("{name}: Rattle"), "Rust".into(), "ratio".into()]);
    }
    let sites: Vec<_> = times.chunks(OF_SITES.len()).map(site_lines).collect();
    let mut rows = vec![heading];
    for index in 0..sites[0].len() {
        let mut row = vec![sites[0][index].0.to_string()];
        row.extend(sites.iter().flat_map(|lines| lines[index].1.clone()));
        rows.push(row);
    }
    table(&rows)
}

fn lists_table(times: &[Times]) -> String {
    let heading = ["slot rule", "Rattle", "Rust", "ratio"];
    let mut rows = vec![heading.map(String::from).to_vec()];
    for ((name, _), &times) in OF_LISTS.iter().zip(times) {
        let mut row = vec![name.to_string()];
        row.extend(cells(times));
        rows.push(row);
    }
    table(&rows)
}

/// All is measured in the same rounds. The slot rule alone takes no site: any does.
fn report() -> Result<String, String> {
    let plans = sites::plans();
    let names = plans.each_ref().map(|plan| plan.0);
    let cases = plans.map(|(_, plan)| Case::of_plan(plan));
    let of_sites = cases.iter();
    let of_sites = of_sites.flat_map(|case| OF_SITES.map(|(_, row)| (row, case)));
    let of_lists = OF_LISTS.map(|(_, row)| (row, &cases[0]));
    let times = measure(&of_sites.chain(of_lists).collect::<Vec<_>>())?;
    let (of_sites, of_lists) = times.split_at(names.len() * OF_SITES.len());
    let tables = [sites_table(&names, of_sites), lists_table(of_lists)];
    Ok(tables.join("\n"))
}

fn print(report: Result<String, String>) -> u8 {
    match report {
        Ok(text) => {
            println!("{}\n{text}", heading());
            0
        }
        Err(difference) => {
            println!("{difference}");
            1
        }
    }
}

/// The exit status: 0, or 1 if the two implementations differ.
pub fn bench() -> u8 {
    print(report())
}

/// The exit status: 0, or 1 if the two implementations differ.
pub fn bench_growth() -> u8 {
    print(growth::report())
}

fn functions(name: &str) -> Option<&'static Functions> {
    match name {
        "rattle" => Some(&LIBRARY),
        "rust" => Some(&PLAIN),
        _ => None,
    }
}

/// Runs one row so many times and prints the last answer. None: there is no such row, site, implementation or number.
pub fn repeat(row: &str, site: &str, implementation: &str, count: &str) -> Option<u8> {
    let (row, case) = (rows::row(row)?, sites::case(site)?);
    let mut bench = Bench::new(functions(implementation)?, &case);
    let count = count.parse().ok()?;
    bench.prepare(row);
    if count > 0 {
        println!("{:?}", bench.run(row, count));
    }
    Some(0)
}
