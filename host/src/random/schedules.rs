//! Random schedule files, about half of them damaged, and random changes of schedules, some of which a file still reads to.

use crate::programs::output::{decimal, hex};
use crate::programs::schedule_lines::MOST_ROOM;
use crate::random::damage::damage_bytes;
use crate::random::generator::Random;
use crate::random::sites::{site_to_alter, Triple};
use crate::second::bytes::{flow_command, link_command, node_command, END};
use crate::second::rules::{GAPS, MOST_LINKS};
use crate::second::schedules::{read_schedule, Schedule};

/// Most have as few links as a writer with 64 bytes of room can write, a few none. Some are of sites.
pub fn random_schedule(random: &mut Random) -> Schedule {
    if random.chance(20) {
        let (_, site) = site_to_alter(random);
        return Schedule {
            links: site.links,
            offsets: site.offsets,
            periods: site.periods,
        };
    }
    let links = match random.between(0, 99) {
        0..=5 => 0,
        6..=54 => 1 + random.index(6),
        55..=84 => 6 + random.index(9),
        85..=94 => 15 + random.index(MOST_LINKS - 15),
        _ => MOST_LINKS,
    };
    let mut schedule = Schedule::empty();
    schedule.links = links as u64;
    for index in 0..links {
        let [offset, period] = random_turn(random);
        schedule.offsets[index] = offset;
        schedule.periods[index] = period;
    }
    schedule
}

/// An offset and a period, often at a limit.
fn random_turn(random: &mut Random) -> [u64; 2] {
    let any = random.between(*GAPS.start(), *GAPS.end());
    let period = random.pick(&[any, any, any, any, 1, 2, 256, 1023, 1024]);
    let any = random.between(0, period - 1);
    [random.pick(&[any, any, 0, period - 1]), period]
}

/// The commands of a random schedule, without END.
fn random_commands(random: &mut Random) -> Vec<Vec<u8>> {
    let schedule = random_schedule(random);
    let turns = schedule.offsets.iter().zip(&schedule.periods);
    (1..=schedule.links)
        .zip(turns)
        .map(|(link, (&offset, &period))| link_command(link, offset, period))
        .collect()
}

/// The bytes of a random schedule file without damage.
pub fn undamaged_file(random: &mut Random) -> Vec<u8> {
    let mut bytes = random_commands(random).concat();
    bytes.push(END);
    bytes
}

/// The bytes of a random schedule file, in about half of all cases damaged.
pub fn schedule_file(random: &mut Random) -> Vec<u8> {
    let mut commands = random_commands(random);
    if !commands.is_empty() && random.chance(35) {
        damage_commands(random, &mut commands);
    }
    let mut bytes = commands.concat();
    bytes.push(END);
    if random.chance(30) {
        damage_bytes(random, &mut bytes);
    }
    bytes
}

fn damage_commands(random: &mut Random, commands: &mut Vec<Vec<u8>>) {
    let (first, second) = (random.index(commands.len()), random.index(commands.len()));
    match random.between(0, 14) {
        0 => commands.swap(first, second),
        1 => commands.insert(second, commands[first].clone()),
        2 => {
            commands.remove(first);
        }
        3..=4 => damage_number(random, &mut commands[first], first as u8),
        5 => add_64th(random, commands),
        6..=7 => commands.clear(),
        8 => commands[first][0] = random.pick(&[0x00, 0x01, 0x02, 0x10, 0x12, 0xFE, 0xFF]),
        9 => commands.insert(first, node_command(0, 100, 8)),
        10 => commands.insert(first, flow_command(0, 1, 1, 8)),
        _ => damage_turn(random, &mut commands[first]),
    }
}

/// The index of a LINK is one below its own number.
fn damage_number(random: &mut Random, command: &mut [u8], index: u8) {
    let any = random.byte();
    command[1] = random.pick(&[0, index, index + 2, 63, 64, 255, any]);
}

/// One to three LINKs after 63.
fn add_64th(random: &mut Random, commands: &mut Vec<Vec<u8>>) {
    for index in commands.len()..MOST_LINKS + 1 + random.index(3) {
        let [offset, period] = random_turn(random);
        commands.push(link_command(index as u64 + 1, offset, period));
    }
    let number = random.pick(&[64, 64, 63, 1, 0]);
    commands[MOST_LINKS][1] = number;
}

/// Offset and period at a limit of 22 or just beyond.
fn damage_turn(random: &mut Random, command: &mut [u8]) {
    let [_, period] = random_turn(random);
    let period = random.pick(&[period, period, 0, 1, 1024, 1025, 65_535]);
    let below = period.saturating_sub(1);
    let offset = random.pick(&[period, period, below, period / 2, 0, 65_535]);
    let operands = link_command(0, offset, period);
    command[2..].copy_from_slice(&operands[2..]);
}

/// None, or one to three, most of which no file reads to.
pub fn random_changes(random: &mut Random, schedule: &Schedule) -> Vec<Triple> {
    let mut triples = Vec::new();
    for _ in 0..random.pick(&[0, 0, 0, 1, 1, 1, 1, 2, 3]) {
        triples.extend(random_change(random, schedule));
    }
    triples
}

fn random_change(random: &mut Random, schedule: &Schedule) -> Vec<Triple> {
    let links = schedule.links;
    let most = MOST_LINKS as u64;
    let used = random.between(0, links.saturating_sub(1));
    let free = random.between(links.min(most - 1), most - 1);
    let field = random.between(1, 2);
    let value = random.pick(&[1, 1, 1024, 65_535]);
    match random.between(0, 9) {
        0..=1 => vec![[field, free, value]],
        2 => {
            let links = [links + 1, links.saturating_sub(1), 0, most, most + 1, 255];
            vec![[0, 0, random.pick(&links)]]
        }
        3 => without_last(links),
        4 => with_one_more(random, links),
        5..=6 => vec![other_entry(random, schedule, used)],
        7 => with_turn(used, random_turn(random)),
        8 => vec![random.pick(&[
            [field, most, 1],
            [3, 0, 1],
            [0, 0, 256],
            [field, used, 65_536],
        ])],
        _ => vec![[field, used, 0]],
    }
}

fn with_turn(index: u64, [offset, period]: [u64; 2]) -> Vec<Triple> {
    vec![[1, index, offset], [2, index, period]]
}

/// The last link gone in all three places.
fn without_last(links: u64) -> Vec<Triple> {
    let last = links.saturating_sub(1);
    let mut triples = with_turn(last, [0, 0]);
    triples.push([0, 0, last]);
    triples
}

/// A link more in all three places. A schedule of 63 has no room for its entries.
fn with_one_more(random: &mut Random, links: u64) -> Vec<Triple> {
    let mut triples = with_turn(links, random_turn(random));
    triples.push([0, 0, links + 1]);
    triples
}

/// One entry of a link near the other one, or at a limit.
fn other_entry(random: &mut Random, schedule: &Schedule, index: u64) -> Triple {
    let offset = schedule.offsets[index as usize];
    let period = schedule.periods[index as usize];
    if random.chance(50) {
        let offsets = [period, period.saturating_sub(1), period + 1, 65_535];
        return [1, index, random.pick(&offsets)];
    }
    [2, index, random.pick(&[offset, offset + 1, 0, 1024, 1025])]
}

/// A file, and lines for test_schedules: the file, and changes of the schedule that it reads to.
pub fn schedule_lines(random: &mut Random) -> (Vec<u8>, String) {
    let file = schedule_file(random);
    let schedule = read_schedule(&file).unwrap_or(Schedule::empty());
    let mut lines = format!("{}\n", hex(&file).trim_start());
    for _ in 0..random.between(0, 3) {
        let room = random_room(random, 6 * schedule.links + 1);
        let changes = random_changes(random, &schedule).concat();
        lines += &format!("W {room}{}", decimal(&changes));
        if random.chance(5) {
            lines += random.pick(&[" 0", " 2 0"]);
        }
        lines.push('\n');
    }
    (file, lines)
}

/// Mostly at most the 64 bytes that test_schedules can lend.
fn random_room(random: &mut Random, needed: u64) -> u64 {
    let free = random.between(0, MOST_ROOM);
    let rooms = [
        needed,
        needed,
        needed - 1,
        needed + 1,
        MOST_ROOM,
        MOST_ROOM,
        free,
        0,
    ];
    match random.between(0, 99) {
        0 => MOST_ROOM + 1,
        _ => random.pick(&rooms).min(MOST_ROOM),
    }
}

#[cfg(test)]
mod tests {
    use super::*;

    /// The accepted ones reach the limits of links, periods and offsets.
    #[test]
    fn about_half_of_the_files_are_accepted() {
        let mut random = Random::from_seed(8);
        let files: Vec<_> = (0..4000).map(|_| schedule_file(&mut random)).collect();
        let schedules: Vec<_> = files
            .iter()
            .filter_map(|file| read_schedule(file).ok())
            .collect();
        assert!(
            (1600..2600).contains(&schedules.len()),
            "{}",
            schedules.len()
        );
        assert!(schedules.iter().any(|schedule| schedule.links == 63));
        assert!(schedules.iter().any(|schedule| schedule.links == 1));
        let without = schedules.iter().filter(|schedule| schedule.links == 0);
        let without = without.count();
        let behind = files.iter().filter(|file| file.first() == Some(&END));
        let behind = behind.count() - without;
        assert!(without >= 150 && behind >= 10, "{without} {behind}");
        let turns = schedules
            .iter()
            .flat_map(|schedule| schedule.offsets.iter().zip(&schedule.periods));
        let turns: Vec<_> = turns.collect();
        for limit in [(0, 1), (0, 1024), (1023, 1024), (255, 256)] {
            assert!(turns.contains(&(&limit.0, &limit.1)), "{limit:?}");
        }
    }
}
