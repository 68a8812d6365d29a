//! Random texts for assemble: the lines of plans in many spellings, about half of them with a mistake.

use crate::random::damage::{damage_bytes, damage_commands};
use crate::random::generator::Random;
use crate::random::plans::random_commands;
use crate::second::bytes::{flow_command, of_16_bits, FLOW, NODE};
use crate::second::typed::LONGEST_TEXT;
use std::iter;

/// The words of a line.
type Words = Vec<String>;

pub fn random_text(random: &mut Random) -> Vec<u8> {
    match random.between(0, 99) {
        0..=1 => Vec::new(),
        2..=5 => signs(random),
        6..=9 => long_text(random),
        _ => typed_text(random),
    }
}

/// Any bytes, or signs of which lines are made.
fn signs(random: &mut Random) -> Vec<u8> {
    let any = random.chance(40);
    let length = random.between(1, 120);
    (0..length)
        .map(|_| {
            if any {
                random.byte()
            } else {
                random.pick(b"nodeflow   0125\t\r\n\n#")
            }
        })
        .collect()
}

/// A text that is filled up to a length near the limit, or well above it, before its lines or behind them.
fn long_text(random: &mut Random) -> Vec<u8> {
    let near = LONGEST_TEXT - 2 + random.index(5);
    let length = random.pick(&[near, near, near, 60_000, 131_072, 200_000]);
    let fills: [&[u8]; 8] = [
        b"\n",
        b"\n",
        b"\r\n",
        b" ",
        b"#",
        b"0",
        b"node 7 300 9\n",
        b"flow 8 6 4 700 \r\n",
    ];
    let (fill, text) = (random.pick(&fills), typed_text(random));
    let missing = length.saturating_sub(text.len());
    let filling: Vec<u8> = fill.iter().copied().cycle().take(missing).collect();
    if random.chance(50) {
        [filling, text].concat()
    } else {
        [text, filling].concat()
    }
}

fn typed_text(random: &mut Random) -> Vec<u8> {
    let mut lines = random_lines(random);
    if random.chance(60) {
        for _ in 0..random.pick(&[1, 1, 1, 2]) {
            damage_a_line(random, &mut lines);
        }
    }
    let mut text = spelled(random, &lines).into_bytes();
    if !text.is_empty() && random.chance(6) {
        damage_bytes(random, &mut text);
    }
    text
}

/// The lines of a random plan. assemble judges no rule, so many are of plans that 01 refuses.
fn random_lines(random: &mut Random) -> Vec<Words> {
    let mut commands = random_commands(random);
    if commands.is_empty() {
        commands.push(flow_command(64, 255, 0, 256));
    }
    for _ in 0..random.pick(&[0, 0, 1, 3]) {
        if !commands.is_empty() {
            damage_commands(random, &mut commands);
        }
    }
    let mut lines: Vec<Words> = commands
        .iter()
        .filter_map(|bytes| typed_words(bytes))
        .collect();
    lines.truncate(random.pick(&[3, 12, 200]));
    lines
}

/// None: not the bytes of a NODE or a FLOW.
fn typed_words(command: &[u8]) -> Option<Words> {
    let &[first, second, third, fourth, fifth, sixth] = command else {
        return None;
    };
    let last = of_16_bits(&[fifth, sixth]);
    let (name, operands) = match first {
        NODE => {
            let capacity = of_16_bits(&[third, fourth]);
            ("node", vec![second.into(), capacity, last])
        }
        FLOW => {
            let narrow = [second, third, fourth].map(u64::from);
            ("flow", [&narrow[..], &[last]].concat())
        }
        _ => return None,
    };
    let operands = operands.iter().map(u64::to_string);
    Some(iter::once(name.to_string()).chain(operands).collect())
}

/// Words that are no number. Of the last ones 8, 16, 32 or 64 bits would be a number that fits.
const NO_NUMBERS: [&str; 18] = [
    "-1",
    "+1",
    "-0",
    "x",
    "1x",
    "x1",
    "0x10",
    "1.0",
    "1,",
    "1_0",
    "=",
    "\u{b2}",
    "99999999999999999999",
    "4294967295",
    "4294967301",
    "18446744073709551616",
    "18446744073709551623",
    "340282366920938463463374607431768211461",
];

const NO_COMMANDS: [&str; 12] = [
    "Node", "NODE", "Flow", "FLOW", "nodes", "nod", "flo", "flow:", "link", "end", "0", "\u{2014}",
];

/// A mistake in one of the lines, or in a new one.
fn damage_a_line(random: &mut Random, lines: &mut Vec<Words>) {
    if lines.is_empty() || random.chance(10) {
        let place = random.index(lines.len() + 1);
        let other = random.pick(&NO_COMMANDS);
        let first = random.pick(&["node", "flow", other]);
        lines.insert(place, vec![first.to_string()]);
        return;
    }
    let line = random.index(lines.len());
    let words = &mut lines[line];
    let place = random.index(words.len());
    match random.between(0, 9) {
        0 => {
            words.remove(place);
        }
        1..=2 => words.truncate(place),
        3..=4 => words.push(other_word(random)),
        5 => words.insert(place, other_word(random)),
        6 => words[0] = random.pick(&NO_COMMANDS).to_string(),
        7 => words[place] = random.pick(&NO_NUMBERS).to_string(),
        // What no operand of 8 bits can hold, and just beyond what any can.
        _ => words[place] = random.pick(&["256", "257", "65536", "65541"]).to_string(),
    }
    lines.retain(|words| !words.is_empty());
}

fn other_word(random: &mut Random) -> String {
    let number = random.between(0, 300).to_string();
    random.pick(&[&number, "0", "node", "x"]).to_string()
}

/// How the lines of a text end, and how much there is besides words with one space between them, in percent.
struct Style {
    end: &'static str,
    variety: u64,
}

fn spelled(random: &mut Random, lines: &[Words]) -> String {
    let style = Style {
        end: random.pick(&["\n", "\n", "\r\n", " \n"]),
        variety: random.pick(&[0, 5, 30]),
    };
    let mut text = String::new();
    for words in lines {
        if random.chance(style.variety) {
            text += &remark(random);
            text += style.end;
        }
        text += &spelled_line(random, words, style.variety);
        text += style.end;
    }
    if random.chance(30) {
        text.truncate(text.trim_end_matches(['\r', '\n']).len());
    }
    text
}

fn spelled_line(random: &mut Random, words: &[String], variety: u64) -> String {
    let mut line = String::new();
    if random.chance(variety) {
        line += &blanks(random);
    }
    for (index, word) in words.iter().enumerate() {
        if index > 0 {
            line += &between_words(random, variety);
        }
        if random.chance(variety / 2) && word.starts_with(|sign: char| sign.is_ascii_digit()) {
            line += &"0".repeat(random.pick(&[1, 2, 9, 20, 700]));
        }
        line += word;
    }
    if random.chance(variety) {
        line += &blanks(random);
    }
    if random.chance(variety) {
        line += &comment(random);
    }
    line
}

fn between_words(random: &mut Random, variety: u64) -> String {
    if random.chance(variety) {
        blanks(random)
    } else {
        " ".to_string()
    }
}

fn blanks(random: &mut Random) -> String {
    let some = ["\t", "\t", "\r", "  ", " \t ", "\t\t", "\r \r"];
    if random.chance(2) {
        return " ".repeat(3000);
    }
    random.pick(&some).to_string()
}

fn comment(random: &mut Random) -> String {
    let some = [
        "#",
        "##",
        "# lane 3",
        "#5 6",
        "# node 0 20 4",
        "#\t\u{e4}",
        "# 1\r2",
    ];
    if random.chance(2) {
        return "# and so on ".repeat(400);
    }
    random.pick(&some).to_string()
}

/// A line without words.
fn remark(random: &mut Random) -> String {
    match random.between(0, 2) {
        0 => String::new(),
        1 => blanks(random),
        _ => comment(random),
    }
}

#[cfg(test)]
mod tests {
    use super::*;
    use crate::commands::compare_typed::outcome;
    use crate::commands::outcomes::{Tally, TEXTS};
    use crate::programs::output::commands_in_hex;
    use crate::second::typed::assemble;

    #[test]
    fn random_texts_meet_every_message_for_every_operand() {
        let mut random = Random::from_seed(42);
        let mut tally = Tally::new("", TEXTS);
        let mut assembled = 0;
        for _ in 0..4000 {
            let answer = assemble(&random_text(&mut random));
            tally.count(&outcome(&answer));
            assembled += u64::from(answer.is_ok());
        }
        assert!(tally.all_reach(20), "{tally}");
        assert!((1000..3000).contains(&assembled), "{tally}");
    }

    /// Among texts with each of these some are assembled and some are not.
    #[test]
    fn random_texts_have_every_spelling() {
        let mut random = Random::from_seed(43);
        let spellings: [fn(&str) -> bool; 10] = [
            |text| text.contains('\t'),
            |text| text.contains("\r\n"),
            |text| text.contains("\r "),
            |text| text.contains('#'),
            |text| text.contains(" 0000"),
            |text| text.contains("\n\n"),
            |text| !text.is_empty() && !text.ends_with('\n'),
            |text| text.lines().any(|line| line.len() > 2000),
            |text| text.contains('\u{fffd}') || text.contains('\u{e4}'),
            |text| text.lines().count() > 256 && text.len() <= LONGEST_TEXT,
        ];
        let mut met = [[0; 2]; 10];
        for _ in 0..6000 {
            let text = random_text(&mut random);
            let answer = usize::from(assemble(&text).is_ok());
            let text = String::from_utf8_lossy(&text);
            for (spelling, met) in spellings.iter().zip(&mut met) {
                met[answer] += u64::from(spelling(&text));
            }
        }
        assert!(met.iter().flatten().all(|&count| count >= 8), "{met:?}");
    }

    #[test]
    fn words_of_a_command_are_assembled_to_it_again() {
        let mut random = Random::from_seed(44);
        for _ in 0..500 {
            let commands = random_commands(&mut random);
            let lines: Vec<Words> = commands
                .iter()
                .filter_map(|bytes| typed_words(bytes))
                .collect();
            assert_eq!(lines.len(), commands.len());
            let text = spelled(&mut random, &lines);
            let bytes = assemble(text.as_bytes()).unwrap();
            let expected = commands_in_hex(&[&commands.concat()[..], &[0xFF]].concat());
            assert_eq!(commands_in_hex(&bytes), expected, "{text}");
        }
    }
}
