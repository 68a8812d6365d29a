//! A plan as lines that a planner types: what `assemble` makes of a text, and what `listing` makes of plan bytes.

use crate::second::bytes::{flow_command, node_command, read_plan, END};
use crate::second::rules::{refused, Site, OF_16_BITS, OF_8_BITS};
use crate::second::words::{number_up_to, words};

/// A text may have this many bytes.
pub const LONGEST_TEXT: usize = 65_535;

/// The name of an operand, and the largest number that fits it.
type Operand = (&'static str, u64);

pub const OF_NODE: [Operand; 3] = [
    ("PARENT", OF_8_BITS),
    ("CAPACITY", OF_16_BITS),
    ("GAP", OF_16_BITS),
];

pub const OF_FLOW: [Operand; 4] = [
    ("NUMBER", OF_8_BITS),
    ("NODE", OF_8_BITS),
    ("RATE", OF_8_BITS),
    ("DEADLINE", OF_16_BITS),
];

/// The plan bytes, or what is told of the text. No rule of 01 is judged.
pub fn assemble(text: &[u8]) -> Result<Vec<u8>, String> {
    if text.len() > LONGEST_TEXT {
        return Err(format!("assemble: more than {LONGEST_TEXT} bytes"));
    }
    // Bytes that are no text become signs that stand in no operand.
    let text = String::from_utf8_lossy(text);
    let mut plan = Vec::new();
    for (number, line) in (1..).zip(text.split('\n')) {
        let command = command(line).map_err(|what| format!("line {number}: {what}"))?;
        plan.extend(command);
    }
    plan.push(END);
    Ok(plan)
}

/// The bytes of a line, none if it has no words. The error is what is wrong with it.
fn command(line: &str) -> Result<Vec<u8>, String> {
    let before_comment = line.split('#').next().unwrap_or_default();
    match words(before_comment)[..] {
        [] => Ok(Vec::new()),
        ["node", ref typed @ ..] => {
            let [parent, capacity, gap] = values(typed, OF_NODE)?;
            Ok(node_command(parent, capacity, gap))
        }
        ["flow", ref typed @ ..] => {
            let [number, entry, rate, deadline] = values(typed, OF_FLOW)?;
            Ok(flow_command(number, entry, rate, deadline))
        }
        _ => Err("neither node nor flow".to_string()),
    }
}

fn values<const N: usize>(words: &[&str], operands: [Operand; N]) -> Result<[u64; N], String> {
    let mut values = [0; N];
    for (index, (name, most)) in operands.into_iter().enumerate() {
        let value = words.get(index).and_then(|word| number_up_to(word, most));
        let wrong = || format!("{name} must be a number from 0 to {most}");
        values[index] = value.ok_or_else(wrong)?;
    }
    if words.len() > N {
        return Err("a word too many".to_string());
    }
    Ok(values)
}

/// The lines of an accepted plan, or its refusal.
pub fn listing(plan: &[u8]) -> String {
    let lines = read_plan(plan).map(|site| lines_of(&site));
    lines.unwrap_or_else(|refusal| format!("{}\n", refused(refusal)))
}

/// A line for each node and each live flow.
pub fn lines_of(site: &Site) -> String {
    let nodes = site.nodes().into_iter().map(|node| node - 1).map(|index| {
        let (parent, capacity) = (site.parents[index], site.capacities[index]);
        format!("node {parent} {capacity} {}\n", site.gaps[index])
    });
    let flows = site.live_flows().into_iter().map(|flow| {
        let (node, rate) = (site.entries[flow], site.rates[flow]);
        format!("flow {flow} {node} {rate} {}\n", site.deadlines[flow])
    });
    nodes.chain(flows).collect()
}

#[cfg(test)]
mod tests {
    use super::*;
    use crate::random::damage::random_plan;
    use crate::random::generator::Random;
    use crate::second::bytes::plan_p;

    fn told(text: &str) -> String {
        assemble(text.as_bytes()).unwrap_err()
    }

    #[test]
    fn plan_p_is_typed_and_listed() {
        let text = "node 0 20 4\nnode 0 20 6\nnode 1 9 3\nflow 0 3 3 7\n";
        assert_eq!(assemble(text.as_bytes()), Ok(plan_p(9, 7)));
        assert_eq!(listing(&plan_p(9, 7)), text);
        assert_eq!(listing(&plan_p(9, 6)), "refused 13 0\n");
        assert_eq!(listing(&[]), "refused 2 0\n");
    }

    #[test]
    fn numbers_stand_low_byte_first() {
        let text = b"node 12 13330 65500\nflow 254 7 129 513";
        let bytes = [
            0x01, 12, 0x12, 0x34, 0xDC, 0xFF, 0x02, 254, 7, 129, 0x01, 0x02, 0xFF,
        ];
        assert_eq!(assemble(text), Ok(bytes.to_vec()));
    }

    #[test]
    fn a_text_without_words_is_end_alone() {
        for text in ["", "\n", "\n\n", " \t\r\n#\n", "# node 0 20 4", "\r"] {
            assert_eq!(assemble(text.as_bytes()), Ok(vec![END]), "{text:?}");
        }
        assert_eq!(listing(&[END]), "");
    }

    #[test]
    fn spaces_comments_and_leading_zeros_change_nothing() {
        let plan = assemble(b"node 0 20 4\nflow 5 1 2 9\n");
        let zeros = "0".repeat(30_000);
        let texts = [
            "\r\n  node\t0 \r 20\t\t4\r\n\n# flow\nflow 5 1 2 9".to_string(),
            "node 0 20 4# node\n#\nflow 5 1 2 9 # a word too many\r\n".to_string(),
            format!("node 0 {zeros}20 04\nflow 005 01 00002 09#{zeros}"),
        ];
        for text in texts {
            assert_eq!(assemble(text.as_bytes()), plan, "{text:?}");
        }
    }

    #[test]
    fn no_rule_of_01_is_judged() {
        let lines = [
            "flow 255 254 253 65535",
            "flow 0 0 0 0",
            "node 252 65535 65534",
            "node 0 0 0",
        ];
        assert_eq!(assemble(lines.join("\n").as_bytes()).unwrap().len(), 25);
        for line in lines {
            let plan = assemble(line.as_bytes()).unwrap();
            assert_eq!(listing(&plan), "refused 5 0\n", "{line}");
        }
    }

    /// Each operand in turn: missing, no number, or above its limit.
    #[test]
    fn the_first_wrong_operand_is_told() {
        for (name, operands) in [("node", &OF_NODE[..]), ("flow", &OF_FLOW[..])] {
            for (index, (operand, most)) in operands.iter().enumerate() {
                let expected = format!("line 1: {operand} must be a number from 0 to {most}");
                let before: String = (0..index).map(|place| format!(" {}", 11 + place)).collect();
                assert_eq!(told(&format!("{name}{before}")), expected);
                assert_eq!(told(&format!("{name}{before} # 1\n")), expected);
                let above = (most + 1).to_string();
                let words = [
                    &above,
                    "-1",
                    "+1",
                    "1x",
                    "\u{b2}",
                    "0x1",
                    "99999999999999999999",
                ];
                for word in words {
                    let text = format!("{name}{before} {word} x x x x x");
                    assert_eq!(told(&text), expected, "{text}");
                }
                let rest = &operands[index + 1..];
                let after: String = rest.iter().map(|(_, most)| format!(" {most}")).collect();
                let text = format!("{name}{before} {most}{after}");
                assert_eq!(assemble(text.as_bytes()).map(|bytes| bytes.len()), Ok(7));
            }
        }
    }

    #[test]
    fn a_word_too_many_and_another_first_word_are_told() {
        for text in [
            "node 1 2 3 4",
            "flow 1 2 3 4 5",
            "node 1 2 3 x\nx",
            "flow 1 2 3 4\r-",
        ] {
            assert_eq!(told(text), "line 1: a word too many");
        }
        for text in [
            "Node 1 2 3",
            "FLOW",
            "nodes",
            "1 2 3",
            "node\u{b}1",
            "flow\0",
            "\u{feff}node",
        ] {
            assert_eq!(told(text), "line 1: neither node nor flow", "{text:?}");
        }
        assert_eq!(
            assemble(b"\xFF\n").unwrap_err(),
            "line 1: neither node nor flow"
        );
    }

    #[test]
    fn the_first_bad_line_alone_is_told() {
        let text = "# plaza\r\n\r\nnode 0 20 4\nnode 0 20\nflows\n";
        let expected = "line 4: GAP must be a number from 0 to 65535";
        assert_eq!(told(text), expected);
        let after = "\n".repeat(60_000);
        assert_eq!(
            told(&format!("{after}x")),
            "line 60001: neither node nor flow"
        );
    }

    #[test]
    fn a_text_has_at_most_65535_bytes() {
        let text = "\n".repeat(LONGEST_TEXT);
        assert_eq!(assemble(text.as_bytes()), Ok(vec![END]));
        for text in [
            format!("{text}\n"),
            format!("x{text}"),
            "x".repeat(1_000_000),
        ] {
            assert_eq!(told(&text), "assemble: more than 65535 bytes");
        }
    }

    #[test]
    fn a_listing_is_assembled_to_the_plan_again() {
        let mut random = Random::from_seed(41);
        let plans = std::iter::repeat_with(|| random_plan(&mut random));
        let accepted = plans.filter(|plan| read_plan(plan).is_ok());
        for plan in accepted.take(5000) {
            let text = listing(&plan);
            assert_eq!(assemble(text.as_bytes()), Ok(plan), "{text}");
        }
    }
}
