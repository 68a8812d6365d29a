//! Damage to plans, by which all refusals of reading are met.

use crate::random::generator::Random;
use crate::random::plans::random_commands;
use crate::second::bytes::{flow_command, node_command, END, NODE};
use crate::second::rules::MOST_LINKS;

/// The bytes of a random plan, in about half of all cases damaged.
pub fn random_plan(random: &mut Random) -> Vec<u8> {
    let mut commands = random_commands(random);
    if random.chance(30) {
        if commands.is_empty() {
            commands.push(random_flow_command(random));
        } else {
            damage_commands(random, &mut commands);
        }
    }
    let mut bytes = commands.concat();
    bytes.push(END);
    if random.chance(25) {
        damage_bytes(random, &mut bytes);
    }
    bytes
}

/// The bytes of a random plan without damage.
pub fn undamaged_plan(random: &mut Random) -> Vec<u8> {
    let mut bytes = random_commands(random).concat();
    bytes.push(END);
    bytes
}

/// A FLOW that stands alone: 5 or 6 refuses it.
fn random_flow_command(random: &mut Random) -> Vec<u8> {
    let number = random.pick(&[0, 0, 63, 63, 64, 255]);
    let entry = random.pick(&[0, 1, 1, 255]);
    let rate = random.pick(&[0, 1, 1, 255]);
    let deadline = random.pick(&[0, 1, 1, 65_535]);
    flow_command(number, entry, rate, deadline)
}

/// A change of commands, of which there is at least one.
pub fn damage_commands(random: &mut Random, commands: &mut Vec<Vec<u8>>) {
    let (first, second) = (random.index(commands.len()), random.index(commands.len()));
    let deadline = random.between(1, 65_535);
    match random.between(0, 11) {
        0 => commands.swap(first, second),
        1 => commands.insert(second, commands[first].clone()),
        2 => commands.push(node_command(0, 100, deadline.min(1024))),
        3 => commands.insert(0, flow_command(0, 1, 1, deadline)),
        4 => commands.clear(),
        5 => {
            commands.remove(first);
        }
        6 => commands[first][0] = random.pick(&[0x00, 0x01, 0x02, 0x03, 0x11, 0xFE, 0xFF]),
        _ => damage_operands(random, commands),
    }
}

/// One to three operands of a command at a limit or beyond.
fn damage_operands(random: &mut Random, commands: &mut [Vec<u8>]) {
    let any = random.index(commands.len());
    let last = commands.len() - 1;
    let index = random.pick(&[any, any, last, last.min(MOST_LINKS)]);
    for _ in 0..random.pick(&[1, 1, 1, 2, 3]) {
        let widths: &[usize] = if commands[index][0] == NODE {
            &[1, 2, 2]
        } else {
            &[1, 1, 1, 2]
        };
        let operand = random.index(widths.len());
        let start = 1 + widths[..operand].iter().sum::<usize>();
        let width = widths[operand];
        let value = random_operand(random, width, index);
        commands[index][start..start + width].copy_from_slice(&value.to_le_bytes()[..width]);
    }
}

/// The index of a NODE is one below its own number.
fn random_operand(random: &mut Random, width: usize, index: usize) -> u64 {
    let index = index as u64;
    if width == 2 {
        return random.pick(&[0, 1, 255, 256, 1023, 1024, 1025, 32_768, 65_534, 65_535]);
    }
    random.pick(&[0, 1, 62, 63, 64, 65, 254, 255, index, index + 1, index + 2])
}

/// A change of bytes, of which there is at least one.
pub fn damage_bytes(random: &mut Random, bytes: &mut Vec<u8>) {
    let place = random.index(bytes.len());
    match random.between(0, 12) {
        0..=2 => bytes[place] = random.byte(),
        3 => bytes[place] ^= 1 << random.between(0, 7),
        4..=5 => {
            bytes.remove(place);
        }
        6..=7 => bytes.insert(place, random.pick(&[0, 1, 2, 255, 17])),
        8..=9 => bytes.truncate(place),
        10..=11 => append(random, bytes),
        _ => *bytes = noise(random),
    }
}

fn append(random: &mut Random, bytes: &mut Vec<u8>) {
    let most = random.pick(&[1, 1, 6, 30, 1000]);
    for _ in 0..random.between(1, most) {
        let byte = random.byte();
        bytes.push(random.pick(&[0, 1, 2, END, byte]));
    }
}

/// Bytes that are no plan, made of commands' first bytes and small numbers.
fn noise(random: &mut Random) -> Vec<u8> {
    let length = random.between(0, 40);
    (0..length)
        .map(|_| random.pick(&[0, 0, 0, 1, 1, 1, 2, 2, 3, 4, 9, 17, 64, END]))
        .collect()
}

#[cfg(test)]
mod tests {
    use super::*;
    use crate::second::bytes::{read_plan, FLOW};

    /// END alone, END with bytes behind it, and a FLOW with no NODE that 5 or 6 refuses.
    #[test]
    fn random_plans_are_near_the_site_without_links() {
        let mut random = Random::from_seed(36);
        let [mut alone, mut behind, mut by_5, mut by_6] = [0; 4];
        for _ in 0..6000 {
            let plan = random_plan(&mut random);
            let answer = read_plan(&plan).map(|site| site.links);
            let answer = answer.map_err(|refusal| (refusal.number, refusal.place));
            match (plan.first(), answer) {
                (Some(&END), Ok(0)) => alone += 1,
                (Some(&END), answer) => {
                    assert_eq!(answer, Err((10, 1)));
                    behind += 1;
                }
                (Some(&FLOW), Err((5, 0))) => by_5 += 1,
                (Some(&FLOW), Err((6, 0))) => by_6 += 1,
                (_, answer) => assert_ne!(answer, Ok(0)),
            }
        }
        assert!(alone >= 150 && behind >= 10, "{alone} {behind}");
        assert!(by_5 >= 20 && by_6 >= 20, "{by_5} {by_6}");
    }
}
