//! What test_calls prints for each line of its input.

use crate::programs::output::{alter, decimal, numbers, site_of_hex, verdict};
use crate::second::calls::{admission, release, sender, COUNTERS};
use crate::second::rules::{
    refused, Flow, Refusal, Site, FLOW_NUMBERS, OF_16_BITS, OF_32_BITS, OF_8_BITS,
};
use crate::second::slots::{slot, start};

/// One more than has to be lent, so that a list too long by one can be lent too.
const MOST_COUNTERS: u64 = COUNTERS as u64 + 1;
const MOST_ARRIVALS: u64 = FLOW_NUMBERS as u64 + 1;

/// What lasts from line to line.
pub struct Desk {
    site: Site,
    counters: Vec<u32>,
}

impl Desk {
    pub fn new() -> Desk {
        Desk {
            site: Site::empty(),
            counters: vec![0; MOST_COUNTERS as usize],
        }
    }

    pub fn site(&self) -> &Site {
        &self.site
    }

    pub fn line(&mut self, line: &str) -> Result<String, String> {
        let mut signs = line.chars();
        let (first, rest) = (signs.next(), signs.as_str());
        match first {
            Some('P') => self.site = site_of_hex(rest)?,
            Some('X') => alter(&mut self.site, &numbers(rest)?),
            Some('C') if rest.is_empty() => self.fill_with_different_numbers(),
            Some('C') => self.fill(rest)?,
            Some('A') => return self.admission(rest),
            Some('R') => return self.release(rest),
            Some('L') => return self.lookup(rest),
            Some('K') => self.set_counter(first_numbers(rest)?),
            Some('T') => return Ok(self.start(first_numbers(rest)?)),
            Some('S') => return self.slot(rest),
            _ => return Err("no call".to_string()),
        }
        Ok(String::new())
    }

    fn fill_with_different_numbers(&mut self) {
        for (counter, less) in self.counters.iter_mut().zip((0..).step_by(7)) {
            *counter = u32::MAX - less;
        }
    }

    fn fill(&mut self, rest: &str) -> Result<(), String> {
        let [value] = operands(rest, [OF_32_BITS])?;
        self.counters.fill(value as u32);
        Ok(())
    }

    fn admission(&mut self, rest: &str) -> Result<String, String> {
        let most = [MOST_COUNTERS, OF_8_BITS, OF_8_BITS, OF_8_BITS, OF_16_BITS];
        let [lent, number, entry, rate, deadline] = operands(rest, most)?;
        let flow = Flow {
            number: number as usize,
            entry: entry as usize,
            rate,
            deadline,
        };
        Ok(self.change(lent, |site, counters| admission(site, counters, flow)))
    }

    fn release(&mut self, rest: &str) -> Result<String, String> {
        let [lent, number] = operands(rest, [MOST_COUNTERS, OF_8_BITS])?;
        let number = number as usize;
        Ok(self.change(lent, |site, counters| release(site, counters, number)))
    }

    /// The answer, and every counter that is not what it was before the call.
    fn on_counters(
        &mut self,
        lent: u64,
        call: impl FnOnce(&mut Site, &mut [u32]) -> Result<(), Refusal>,
    ) -> [String; 2] {
        let before = self.counters.clone();
        let answer = call(&mut self.site, &mut self.counters[..lent as usize]);
        let cells = decimal(&changed_counters(&before, &self.counters).concat());
        [verdict(answer), format!("counters{cells}\n")]
    }

    /// As `on_counters`, with every entry of the site that is not what it was.
    fn change(
        &mut self,
        lent: u64,
        call: impl FnOnce(&mut Site, &mut [u32]) -> Result<(), Refusal>,
    ) -> String {
        let before = self.site.clone();
        let [answer, counters] = self.on_counters(lent, call);
        let entries = decimal(&changed_entries(&before, &self.site).concat());
        format!("{answer} site{entries} {counters}")
    }

    /// An index that no counter has changes nothing.
    fn set_counter(&mut self, [index, value]: [u64; 2]) {
        if let Some(counter) = self.counters.get_mut(index as usize) {
            *counter = value as u32;
        }
    }

    fn start(&mut self, [lent]: [u64; 1]) -> String {
        if lent > MOST_COUNTERS {
            return String::new();
        }
        let call = |site: &mut Site, counters: &mut [u32]| start(site, counters);
        self.on_counters(lent, call).join(" ")
    }

    fn slot(&mut self, rest: &str) -> Result<String, String> {
        let [lent, lent_arrivals, number] = first_numbers(rest)?;
        if lent > MOST_COUNTERS || lent_arrivals > MOST_ARRIVALS {
            return Ok(String::new());
        }
        let mut arrivals = [0; MOST_ARRIVALS as usize];
        for pair in digits(rest)[3..].chunks_exact(2) {
            if let Some(arrival) = arrivals.get_mut(pair[0] as usize) {
                *arrival = pair[1] as u16;
            }
        }
        let arrivals = &arrivals[..lent_arrivals as usize];
        let call =
            |site: &mut Site, counters: &mut [u32]| slot(site, counters, arrivals, number as u32);
        Ok(self.on_counters(lent, call).join(" "))
    }

    fn lookup(&self, rest: &str) -> Result<String, String> {
        let [parent, slot] = operands(rest, [OF_8_BITS, OF_32_BITS])?;
        let answer = sender(&self.site, parent as usize, slot);
        let answer = answer.map_or_else(refused, |child| format!("sender {child}"));
        Ok(format!("{answer}\n"))
    }
}

/// As many numbers as there are limits, none above its own.
fn operands<const N: usize>(text: &str, most: [u64; N]) -> Result<[u64; N], String> {
    let numbers: [u64; N] = numbers(text)?
        .try_into()
        .map_err(|_| format!("not {N} operands"))?;
    if numbers
        .iter()
        .zip(most)
        .any(|(&number, most)| number > most)
    {
        return Err("an operand too large".to_string());
    }
    Ok(numbers)
}

/// The numbers of a line whatever stands between them, each of its first ten digits after the leading zeros.
fn digits(text: &str) -> Vec<u64> {
    let runs = text.split(|sign: char| !sign.is_ascii_digit());
    let number = |run: &str| {
        let run = run.trim_start_matches('0');
        let read = format!("0{}", &run[..run.len().min(10)]);
        read.parse().expect("ten digits are a number of 64 bits")
    };
    runs.filter(|run| !run.is_empty()).map(number).collect()
}

/// The first numbers of a line, of which none may be missing.
fn first_numbers<const N: usize>(text: &str) -> Result<[u64; N], String> {
    let numbers = digits(text);
    let first = numbers.first_chunk().ok_or(format!("not {N} operands"))?;
    Ok(*first)
}

/// Every entry as field, index and value, by the numbers that test_altered uses, fields rising, then indexes.
fn entries(site: &Site) -> Vec<[u64; 3]> {
    let fields: [&[u64]; 10] = [
        &[site.links],
        &site.parents,
        &site.capacities,
        &site.gaps,
        &site.offsets,
        &site.periods,
        &site.states,
        &site.entries,
        &site.rates,
        &site.deadlines,
    ];
    let entries_of = |(field, list): (u64, &&[u64])| -> Vec<[u64; 3]> {
        (0..)
            .zip(list.iter())
            .map(|(index, &value)| [field, index, value])
            .collect()
    };
    (0..).zip(&fields).flat_map(entries_of).collect()
}

pub fn changed_entries(before: &Site, after: &Site) -> Vec<[u64; 3]> {
    let pairs = entries(before).into_iter().zip(entries(after));
    pairs
        .filter(|(old, new)| old != new)
        .map(|(_, new)| new)
        .collect()
}

fn changed_counters(before: &[u32], after: &[u32]) -> Vec<[u64; 2]> {
    let pairs = before.iter().zip(after).enumerate();
    pairs
        .filter(|(_, (old, new))| old != new)
        .map(|(index, (_, &new))| [index as u64, u64::from(new)])
        .collect()
}

#[cfg(test)]
mod tests {
    use super::*;

    #[test]
    fn changed_entries_are_numbered_as_altered_ones() {
        let all = entries(&Site::empty());
        assert_eq!(all.len(), 1 + 5 * 63 + 4 * 64);
        for [field, index, _] in all {
            let mut site = Site::empty();
            let change = [field, index, 200];
            alter(&mut site, &change);
            assert_eq!(changed_entries(&Site::empty(), &site), [change]);
        }
    }
}
