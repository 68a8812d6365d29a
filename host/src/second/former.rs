//! The judgement of document 01 before U2 of 02, which went by wanted gaps.

use crate::second::bytes::read_assigned;
use crate::second::rules::{Refusal, Site};

/// The site with its wanted gaps in the place of its periods: by it widths and the sums that 12, 13, 17 and 18 judge are the
/// former ones.
pub fn by_wanted_gaps(site: &Site) -> Site {
    Site {
        periods: site.gaps.clone(),
        ..site.clone()
    }
}

/// A plan judged by wanted gaps.
pub fn read_formerly(plan: &[u8]) -> Result<Site, Refusal> {
    let site = read_assigned(plan)?;
    let formerly = by_wanted_gaps(&site);
    formerly.check_widths()?;
    formerly.check_deadlines()?;
    Ok(site)
}

#[cfg(test)]
mod tests {
    use super::*;
    use crate::random::damage::random_plan;
    use crate::random::generator::Random;
    use crate::second::bytes::read_plan;

    /// Whether 12 or 13 refused it, at this place or a lower one.
    fn is_judged_before(before: Refusal, now: Refusal) -> bool {
        let of_flows = [12, 13].contains(&before.number) && before.number <= now.number;
        of_flows && (before.number < now.number || before.place <= now.place)
    }

    /// 02, U2: all plans accepted before remain so. Others that 12 or 13 refused are accepted now, or refused by 12 or 13 still.
    #[test]
    fn a_plan_accepted_before_reads_to_the_same_site() {
        let mut random = Random::from_seed(30);
        let [mut remain, mut come] = [0; 2];
        for _ in 0..6000 {
            let plan = random_plan(&mut random);
            match (read_formerly(&plan), read_plan(&plan)) {
                (Ok(site), now) => {
                    assert_eq!(now, Ok(site));
                    remain += 1;
                }
                (Err(before), Ok(_)) => {
                    assert!([12, 13].contains(&before.number), "{before:?}");
                    come += 1;
                }
                (Err(before), Err(now)) => {
                    assert!(
                        before == now || is_judged_before(before, now),
                        "{before:?} {now:?}"
                    );
                }
            }
        }
        assert!(remain >= 1000 && come >= 500, "{remain} {come}");
    }
}
