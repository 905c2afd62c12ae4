//! Plans of new starts at random, for squeezing a page (Req 11).

use crate::prng::Prng;

/// Start and length of a record.
pub type Place = (usize, usize);

/// A plan that is accepted: each start drawn from what the rules allow, which is always something.
pub fn accepted_plan(header_end: usize, kept: &[Place], random: &mut Prng) -> Vec<u64> {
    let style = random.below(4);
    let mut end = header_end;
    let mut plan = Vec::new();
    for (old, length) in kept {
        let start = match (old - end, style) {
            (0 | 8, _) | (_, 0) => end,
            (_, 1) => *old,
            (free, _) => match random.below(5) {
                0 | 1 => end,
                2 => *old,
                3 => end + 16,
                _ => end + 8 * random.between(2, free / 8),
            },
        };
        plan.push(start as u64);
        end = start + length;
    }
    plan
}

/// The old starts: accepted on every open page.
pub fn staying_plan(kept: &[Place]) -> Vec<u64> {
    kept.iter().map(|(old, _)| *old as u64).collect()
}

/// A number near a power of two at which sums or fields might wrap.
pub fn near_a_power(random: &mut Prng) -> u64 {
    let power = random.pick(&[25, 31, 32, 33, 63, 64]);
    let base = 1u128 << power;
    let below = [8, 16, 24, 56, 64, 0].map(|less| base - less);
    let any = if random.one_in(4) { base + 8 } else { random.pick(&below) };
    u64::try_from(any).unwrap_or(u64::MAX - 7)
}

/// One start changed, one dropped or one more: mostly refused.
pub fn changed_plan(plan: &[u64], random: &mut Prng) -> Vec<u64> {
    let mut plan = plan.to_vec();
    if plan.is_empty() {
        return vec![random.long()];
    }
    let at = random.below(plan.len());
    match random.below(8) {
        0 => drop(plan.pop()),
        1 => plan.push(plan[at] + 64),
        2 => plan[at] = near_a_power(random),
        3 => plan[at] = plan[at].wrapping_add(near_a_power(random)),
        4 => plan[at] = plan[at].saturating_sub(8),
        5 => plan[at] += 8,
        6 => plan[at] += random.between(1, 7) as u64,
        _ => {
            let other = random.below(plan.len());
            plan.swap(at, other);
        }
    }
    plan
}

#[cfg(test)]
mod tests {
    use super::*;
    use crate::build::bytes_of;
    use crate::second::squeeze::{is_accepted, kept_of, tight_plan};
    use crate::worn_page::open_worn_page;

    /// Plans that are drawn to be accepted are, and so are the tight one and that of the old starts.
    #[test]
    fn drawn_plans_are_accepted() {
        let mut refused = 0;
        for seed in 0..400 {
            let random = &mut Prng::new(seed);
            let page = bytes_of(&open_worn_page(random));
            let (end, kept) = kept_of(&page).expect("an open page");
            let plan = accepted_plan(end, &kept, random);
            for plan in [&plan, &tight_plan(end, &kept), &staying_plan(&kept)] {
                assert!(is_accepted(end, &kept, plan), "seed {seed}: {plan:?}");
            }
            let changed = changed_plan(&plan, random);
            refused += usize::from(!is_accepted(end, &kept, &changed));
        }
        assert!(refused > 200, "{refused} changed plans refused");
    }
}
