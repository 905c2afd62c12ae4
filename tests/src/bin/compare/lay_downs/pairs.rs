//! Two faults at once: the one that is judged first decides.

use gvrs_tests::page::Page;
use gvrs_tests::prng::Prng;

use super::ask::as_numbers;
use super::draft::Draft;
use super::faults::{self, faulty, Change, Fault, Kind, KINDS};
use crate::damage::Damage;
use crate::run::Run;

const SORT: &str = "two faults";

/// Drafts tried for one pair, as not every fault can be made of every draft.
const MOST_TRIES: usize = 4000;

pub fn section(run: &mut Run, random: &mut Prng) {
    let faults = faults::all();
    let of_kind = |kind: Kind| faults.iter().filter(|fault| fault.kind == kind).copied().collect();
    let long = (!run.small).then(|| long_draft(random));
    for (number, earlier) in KINDS.into_iter().enumerate() {
        for later in &KINDS[number + 1..] {
            run.lay_downs.want_pair((earlier.name(), later.name()));
            let pair: [Vec<Fault>; 2] = [of_kind(earlier), of_kind(*later)];
            if earlier == Kind::FileCeiling || *later == Kind::FileCeiling {
                if let Some(draft) = &long {
                    let times = if earlier == Kind::Input { 8 } else { 2 };
                    tries(run, &pair, times, &|_| draft.clone(), random);
                }
            } else {
                let times = run.times(100);
                tries(run, &pair, times, &Draft::at_random, random);
            }
        }
    }
}

/// A draft whose file would pass the ceiling: 16 tiles of 1,048,576 bytes.
fn long_draft(random: &mut Prng) -> Draft {
    let page = Page::of_sides([65_536, 64], [4096, 64]);
    Draft::of_all_tiles(page, random)
}

fn tries(
    run: &mut Run,
    [earlier, later]: &[Vec<Fault>; 2],
    times: usize,
    draft: &dyn Fn(&mut Prng) -> Draft,
    random: &mut Prng,
) {
    let mut left = times;
    for _ in 0..MOST_TRIES {
        if left == 0 {
            break;
        }
        let (one, other) = (random.pick(earlier), random.pick(later));
        if can_pair(&one, &other) && one_try(run, &one, &other, &draft(random), random) {
            left -= 1;
        }
    }
}

/// False where the two faults can't be made of this draft.
fn one_try(run: &mut Run, one: &Fault, other: &Fault, draft: &Draft, random: &mut Prng) -> bool {
    let Some((given, room)) = faulty(draft, &[*one, *other], random) else {
        return false;
    };
    let earlier_refused = if is_damage(one) && is_damage(other) {
        // One damage may undo the other.
        let laid = run.lay_down(SORT, &given, room);
        laid.is_some_and(|laid| as_numbers(&laid) == (one.number, 0))
    } else {
        let what = format!("{}, and {}", one.sentence, other.sentence);
        run.refused(SORT, &what, (&given, room), one.number)
    };
    run.lay_downs.pair((one.kind.name(), other.kind.name()), earlier_refused);
    true
}

fn is_damage(fault: &Fault) -> bool {
    matches!(fault.change, Change::Front(_))
}

/// A front that is cut short can't be longer, nor cut twice.
fn can_pair(one: &Fault, other: &Fault) -> bool {
    let changes_length = |fault: &Fault| {
        matches!(fault.change, Change::Front(Damage::Length(_)) | Change::Longer(_))
    };
    !(changes_length(one) && changes_length(other))
}
