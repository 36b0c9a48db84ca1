//! Scripts made for borrows that end at their last use, and for such that are
//! used again: later, in the same term, in the term around, in the other branch
//! or by way of other holders. It is counted on how many of them the last uses
//! decide.

use crate::common::due;
use crate::common::settings::Settings;
use crate::each_layer::{compare, Make, Scripts};
use crate::layers::{Layers, AUTHOR, FAULTS};
use crate::sets::Sets;
use reference::Generator;
use roomscript::Limits;
use std::io::{self, Write};

/// More cases than others have under the language's own set, so that the last
/// uses decide on 400,000 of both kinds together.
fn settings(sets: Sets) -> Settings {
    let percent = match sets {
        Sets::BASE => 120,
        Sets::LARGEST => 5,
        _ => 20,
    };
    Settings::from_environment().share(percent)
}

/// How often, in a hundred cases, the last uses decide at least. With the few
/// variables of the small set there is less to hold.
fn share(sets: Sets) -> u64 {
    match sets {
        Sets::SMALL => 75,
        _ => 84,
    }
}

/// Whether the last uses decide: a bar is asked of a variable that has a holder
/// in scope. By scope such a bar is 34 or 35, and up to there the check goes the
/// same way.
pub fn decide(limits: Limits, rows: &[u32]) -> bool {
    let by_scope = reference::check_by_scope(due::set(limits), rows);
    by_scope.is_err_and(|refusal| [34, 35].contains(&refusal.number))
}

fn compared(name: &str, make: Make, sets: Sets, numbers: (&[u32], &[u32])) -> Layers {
    let settings = settings(sets);
    let scripts = Scripts {
        name,
        make,
        sets,
        settings,
    };
    let mut decided = 0;
    let layers = compare(scripts, numbers, |limits, rows| {
        decided += u64::from(decide(limits, rows));
    });
    let shown = format!("last uses decide in {name}, {}: {decided}", sets.name());
    let _ = writeln!(io::stdout(), "{shown}");
    assert!(100 * decided >= share(sets) * settings.cases, "{shown}");
    layers
}

fn accepted(sets: Sets) {
    let make: Make = Generator::last_uses_rows;
    let layers = compared("last uses", make, sets, (&[0], &[]));
    layers.ran_unchecked.report(&settings(sets), &[0]);
}

fn nearly_accepted(sets: Sets) {
    let make: Make = Generator::near_last_uses_rows;
    let rare: &[u32] = match sets {
        Sets::BASE => &[42],
        // Too few cases for the others.
        _ => &[38, 40, 41, 42, 43],
    };
    let mut expected = AUTHOR.to_vec();
    expected.retain(|number| !rare.contains(number));
    let layers = compared("used again", make, sets, (&expected, rare));
    layers.ran_unchecked.report(&settings(sets), &FAULTS);
}

/// The cases under the language's own set and the share that is due in them
/// make up the number that is due.
#[test]
fn last_uses_decide_often_enough() {
    let all = Settings {
        cases: 200_000,
        ..Settings::from_environment()
    };
    let cases = all.share(120).cases;
    assert!(2 * cases * share(Sets::BASE) / 100 >= 400_000, "{cases}");
}

mod scripts_about_last_uses_are_treated_alike {
    crate::under_each_roomy_set!(super::accepted);
}

mod scripts_with_borrows_used_again_are_treated_alike {
    crate::under_each_roomy_set!(super::nearly_accepted);
}
