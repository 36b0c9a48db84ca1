//! Scripts made for shared borrows through shared links, and for what is done
//! afterwards with the variables that are passed and with those that are
//! recorded.

use crate::common::settings::Settings;
use crate::each_layer::{compare, Make, Scripts};
use crate::layers::{AUTHOR, FAULTS};
use crate::sets::Sets;
use reference::Generator;

/// A part of the cases that others have, as each is run with two readings, and
/// called: of both kinds together more under the language's own set.
fn settings(sets: Sets) -> Settings {
    let percent = match sets {
        Sets::BASE => 60,
        Sets::LARGEST => 5,
        _ => 20,
    };
    Settings::from_environment().share(percent)
}

fn scripts(name: &'static str, make: Make, sets: Sets) -> Scripts<'static> {
    Scripts {
        name,
        make,
        sets,
        settings: settings(sets),
    }
}

fn accepted(sets: Sets) {
    let make: Make = Generator::through_shared_rows;
    let scripts = scripts("through shared links", make, sets);
    let layers = compare(scripts, (&[0], &[]), |_, _| ());
    layers.ran_unchecked.report(&settings(sets), &[0]);
}

/// A shared link that is passed leaves room for the new one, so that 42 is rare
/// in these scripts.
fn nearly_accepted(sets: Sets) {
    let make: Make = Generator::near_through_shared_rows;
    let rare: &[u32] = match sets {
        Sets::BASE => &[42],
        // Too few cases for the others.
        _ => &[41, 42, 43],
    };
    let mut expected = AUTHOR.to_vec();
    expected.retain(|number| !rare.contains(number));
    let scripts = scripts("nearly through shared links", make, sets);
    let layers = compare(scripts, (&expected, rare), |_, _| ());
    layers.ran_unchecked.report(&settings(sets), &FAULTS);
}

mod scripts_through_shared_links_are_treated_alike {
    crate::under_each_roomy_set!(super::accepted);
}

mod scripts_nearly_through_shared_links_are_treated_alike {
    crate::under_each_roomy_set!(super::nearly_accepted);
}
