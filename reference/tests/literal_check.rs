//! The check compared with a literal one, on generated rows and on all small
//! scripts with a choice.

#[path = "literal_check/judge.rs"]
mod judge;

use judge::{check_by, literal_check, Recording, Seen, Using};
use reference::{check, small_choices, Generator, Limits};

type Make = fn(&mut Generator, &mut Vec<u32>);

/// Both checks answer the same. What was seen is told for accepted scripts.
fn agree(limits: Limits, rows: &[u32]) -> Option<Seen> {
    let answer = check(limits, rows).map_err(|refusal| (refusal.number, refusal.place));
    let literal = literal_check(limits, rows);
    let terms = literal.as_ref().map(|(terms, _)| *terms);
    assert_eq!(
        answer,
        terms.map_err(|refused| *refused),
        "{:?}",
        &rows[..rows.len().min(200)]
    );
    literal.ok().map(|(_, seen)| seen)
}

fn agrees_under(limits: Limits, seed: u64, count: usize, make: Make) {
    let mut generator = Generator::with_limits(seed, limits);
    let mut rows = Vec::new();
    for _ in 0..count {
        make(&mut generator, &mut rows);
        agree(limits, &rows);
    }
}

/// Under the set of the program and under the largest.
fn agrees(seed: u64, count: usize, make: Make) {
    agrees_under(Limits::BASE, seed, count, make);
    agrees_under(Limits::LARGEST, seed, count / 10, make);
}

#[test]
fn the_check_agrees_on_accepted_scripts() {
    agrees(21, 5_000, Generator::accepted_rows);
}

#[test]
fn the_check_agrees_on_near_misses() {
    agrees(22, 20_000, Generator::near_miss_rows);
}

#[test]
fn the_check_agrees_on_wild_rows() {
    agrees(23, 20_000, Generator::wild_rows);
}

#[test]
fn the_check_agrees_on_mixed_rows() {
    agrees(24, 10_000, Generator::mixed_rows);
}

#[test]
fn the_check_agrees_under_any_set() {
    let mut sets = Generator::new(25);
    for seed in 0..200 {
        let limits = sets.limits_within();
        agrees_under(limits, seed, 30, Generator::accepted_rows);
        agrees_under(limits, seed, 60, Generator::mixed_rows);
        agrees_under(limits, seed, 20, Generator::through_shared_rows);
        agrees_under(limits, seed, 40, Generator::near_through_shared_rows);
        agrees_under(limits, seed, 20, Generator::last_uses_rows);
        agrees_under(limits, seed, 40, Generator::near_last_uses_rows);
    }
}

#[test]
fn the_check_agrees_on_joined_rows() {
    agrees(26, 10_000, Generator::joined_rows);
    agrees(27, 30_000, Generator::near_joined_rows);
}

#[test]
fn the_check_agrees_on_rows_through_shared_links() {
    agrees(29, 10_000, Generator::through_shared_rows);
    agrees(30, 30_000, Generator::near_through_shared_rows);
}

#[test]
fn the_check_agrees_on_rows_about_last_uses() {
    agrees(39, 15_000, Generator::last_uses_rows);
    agrees(40, 40_000, Generator::near_last_uses_rows);
}

/// The rules read in another way.
type Other = (Recording, Using);

/// How many of these scripts are accepted and how many refused, and how many of
/// each a check that reads the rules in another way would answer otherwise.
fn decided(seed: u64, count: usize, make: Make, other: Other) -> [[usize; 2]; 2] {
    let mut generator = Generator::new(seed);
    let mut rows = Vec::new();
    let mut counts = [[0; 2]; 2];
    for _ in 0..count {
        make(&mut generator, &mut rows);
        let rule = (Recording::Rule, Using::Rule);
        let [rule, other] = [rule, other].map(|(recording, using)| {
            let answer = check_by(recording, using, Limits::BASE, &rows);
            answer.map(|(terms, _)| terms)
        });
        let counts = &mut counts[usize::from(rule.is_err())];
        counts[0] += 1;
        counts[1] += usize::from(rule != other);
    }
    counts
}

/// Most answers on scripts with shared borrows through shared links are others
/// where these are recorded against the place that is named, and many where the
/// first of the links counts.
#[test]
fn what_is_recorded_decides() {
    let count = 5_000;
    for (other, share) in [(Recording::Named, 70), (Recording::FirstLink, 30)] {
        let due = |all: usize| all * share / 100;
        let other = (other, Using::Rule);
        let [accepted, refused] = decided(31, count, Generator::through_shared_rows, other);
        assert_eq!((accepted[0], refused[0]), (count, 0));
        assert!(accepted[1] > due(count), "{other:?}: {accepted:?}");
        let make = Generator::near_through_shared_rows;
        let [accepted, refused] = decided(32, count, make, other);
        for [all, decided] in [accepted, refused] {
            assert!(all > count / 10, "{other:?}: {accepted:?}, {refused:?}");
            assert!(decided > due(all), "{other:?}: {accepted:?}, {refused:?}");
        }
    }
}

/// Of the scripts about last uses, so many in a thousand accepted ones and in a
/// thousand near ones are answered otherwise where the rule is misread.
#[test]
fn what_is_in_use_decides() {
    let count = 6_000;
    for (using, due) in [
        (Using::Scope, [850, 700]),
        (Using::NamedOnly, [0, 60]),
        (Using::OneHolder, [0, 10]),
        (Using::Circles, [25, 25]),
        (Using::RowOrder, [100, 100]),
        (Using::OthersOnly, [0, 15]),
        (Using::LetsNameNothing, [0, 15]),
    ] {
        let other = (Recording::Rule, using);
        let [accepted, refused] = decided(41, count, Generator::last_uses_rows, other);
        assert_eq!((accepted[0], refused[0]), (count, 0));
        let near = decided(42, count, Generator::near_last_uses_rows, other);
        let near = near[0][1] + near[1][1];
        for (decided, due) in [accepted[1], near].into_iter().zip(due) {
            assert!(
                1_000 * decided >= due * count,
                "{using:?}: {accepted:?}, {near}"
            );
        }
    }
}

/// Only a choice brings about that variables hold each other: without one it
/// makes no difference whether such keep themselves in use.
#[test]
fn without_a_choice_none_hold_each_other() {
    let makes: [Make; 3] = [
        Generator::last_uses_rows,
        Generator::near_last_uses_rows,
        Generator::wild_rows,
    ];
    let mut generator = Generator::new(43);
    let mut rows = Vec::new();
    let mut compared = 0;
    for make in makes.into_iter().cycle().take(30_000) {
        make(&mut generator, &mut rows);
        if rows.chunks(5).all(|row| row[0] != 12) {
            compared += 1;
            let [rule, circles] = [Using::Rule, Using::Circles].map(|using| {
                let answer = check_by(Recording::Rule, using, Limits::BASE, &rows);
                answer.map(|(terms, _)| terms)
            });
            assert_eq!(rule, circles, "{:?}", &rows[..200]);
        }
    }
    assert!(compared > 10_000, "{compared}");
}

/// What is passed, and what is recorded, in accepted scripts of this kind.
#[test]
fn what_is_passed_shows() {
    let mut generator = Generator::new(33);
    let mut rows = Vec::new();
    let mut counts = [0; 4];
    for _ in 0..2_000 {
        generator.through_shared_rows(&mut rows);
        let seen = agree(Limits::BASE, &rows).expect("accepted");
        let seen = [
            seen.through_shared,
            seen.through_several,
            seen.follows_remain,
            seen.recorded_several,
        ];
        for (count, seen) in counts.iter_mut().zip(seen) {
            *count += u32::from(seen > 0);
        }
    }
    let due = [1_800, 1_000, 800, 200];
    let often = counts.iter().zip(due).all(|(count, due)| *count > due);
    assert!(often, "{counts:?}");
}

/// Most accepted scripts with much to join come to what joining is about.
#[test]
fn what_is_joined_shows() {
    let mut generator = Generator::new(28);
    let mut rows = Vec::new();
    let mut counts = [0; 5];
    for _ in 0..2_000 {
        generator.joined_rows(&mut rows);
        let seen = agree(Limits::BASE, &rows).expect("accepted");
        let seen = [
            seen.moved_in_one,
            seen.borrowed_otherwise,
            seen.several_written,
            seen.several_written_borrows,
            seen.met_again,
        ];
        for (count, seen) in counts.iter_mut().zip(seen) {
            *count += u32::from(seen > 0);
        }
    }
    let due = [300, 300, 100, 15, 50];
    let often = counts.iter().zip(due).all(|(count, due)| *count > due);
    assert!(often, "{counts:?}");
}

#[test]
fn the_check_agrees_on_all_small_choices() {
    let limits = Limits {
        terms: 64,
        variables: 8,
        boxes: 8,
        levels: 8,
    };
    let mut rows = Vec::new();
    let mut accepted = 0;
    let count = small_choices(&mut |terms| {
        rows.clear();
        rows.extend_from_slice(terms.as_flattened());
        rows.resize(limits.row_numbers(), 0);
        accepted += u32::from(agree(limits, &rows).is_some());
    });
    assert_eq!((count, accepted), (980_452, 234_018));
}
