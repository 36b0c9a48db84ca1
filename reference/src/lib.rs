//! Independent reference program for room scripts, written apart, from the
//! requirement behind the language alone. `LANGUAGE 3.19` in a comment cites
//! the paragraph of `docs/LANGUAGE.md` that states the rule. It is a second
//! opinion on every answer and on what lent memory holds afterwards, and a
//! rival in speed.
//!
//! | Layer | Function | Numbers |
//! |---|---|---|
//! | form | [`read`] | 74, 1, 2, 10 to 19 with a byte offset |
//! | form | [`judge_rows`] | 74, 2, 12 to 19 with a row |
//! | form | [`length`] | 74, 2, 11, 12 to 19 with a row |
//! | form | [`write()`] | 74, 2, 11, 12 to 19 with a row, 5 |
//! | ownership | [`check`] | 74, 2, 12 to 19, 30 to 43 with a term |
//! | machine | [`run_unchecked`] | 74, 2 to 4, 12 to 19, 60 to 63 with a term |
//! | check, then machine | [`run`] | 74, 2 to 4, 12 to 19, 30 to 43 with a term |
//! | program | [`roomcheck`] | the printed line |
//!
//! Each function but the last takes a set of [`Limits`] first; the program has
//! [`Limits::BASE`].
//!
//! Scripts have a version, 1 or 2; choices and sums are of version 2. [`read`]
//! is told the newest version to know and answers that of the script. [`length`]
//! and [`write()`] are told which is to be written: the one answers how many
//! bytes the other fills. The others take rows of every version.
//!
//! # Generators
//!
//! [`Generator`] makes scripts, rows, readings and inputs from a seed, for one
//! set of limits, the same ones on every machine. Most scripts are small under
//! every set, and some are as large as it allows. How often each answer occurs
//! in a sample of 100,000 from seed 1 under [`Limits::BASE`] (0 stands for
//! success); `cargo run --release --example spread` prints these tables, and
//! those of another set if its four numbers are given.
//!
//! Reading what `script` makes with [`NEWEST`] and with what `newest` makes,
//! judging what `rows` makes, and writing it in what `version` makes:
//!
//! | | 0 | 1 | 10 | 11 | 12 | 13 | 14 | 15 | 16 | 17 | 18 | 19 |
//! |---|---|---|---|---|---|---|---|---|---|---|---|---|
//! | `script` | 34,347 | 335 | 10,775 | 8,523 | 10,249 | 10,541 | 5,316 | 3,195 | 1,436 | 1,559 | 5,346 | 8,378 |
//! | with `newest` | 26,150 | 315 | 10,666 | 27,184 | 8,053 | 8,504 | 4,055 | 2,446 | 1,078 | 1,202 | 4,165 | 6,182 |
//! | `rows` | 35,115 | | | | 10,180 | 5,358 | 23,926 | 3,087 | 0 | 1,481 | 9,330 | 11,523 |
//! | in `version` | 24,386 | | | 15,063 | 7,373 | 17,499 | 18,513 | 2,071 | 0 | 880 | 6,114 | 8,101 |
//!
//! Rows can never meet 16: they have no room for a term too many, so they are
//! used up first, which is 12. `rows_any_length` brings 2 as well. The output
//! has room for every script here, so that [`length`] answers as writing does.
//!
//! `valid_script` makes scripts of version 1, of version 2 without its own
//! kinds, and of version 2 with them, each an eighth of the time or more. Of the
//! sums that accepted scripts run many are held to either end, and of the choices
//! both blocks run often.
//!
//! `joined_rows` makes accepted scripts whose choices leave variables behind
//! differently: moved away in one block, borrowing from other places after
//! each. `near_joined_rows` makes such scripts with edits. [`small_choices`]
//! shows all small ones, 980,452 in number, of which 234,018 are accepted.
//!
//! `through_shared_rows` makes accepted scripts with shared borrows through
//! shared links, of which 88 in a hundred would be refused if such a borrow
//! were recorded against the variable that it names.
//! `near_through_shared_rows` makes such scripts that are mostly refused for
//! what these borrows are recorded against; 79 in a hundred would get another
//! answer.
//!
//! `last_uses_rows` makes accepted scripts with borrows that end at their last
//! use, of which 91 in a hundred would be refused if every variable in scope
//! were in use. `near_last_uses_rows` makes such scripts that are mostly refused
//! as a borrow is used again; 88 in a hundred ask about a variable with a holder
//! in scope, and 77 would get another answer. [`check_by_scope`] tells both.
//!
//! Checking rows (those of `mixed_rows` also meet 12 to 19, 3,223 times):
//!
//! | | 0 | 30 | 31 | 32 | 33 | 34 | 35 | 36 |
//! |---|---|---|---|---|---|---|---|---|
//! | `accepted_rows` | 100,000 | | | | | | | |
//! | `joined_rows` | 100,000 | | | | | | | |
//! | `through_shared_rows` | 100,000 | | | | | | | |
//! | `last_uses_rows` | 100,000 | | | | | | | |
//! | `near_miss_rows` | 57,773 | 5,541 | 12,753 | 8,579 | 2,707 | 614 | 1,069 | 850 |
//! | `near_joined_rows` | 29,402 | 6,975 | 10,233 | 9,488 | 3,486 | 6,370 | 13,531 | 5,665 |
//! | `near_through_shared_rows` | 23,403 | 2,110 | 3,126 | 2,634 | 5,783 | 273 | 42,389 | 9,860 |
//! | `near_last_uses_rows` | 42,497 | 2,824 | 2,923 | 2,388 | 848 | 17,291 | 26,748 | 1,529 |
//! | `wild_rows` | 27,546 | 4,990 | 6,028 | 12,754 | 9,895 | 3,818 | 7,075 | 3,685 |
//! | `mixed_rows` | 54,860 | 3,013 | 11,204 | 5,628 | 3,463 | 2,070 | 5,198 | 1,949 |
//!
//! | | 37 | 38 | 39 | 40 | 41 | 42 | 43 |
//! |---|---|---|---|---|---|---|---|
//! | `near_miss_rows` | 1,458 | 901 | 5,311 | 1,135 | 531 | 26 | 752 |
//! | `near_joined_rows` | 3,135 | 3,057 | 8,082 | 419 | 48 | 19 | 90 |
//! | `near_through_shared_rows` | 857 | 891 | 1,393 | 7,097 | 171 | 1 | 12 |
//! | `near_last_uses_rows` | 1,196 | 524 | 1,037 | 104 | 9 | 0 | 82 |
//! | `wild_rows` | 2,896 | 2,269 | 11,250 | 5,545 | 179 | 987 | 1,083 |
//! | `mixed_rows` | 1,296 | 1,037 | 4,470 | 1,718 | 173 | 279 | 419 |
//!
//! Running rows with [`run_unchecked`], each time with readings of their own
//! (those of `mixed_rows` also meet 12 to 19, 3,187 times):
//!
//! | | 0 | 60 | 61 | 62 | 63 |
//! |---|---|---|---|---|---|
//! | `accepted_rows` | 100,000 | | | | |
//! | `joined_rows` | 100,000 | | | | |
//! | `through_shared_rows` | 100,000 | | | | |
//! | `last_uses_rows` | 100,000 | | | | |
//! | `near_miss_rows` | 66,093 | 16,338 | 12,575 | 4,549 | 445 |
//! | `near_joined_rows` | 54,805 | 22,456 | 15,264 | 6,699 | 776 |
//! | `near_through_shared_rows` | 68,296 | 26,195 | 3,796 | 1,607 | 106 |
//! | `near_last_uses_rows` | 79,369 | 9,692 | 3,378 | 7,098 | 463 |
//! | `wild_rows` | 37,787 | 25,236 | 30,016 | 5,334 | 1,627 |
//! | `mixed_rows` | 63,090 | 18,949 | 11,347 | 2,862 | 565 |
//!
//! Running the same rows with [`run`], which never meets 60 to 63:
//!
//! | | 0 | 12 to 19 | 30 to 43 |
//! |---|---|---|---|
//! | `accepted_rows` | 100,000 | | |
//! | `joined_rows` | 100,000 | | |
//! | `through_shared_rows` | 100,000 | | |
//! | `last_uses_rows` | 100,000 | | |
//! | `near_miss_rows` | 58,163 | | 41,837 |
//! | `near_joined_rows` | 29,490 | | 70,510 |
//! | `near_through_shared_rows` | 23,332 | | 76,668 |
//! | `near_last_uses_rows` | 42,423 | | 57,577 |
//! | `wild_rows` | 27,686 | | 72,314 |
//! | `mixed_rows` | 54,626 | 3,187 | 42,187 |
//!
//! `limits_within`, `limits_above` and `limits_outside` make sets themselves;
//! the last ones are refused with 74.

pub mod checked;
pub mod form;
pub mod generate;
pub mod limits;
pub mod line;
pub mod machine;
pub mod ownership;
pub mod random;
pub mod refusal;

pub use checked::run;
pub use form::{judge_rows, length, read, write, Script, NEWEST};
pub use generate::{small_choices, Generator};
pub use limits::Limits;
pub use line::roomcheck;
pub use machine::{run_unchecked, Ran};
pub use ownership::{check, check_by_scope};
pub use refusal::Refusal;
