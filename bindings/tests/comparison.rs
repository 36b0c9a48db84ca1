//! The proved library beside the reference program, on many seeded cases and
//! on all small scripts, under several sets of limits.
//!
//! `cargo test --release --offline` in `bindings/` gives both programs 200,000
//! cases of most kinds under the language's own set, and as many again under
//! other sets together: the least, a small and an uneven one, the largest, any
//! in the ranges and any outside them. Some kinds have more and some have
//! fewer: `docs/GATE.md` has their numbers. It compares answers, places and whole
//! buffers: scripts read, with every version known and with others; rows
//! judged, and written in each version; the length told of rows, and outputs
//! around it; rows checked, run and run unchecked that were steered to be
//! accepted, near misses of those, wild ones and any ones; scripts of each kind
//! called; the same of scripts that all have a sum, and of scripts that all
//! have a choice whose branches leave variables differently, with readings for
//! both branches; of scripts made for shared borrows through shared links, and
//! for what such borrows are recorded against; of scripts made for borrows that
//! end at their last use or are used again, of which it decides on 400,000 or
//! more; full scripts of the largest set; all small scripts over a small
//! alphabet, all small ones with a choice, and all short sequences of rows with
//! choices. Of some scripts with sums and choices plain arithmetic tells the
//! answer too. It also compares the library with itself: the length with
//! writing, a run with the check and the unchecked run, a call with read and
//! then run, one set with a larger one, sums with belows, a choice with the
//! branch that runs, and, where last uses do not decide, with its branches in
//! the other order. A longer run, or one with other cases, takes its seed and
//! its number of cases from the environment:
//!
//! ```text
//! ROOMSCRIPT_SEED=7 ROOMSCRIPT_CASES=5000000 \
//!     cargo test --release --offline --test comparison
//! ```
//!
//! A failure names its seed, its case and its set and shows the input in hex.
//! The same seed with as many cases or more meets it again. Every buffer is
//! filled with junk first and lies between guard cells. Each run shows how
//! often each number was answered. Every number that can be answered must
//! occur, unless it is named as rare: under the language's own set from 20,000
//! cases on, under the others from 200,000 on.

#![forbid(unsafe_code)]

#[path = "comparison/alphabet.rs"]
mod alphabet;
#[path = "comparison/arithmetic.rs"]
mod arithmetic;
#[path = "comparison/beyond.rs"]
mod beyond;
#[path = "comparison/branches.rs"]
mod branches;
#[path = "comparison/calling.rs"]
mod calling;
#[path = "comparison/choices.rs"]
mod choices;
mod common;
#[path = "comparison/each_layer.rs"]
mod each_layer;
#[path = "comparison/exhaustive.rs"]
mod exhaustive;
#[path = "comparison/generated.rs"]
mod generated;
#[path = "comparison/joins.rs"]
mod joins;
#[path = "comparison/larger.rs"]
mod larger;
#[path = "comparison/last_uses.rs"]
mod last_uses;
#[path = "comparison/layers.rs"]
mod layers;
#[path = "comparison/length.rs"]
mod length;
#[path = "comparison/outlines.rs"]
mod outlines;
#[path = "comparison/packed.rs"]
mod packed;
#[path = "comparison/reached.rs"]
mod reached;
#[path = "comparison/rows.rs"]
mod rows;
#[path = "comparison/scripts.rs"]
mod scripts;
#[macro_use]
#[path = "comparison/sets.rs"]
mod sets;
#[path = "comparison/sums.rs"]
mod sums;
#[path = "comparison/through_shared.rs"]
mod through_shared;
#[path = "comparison/versions.rs"]
mod versions;
#[path = "comparison/whole.rs"]
mod whole;
#[path = "comparison/written.rs"]
mod written;
