//! The notation of LANGUAGE 1.5, on texts of every form and on wrong ones.

use crate::common::notation::rows_in;
use crate::common::terms::*;

#[track_caller]
fn is(text: &str, terms: &[Term]) {
    assert_eq!(rows_in(text), Ok(block(terms)), "{text}");
}

#[track_caller]
fn is_wrong(text: &str, due: &str) {
    let wrong = rows_in(text).expect_err(text);
    assert_eq!(wrong.to_string(), due, "{text}");
}

#[test]
fn terms_of_each_kind() {
    is("7", &[number(7)]);
    is("-1", &[number(-1)]);
    is(
        "-2147483648; 2147483647",
        &[number(i32::MIN), number(i32::MAX)],
    );
    is("reading 0", &[reading(0)]);
    is("copy v0; move *v0", &[copy((0, 0)), mov((0, 1))]);
    is("&v0; &mut *v0", &[shared((0, 0)), exclusive((0, 1))]);
    is("box box 7", &[boxes(2, number(7))]);
    is("let v0=7", &[let_(0, number(7))]);
    is("**v3=8", &[assign((3, 2), number(8))]);
    is("v3=*v4=8", &[assign((3, 0), assign((4, 1), number(8)))]);
    is("below v0, *v1", &[below((0, 0), (1, 1))]);
    is("sum v0, *v1", &[sum((0, 0), (1, 1))]);
    is("{1; 2}; 3", &[block(&[number(1), number(2)]), number(3)]);
    let both = choice((0, 0), &[number(1)], &[number(2), number(3)]);
    is("choice v0 {1} {2; 3}", &[both]);
}

#[test]
fn spaces_between_parts() {
    is(" let  v0 = & mut\t* v1 ", &[let_(0, exclusive((1, 1)))]);
    is(
        "choice v0{1}{2}",
        &[choice((0, 0), &[number(1)], &[number(2)])],
    );
    is("below v0,v1;1", &[below((0, 0), (1, 0)), number(1)]);
}

/// Ranges are the library's to judge.
#[test]
fn operands_out_of_range() {
    is("reading 9", &[reading(9)]);
    is("copy v4294967295", &[copy((u32::MAX, 0))]);
    is("copy *********v0", &[copy((0, 9))]);
}

#[test]
fn texts_that_are_no_script() {
    is_wrong("", "character 1: expected a term, found the end");
    is_wrong("1;", "character 3: expected a term, found the end");
    is_wrong("{1; }", "character 5: expected a term, found '}'");
    is_wrong("1 2", "character 3: expected `;` or the end, found '2'");
    is_wrong("1}", "character 2: expected `;` or the end, found '}'");
    is_wrong("{1", "character 3: expected `;` or `}`, found the end");
    is_wrong("foo v0", "character 1: expected a term, found 'f'");
    is_wrong("copyv0", "character 1: expected a term, found 'c'");
    is_wrong("box7", "character 1: expected a term, found 'b'");
    is_wrong("let v0=box", "character 11: expected a term, found the end");
    is_wrong("é", "character 1: expected a term, found 'é'");
}

#[test]
fn parts_that_are_missing() {
    is_wrong(
        "copy 7",
        "character 6: expected a place (as v0 or *v0), found '7'",
    );
    is_wrong(
        "&mutv0",
        "character 2: expected a place (as v0 or *v0), found 'm'",
    );
    is_wrong(
        "*vx=1",
        "character 2: expected a place (as v0 or *v0), found 'v'",
    );
    is_wrong(
        "let *v0=1",
        "character 5: expected a variable (as v0), found '*'",
    );
    is_wrong("let v0 7", "character 8: expected `=`, found '7'");
    is_wrong("v0", "character 3: expected `=`, found the end");
    is_wrong("below v0 v1", "character 10: expected `,`, found 'v'");
    is_wrong(
        "choice v0 {1} 2",
        "character 15: expected a block in braces, found '2'",
    );
    is_wrong(
        "reading",
        "character 8: expected the index of a reading, found the end",
    );
    let number = "expected a number from -2147483648 to 2147483647";
    is_wrong("2147483648", &format!("character 1: {number}, found '2'"));
    is_wrong("box - 5", &format!("character 5: {number}, found '-'"));
    is_wrong("7x", &format!("character 1: {number}, found '7'"));
}

/// A text of any depth is answered.
#[test]
fn terms_in_each_other() {
    let boxed = |count| format!("{}1", "box ".repeat(count));
    is(&boxed(255), &[boxes(255, number(1))]);
    let due = "a script with at most 256 terms in each other";
    is_wrong(
        &boxed(256),
        &format!("character 1025: expected {due}, found '1'"),
    );
    is_wrong(
        &boxed(100_000),
        &format!("character 1025: expected {due}, found 'b'"),
    );
}
