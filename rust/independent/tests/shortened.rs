//! Judging by hand-worked examples: the readings of (xi), one by one, and both maxima from both sides.

use independent::{judge, Outcome, Reply};

const LABELS: u32 = 1_000_000_000;

/// The tokens of a response as it is shown: `L3` a label, `{ } [ ]` the brackets, `N` null, and any number as itself.
fn tokens(shown: &str) -> Vec<u32> {
    let token = |word: &str| match word {
        "{" => 2_000_000_001,
        "}" => 2_000_000_002,
        "[" => 2_000_000_003,
        "]" => 2_000_000_004,
        "N" => 2_000_000_005,
        _ if word.starts_with('L') => LABELS + word[1..].parse::<u32>().unwrap(),
        _ => word.parse().unwrap(),
    };
    shown.split_whitespace().map(token).collect()
}

fn said(yes: bool) -> Reply {
    Reply { yes, outcome: Outcome { number: 0, place: 0, size: 0, visits: 0 } }
}

fn refused(number: u32) -> Reply {
    Reply { yes: false, outcome: Outcome { number, place: 0, size: 0, visits: 0 } }
}

fn yes(full: &str, shortened: &str) {
    assert_eq!(judge(&tokens(full), &tokens(shortened)), said(true), "{full} to {shortened}");
}

fn no(full: &str, shortened: &str) {
    assert_eq!(judge(&tokens(full), &tokens(shortened)), said(false), "{full} to {shortened}");
}

/// No response: refused as the first and as the second, and as the first where both are none.
fn no_response(shown: &str) {
    let numbers = tokens(shown);
    assert_eq!(judge(&numbers, &[]), refused(71), "{shown}");
    assert_eq!(judge(&[], &numbers), refused(72), "{shown}");
    assert_eq!(judge(&numbers, &numbers), refused(71), "{shown}");
}

/// A response: itself shortened by nothing, and by all of its fields.
fn response(shown: &str) {
    yes(shown, shown);
    yes(shown, "");
}

#[test]
fn fields_are_struck_out_anywhere() {
    yes("L0 5 L1 6 L2 7", "L0 5 L2 7");
    yes("L0 5 L1 6 L2 7", "L1 6");
    yes("L0 { L1 { L2 5 L3 6 } L4 N }", "L0 { L1 { L3 6 } }");
    yes("L0 { L1 { L2 5 L3 6 } L4 N }", "L0 { L1 { } L4 N }");
    yes("L0 { L1 { L2 5 L3 6 } L4 N }", "L0 { L4 N }");
    yes("L0 { L1 { L2 5 L3 6 } L4 N }", "L0 { }");
    no("L0 5 L2 7", "L0 5 L1 6 L2 7");
    no("", "L0 5");
    no("L0 { }", "L0 { L1 5 }");
}

#[test]
fn objects_of_a_list_are_struck_out() {
    let full = "L0 [ { L9 17 L2 [ 5 6 ] } { L9 18 L3 N } ]";
    for shortened in [
        "L0 [ { L9 17 L2 [ 5 6 ] } ]",
        "L0 [ { L9 18 L3 N } ]",
        "L0 [ { L2 [ 5 6 ] } { L9 18 } ]",
        "L0 [ { } { L3 N } ]",
        "L0 [ { } { } ]",
        "L0 [ { } ]",
        "L0 [ ]",
    ] {
        yes(full, shortened);
    }
    for other in [
        "L0 [ { } { } { } ]",
        "L0 [ { L3 N } { L9 17 } ]",
        "L0 [ { L9 17 L9 18 } ]",
        "L0 [ { L9 17 } { L2 [ 5 6 ] } { L9 18 } ]",
        "L0 [ { L9 17 L3 N } ]",
    ] {
        no(full, other);
    }
}

/// Reading 1.
#[test]
fn an_empty_list_comes_from_a_list_of_objects_or_an_empty_one() {
    yes("L0 [ { L1 5 } { } ]", "L0 [ ]");
    yes("L0 [ ]", "L0 [ ]");
    no("L0 [ 5 ]", "L0 [ ]");
    no("L0 [ ]", "L0 [ 5 ]");
    no("L0 [ ]", "L0 [ { } ]");
}

/// Reading 2.
#[test]
fn an_object_that_is_no_lists_goes_with_its_field_only() {
    yes("L0 { L1 5 }", "L0 { }");
    yes("L0 { L1 5 }", "");
    for other in ["L0 N", "L0 [ ]", "L0 5", "L1 5", "L0 [ { } ]", "L0 [ { L1 5 } ]"] {
        no("L0 { L1 5 }", other);
    }
    no("L0 [ { L1 5 } ]", "L0 { L1 5 }");
    no("L0 [ { L1 5 } ]", "L0 { }");
    no("L0 [ { L1 5 } ]", "L0 N");
}

#[test]
fn values_null_and_lists_of_values_are_never_altered() {
    yes("L0 5 L0 [ 5 6 ] L0 N", "L0 [ 5 6 ]");
    no("L0 5", "L0 6");
    no("L0 5", "L0 N");
    no("L0 5", "L0 [ 5 ]");
    no("L0 N", "L0 { }");
    no("L0 N", "L0 [ ]");
    no("L0 N", "L0 5");
    for other in ["L0 [ 5 ]", "L0 [ 6 ]", "L0 [ 6 5 ]", "L0 [ 5 6 6 ]", "L0 [ 5 7 ]", "L0 5", "L0 N", "L0 [ { } ]"] {
        no("L0 [ 5 6 ]", other);
    }
}

#[test]
fn order_and_labels_are_kept() {
    no("L0 5 L1 6", "L1 6 L0 5");
    no("L0 5", "L1 5");
    no("L0 { L1 5 } L2 6", "L0 { L1 5 L2 6 }");
    no("L0 { L1 5 L2 6 }", "L0 { L1 5 } L2 6");
}

/// Reading 6.
#[test]
fn one_label_may_stand_several_times() {
    yes("L0 { L1 5 } L0 { L1 5 L2 6 }", "L0 { L2 6 }");
    yes("L0 { L1 5 } L0 { L1 5 L2 6 }", "L0 { L1 5 } L0 { L2 6 }");
    no("L0 { L1 5 } L0 { L1 5 L2 6 }", "L0 { L2 6 } L0 { L1 5 }");
    no("L0 { L1 5 } L0 { L1 5 L2 6 }", "L0 { L1 5 L1 5 }");
    yes("L0 5 L0 6 L0 5 L0 7", "L0 6 L0 5");
    yes("L0 5 L0 6 L0 5 L0 7", "L0 5 L0 5 L0 7");
    no("L0 5 L0 6 L0 5 L0 7", "L0 6 L0 6");
    yes("L0 [ { L1 5 } ] L0 [ { L1 5 } { } ]", "L0 [ { L1 5 } { } ]");
    no("L0 [ { L1 5 } ] L0 [ { } { L1 5 } ]", "L0 [ { L1 5 } { } ]");
    yes("L0 [ { L1 5 } { L1 6 } { L1 5 L1 6 } ]", "L0 [ { L1 5 } { L1 5 L1 6 } ]");
    no("L0 [ { L1 5 } { L1 6 } { L1 5 L1 6 } ]", "L0 [ { L1 5 L1 6 } { } ]");
}

/// Reading 7.
#[test]
fn the_whole_is_a_sequence_of_fields() {
    response("");
    response("L0 5");
    response("L0 { } L0 { } L0 [ ] L0 N L0 [ 5 ] L0 [ { } ]");
    for shown in ["{ }", "{ L0 5 }", "5", "N", "[ ]", "L0", "L0 L1 5", "L0 5 6", "L0 5 }", "L0 5 ]", "L0 }", "L0 ]"] {
        no_response(shown);
    }
    for shown in ["L0 {", "L0 { L1", "L0 { L1 5", "L0 { L1 5 ]", "L0 { 5 }", "L0 { N }", "L0 { { } }", "L0 { [ ] }"] {
        no_response(shown);
    }
}

/// Reading 5.
#[test]
fn a_list_holds_values_only_or_objects_only() {
    for shown in ["L0 [", "L0 [ 5", "L0 [ {", "L0 [ { }", "L0 [ 5 }", "L0 [ { } }", "L0 [ { ] }", "L0 [ L1 5 ]"] {
        no_response(shown);
    }
    for shown in ["L0 [ N ]", "L0 [ 5 N ]", "L0 [ [ ] ]", "L0 [ 5 { } ]", "L0 [ { } 5 ]", "L0 [ { } N ]", "L0 [ { } [ ] ]"] {
        no_response(shown);
    }
}

/// Reading 3.
#[test]
fn other_numbers_are_no_tokens() {
    response("L0 0 L0 999999999 L255 0 L255 999999999");
    response("L0 [ 0 999999999 ]");
    for other in [1_000_000_256, 1_000_000_257, 1_999_999_999, 2_000_000_000, 2_000_000_006, 2_147_483_648, u32::MAX] {
        no_response(&format!("{other}"));
        no_response(&format!("{other} 5"));
        no_response(&format!("L0 {other}"));
        no_response(&format!("L0 [ 5 {other} ]"));
        no_response(&format!("L0 {{ {other} 5 }}"));
    }
    no_response("L0 1000000000");
    no_response("999999999 5");
}

/// Reading 4, the `{`: 16 may be open at once, any number of them one after another. The `[` do not count.
#[test]
fn sixteen_objects_may_be_open() {
    let nested = |times: usize, open: &str, close: &str| format!("{}{}", open.repeat(times), close.repeat(times));
    let objects = |times| nested(times, "L0 { ", "} ");
    let lists = |times| nested(times, "L0 [ { ", "} ] ");
    response(&objects(16));
    response(&lists(16));
    response(&objects(16).repeat(3));
    response(&format!("L0 {{ {} {} }}", objects(15), lists(15)));
    no_response(&objects(17));
    no_response(&lists(17));
    no_response(&format!("L1 5 L0 {{ {} {} }}", objects(15), lists(16)));
    yes(&objects(16), &objects(3));
    no(&objects(15), &objects(16));
    assert_eq!(judge(&tokens(&objects(16)), &tokens(&objects(17))), refused(72));
    assert_eq!(judge(&tokens(&objects(17)), &tokens(&objects(16))), refused(71));
}

/// Reading 4, the tokens: 8,192 fields of two, or a list of 16,381 values, and not one more.
#[test]
fn a_response_may_have_16384_tokens() {
    let fields = |count: usize| [LABELS, 5].repeat(count);
    let values = |count: usize| [&[LABELS, 2_000_000_003][..], &vec![5; count], &[2_000_000_004]].concat();
    let (most_fields, most_values) = (fields(8_192), values(16_381));
    assert_eq!((most_fields.len(), most_values.len()), (16_384, 16_384));
    assert_eq!(judge(&most_fields, &most_fields), said(true));
    assert_eq!(judge(&most_fields, &fields(8_191)), said(true));
    assert_eq!(judge(&fields(8_191), &most_fields), said(false));
    assert_eq!(judge(&most_values, &most_values), said(true));
    assert_eq!(judge(&most_values, &values(16_380)), said(false));
    assert_eq!(judge(&most_values, &values(0)), said(false));
    for too_long in [fields(8_193), values(16_382)] {
        assert_eq!(judge(&too_long, &[]), refused(71));
        assert_eq!(judge(&most_fields, &too_long), refused(72));
        assert_eq!(judge(&too_long, &too_long), refused(71));
    }
}

#[test]
fn all_of_the_first_comes_before_the_second() {
    assert_eq!(judge(&tokens("L0 5 }"), &tokens("5")), refused(71));
    assert_eq!(judge(&tokens("L0 5"), &tokens("5")), refused(72));
    assert_eq!(judge(&tokens("5"), &tokens("L0 5")), refused(71));
    assert_eq!(judge(&tokens("L0 5"), &tokens("L1 5 }")), refused(72));
}
