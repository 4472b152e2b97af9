//! Nothing proves the Rust declarations to be those of the library. This holds them to include/sodgravel.h, which the C tests
//! hold to the library: every constant, the layout of outcome and reply as gcc has it, and the functions' parameters.

use std::collections::BTreeMap;
use std::mem::{align_of, offset_of, size_of};
use std::path::{Path, PathBuf};
use std::process::Command;

use sodgravel::raw::{sodgravel_answer, sodgravel_judge, sodgravel_size, RawOutcome, RawReply};
use sodgravel::{numbers, Refusal, Reply, LARGEST_ROOM, LARGEST_SIZE, LONGEST_TEXT, NEEDED_LENGTHS, SIZE_BEYOND};
use sodgravel::{MOST_OPEN, MOST_TOKENS};

/// The header; SODGRAVEL_HEADER names another one.
fn header() -> PathBuf {
    match std::env::var_os("SODGRAVEL_HEADER") {
        Some(path) => PathBuf::from(path),
        None => Path::new(env!("CARGO_MANIFEST_DIR")).join("../../include/sodgravel.h"),
    }
}

/// A C text without its comments.
fn without_comments(text: &str) -> String {
    let mut kept = String::new();
    let mut rest = text;
    while let Some((before, comment)) = rest.split_once("/*") {
        kept.push_str(before);
        rest = comment.split_once("*/").expect("a comment is not closed").1;
    }
    kept + rest
}

/// The header's constants: all `NAME = number` of its enums.
fn header_constants() -> BTreeMap<String, u32> {
    let text = without_comments(&std::fs::read_to_string(header()).expect("include/sodgravel.h is missing"));
    let enums = text.split("enum ").skip(1).map(|part| {
        let (_, body) = part.split_once('{').expect("an enum has a body");
        body.split_once('}').expect("an enum's body is closed").0
    });
    let items = enums.flat_map(|body| body.split(',')).map(str::trim).filter(|item| !item.is_empty());
    let constant = |item: &str| {
        let (name, number) = item.split_once('=').unwrap_or_else(|| panic!("{item} has no number"));
        (name.trim().to_string(), number.trim().parse().unwrap_or_else(|_| panic!("{item} is no number")))
    };
    items.map(constant).collect()
}

/// `SchemaForm` as C writes it: `SODGRAVEL_SCHEMA_FORM`.
fn c_name(refusal: Refusal) -> String {
    let mut name = "SODGRAVEL".to_string();
    for letter in format!("{refusal:?}").chars() {
        if letter.is_uppercase() {
            name.push('_');
        }
        name.push(letter.to_ascii_uppercase());
    }
    name
}

/// The same constants as the Rust crate has them, under the header's names.
fn rust_constants() -> BTreeMap<String, u32> {
    let [schema, nodes, properties, values, index, query, rows] = NEEDED_LENGTHS.map(|length| length as u32);
    let named = [
        ("ACCEPTED", 0),
        ("SCHEMA_AREA", schema),
        ("NODES_AREA", nodes),
        ("PROPERTIES_AREA", properties),
        ("VALUES_AREA", values),
        ("INDEX_AREA", index),
        ("QUERY_AREA", query),
        ("ROWS_AREA", rows),
        ("MAXIMUM_TEXT", LONGEST_TEXT as u32),
        ("MAXIMUM_ROOM", LARGEST_ROOM),
        ("MAXIMUM_SIZE", LARGEST_SIZE),
        ("SIZE_BEYOND", SIZE_BEYOND),
        ("MAXIMUM_TOKENS", MOST_TOKENS as u32),
        ("MAXIMUM_OPEN", MOST_OPEN),
        ("LABELS", numbers::LABELS),
        ("OPEN_OBJECT", numbers::OPEN_OBJECT),
        ("CLOSE_OBJECT", numbers::CLOSE_OBJECT),
        ("OPEN_LIST", numbers::OPEN_LIST),
        ("CLOSE_LIST", numbers::CLOSE_LIST),
        ("NULL", numbers::NULL),
    ];
    let refusals = Refusal::ALL.into_iter().map(|refusal| (c_name(refusal), refusal.number()));
    named.into_iter().map(|(name, number)| (format!("SODGRAVEL_{name}"), number)).chain(refusals).collect()
}

#[test]
fn every_constant_of_the_header_is_the_crates() {
    assert_eq!(header_constants(), rust_constants());
}

/// The parameters of sizing, with which those of answering begin, as C writes them.
const PARAMETERS: &str = "const uint8_t *, size_t, const uint8_t *, size_t, const uint8_t *, size_t, \
    uint32_t *, size_t, uint32_t *, size_t, uint32_t *, size_t, uint32_t *, size_t, uint32_t *, size_t, uint32_t *, size_t, \
    uint64_t *, size_t";

/// The parameters of judging.
const JUDGED: &str = "const uint32_t *, size_t, const uint32_t *, size_t";

/// A C program that includes the header, takes each function at its type and prints layout and constants.
fn c_program() -> String {
    let prints = header_constants().into_keys().map(|name| format!("printf(\"{name} %u\\n\", (unsigned){name});"));
    let offset =
        |of: &str, field: &str| format!("printf(\"offset {of} {field} %zu\\n\", offsetof(sodgravel_{of}, {field}));");
    let outcome = ["number", "place", "size", "visits"].map(|field| offset("outcome", field));
    let reply = ["yes", "outcome"].map(|field| offset("reply", field));
    format!(
        "#include <stdio.h>\n#include \"{}\"\n\
        sodgravel_outcome (*volatile size_call)({PARAMETERS});\n\
        sodgravel_outcome (*volatile answer_call)({PARAMETERS}, uint32_t, uint32_t *, size_t);\n\
        sodgravel_reply (*volatile judge_call)({JUDGED});\n\
        void take(void);\n\
        void take(void) {{ size_call = sodgravel_size; answer_call = sodgravel_answer; judge_call = sodgravel_judge; }}\n\
        struct outcome {{ char byte; sodgravel_outcome aligned; }};\n\
        struct reply {{ char byte; sodgravel_reply aligned; }};\n\
        int main(void) {{\n\
        printf(\"sizeof outcome %zu\\n\", sizeof(sodgravel_outcome));\n\
        printf(\"sizeof reply %zu\\n\", sizeof(sodgravel_reply));\n\
        printf(\"alignof outcome %zu\\n\", offsetof(struct outcome, aligned));\n\
        printf(\"alignof reply %zu\\n\", offsetof(struct reply, aligned));\n\
        printf(\"pointer %zu\\n\", sizeof(size_t));\n{}\n{}\n{}\nreturn 0; }}\n",
        header().canonicalize().expect("include/sodgravel.h is missing").display(),
        outcome.join("\n"),
        reply.join("\n"),
        prints.collect::<Vec<_>>().join("\n"),
    )
}

/// What gcc makes of the header: compiles the program with the archive and runs it.
fn printed_by_c() -> BTreeMap<String, usize> {
    let folder = PathBuf::from(env!("CARGO_TARGET_TMPDIR"));
    let (source, program) = (folder.join("declarations.c"), folder.join("declarations"));
    std::fs::write(&source, c_program()).unwrap();
    let compiled = Command::new("gcc")
        .args(["-std=c99", "-Wall", "-Wextra", "-Wpedantic", "-Werror", "-Wl,--unresolved-symbols=ignore-all", "-o"])
        .args([&program, &source])
        .status();
    assert!(compiled.expect("gcc cannot be run").success(), "gcc refuses the header or a function's type");
    let output = Command::new(&program).output().unwrap();
    assert!(output.status.success());
    let line = |line: &str| {
        let (name, number) = line.rsplit_once(' ').unwrap();
        (name.to_string(), number.parse().unwrap())
    };
    String::from_utf8(output.stdout).unwrap().lines().map(line).collect()
}

#[test]
fn layout_and_constants_are_those_that_gcc_has() {
    let layout = [
        ("sizeof outcome", size_of::<RawOutcome>()),
        ("sizeof reply", size_of::<RawReply>()),
        ("alignof outcome", align_of::<RawOutcome>()),
        ("alignof reply", align_of::<RawReply>()),
        ("pointer", size_of::<usize>()),
        ("offset outcome number", offset_of!(RawOutcome, number)),
        ("offset outcome place", offset_of!(RawOutcome, place)),
        ("offset outcome size", offset_of!(RawOutcome, size)),
        ("offset outcome visits", offset_of!(RawOutcome, visits)),
        ("offset reply yes", offset_of!(RawReply, yes)),
        ("offset reply outcome", offset_of!(RawReply, outcome)),
    ];
    let layout = layout.into_iter().map(|(name, number)| (name.to_string(), number));
    let constants = rust_constants().into_iter().map(|(name, number)| (name, number as usize));
    assert_eq!(printed_by_c(), layout.chain(constants).collect::<BTreeMap<_, _>>());
}

type Bytes = *const u8;
type Area = *mut u32;
type Rows = *mut u64;
type L = usize;
type Size = unsafe extern "C" fn(
    Bytes,
    L,
    Bytes,
    L,
    Bytes,
    L,
    Area,
    L,
    Area,
    L,
    Area,
    L,
    Area,
    L,
    Area,
    L,
    Area,
    L,
    Rows,
    L,
) -> RawOutcome;
type Answer = unsafe extern "C" fn(
    Bytes,
    L,
    Bytes,
    L,
    Bytes,
    L,
    Area,
    L,
    Area,
    L,
    Area,
    L,
    Area,
    L,
    Area,
    L,
    Area,
    L,
    Rows,
    L,
    u32,
    Area,
    L,
) -> RawOutcome;

type Judge = unsafe extern "C" fn(*const u32, L, *const u32, L) -> RawReply;

/// The types that PARAMETERS and JUDGED have in C, in Rust: this compiles only where the declarations have them.
#[test]
fn the_functions_have_the_parameters_that_c_was_asked_for() {
    let _: Size = sodgravel_size;
    let _: Answer = sodgravel_answer;
    let _: Judge = sodgravel_judge;
}

/// The numbers of the refusals, and no others, are refusals.
#[test]
fn refusals_come_back_from_their_numbers() {
    let known = (0..=1_000).filter_map(Refusal::from_number);
    assert_eq!(known.collect::<Vec<_>>(), Refusal::ALL);
}

/// A reply with these five numbers.
fn reply(yes: u32, [number, place, size, visits]: [u32; 4]) -> Reply {
    Reply::from(RawReply { yes, outcome: RawOutcome { number, place, size, visits } })
}

#[test]
fn replies_are_yes_no_or_a_refusal() {
    assert_eq!(reply(1, [0; 4]), Reply::Yes { visits: 0 });
    assert_eq!(reply(0, [0; 4]), Reply::No { visits: 0 });
    assert_eq!(reply(1, [0, 0, 0, 9]), Reply::Yes { visits: 9 });
    assert_eq!(reply(0, [0, 0, 0, 9]), Reply::No { visits: 9 });
    assert_eq!(reply(0, [71, 0, 0, 0]), Reply::Refused { refusal: Refusal::FullNoResponse, place: 0 });
    assert_eq!(reply(0, [72, 0, 0, 0]), Reply::Refused { refusal: Refusal::ShortenedNoResponse, place: 0 });
    assert_eq!(reply(0, [34, 7, 0, 0]), Reply::Refused { refusal: Refusal::QueryNotValid, place: 7 });
}

/// What no call replies with: another yes, a place or a size with it, a yes or visits in a refusal, a number that none has.
#[test]
fn other_replies_are_of_another_version() {
    for (yes, outcome) in [
        (2, [0; 4]),
        (1, [0, 1, 0, 0]),
        (1, [0, 0, 1, 0]),
        (1, [71, 0, 0, 0]),
        (0, [71, 0, 0, 1]),
        (0, [72, 0, 1, 0]),
        (0, [73, 0, 0, 0]),
    ] {
        assert!(std::panic::catch_unwind(|| reply(yes, outcome)).is_err(), "{yes} {outcome:?}");
    }
}
