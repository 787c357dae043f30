//! Reads the headers in include/, and compares with them what this crate declares: its constants, layouts and functions.
use std::collections::BTreeMap;
use std::mem::{offset_of, size_of};

const HEADER: &str = concat!(
    include_str!("../../../../include/vandrexu.h"),
    include_str!("../../../../include/vandrexu_hosts.h"),
    include_str!("../../../../include/vandrexu_slots.h"),
    include_str!("../../../../include/vandrexu_remote.h")
);
const DECLARED: &str = include_str!("../src/lib.rs");

/// The headers without their comments.
fn header() -> String {
    let parts = HEADER.split("/*").map(|part| part.split_once("*/").map_or(part, |(_, behind)| behind));
    parts.collect()
}

/// What stands between each `before` and the next `after`.
fn between<'a>(text: &'a str, before: &'a str, after: &'a str) -> impl Iterator<Item = &'a str> {
    text.split(before).skip(1).filter_map(move |part| part.split_once(after).map(|(it, _)| it))
}

/// The names and values of all enums of the headers.
fn enumerated() -> BTreeMap<String, u32> {
    let text = header();
    let mut found = BTreeMap::new();
    for part in between(&text, "enum vandrexu_", "}") {
        for line in part.split_once('{').expect("an enum has members").1.split(',') {
            if let Some((name, value)) = line.split_once('=') {
                found.insert(name.trim().to_owned(), value.trim().parse().expect("a value is a number"));
            }
        }
    }
    found
}

/// The names that the crate declares as numbers, with the values that the compiler has for them.
macro_rules! numbers {
    ($($name:ident)*) => { BTreeMap::from([$((stringify!($name).to_owned(), vandrexu_sys::$name)),*]) };
}

#[test]
fn the_constants_are_those_of_the_header() {
    let declared = numbers! {
        VANDREXU_DONE VANDREXU_NO_QUEUE VANDREXU_NO_ROOM VANDREXU_NO_ENTRY VANDREXU_JOBS_FULL VANDREXU_NO_TICKET
        VANDREXU_CONFLICT VANDREXU_WRONG_STATE VANDREXU_CQ_FULL VANDREXU_NO_COMPLETION VANDREXU_BAD_BATCH
        VANDREXU_NO_MEMORY VANDREXU_AWUN_TOO_LARGE VANDREXU_ACWU_TOO_LARGE VANDREXU_BOUNDARY_BELOW_UNIT
        VANDREXU_OFFSET_PAST_BOUNDARY VANDREXU_BAD_BLOCKS VANDREXU_BAD_PAIRS VANDREXU_BAD_SQ_SIZE VANDREXU_BAD_CQ_SIZE
        VANDREXU_BAD_JOBS VANDREXU_BAD_CQS VANDREXU_NO_HANDLE VANDREXU_IN_USE VANDREXU_TOO_SMALL VANDREXU_NO_BLOCK
        VANDREXU_NOTHING_READY VANDREXU_BAD_ENTRY VANDREXU_BAD_LINE VANDREXU_NOT_LEGAL
        VANDREXU_FAILED VANDREXU_FLUSH VANDREXU_UNITS VANDREXU_PAIR
        VANDREXU_READ VANDREXU_COMPARE VANDREXU_WRITE VANDREXU_WRITE_ZEROES
        VANDREXU_SHARED VANDREXU_EXCLUSIVE
        VANDREXU_FOUND_READ VANDREXU_EQUAL VANDREXU_DIFFERS VANDREXU_WRITTEN
        VANDREXU_STEP_GRANT VANDREXU_STEP_BLOCK VANDREXU_STEP_POST
        VANDREXU_NOT_EXPLAINED VANDREXU_BAD_HISTORY VANDREXU_OTHER_CONFIG VANDREXU_GAVE_UP
        VANDREXU_NOT_FOUND VANDREXU_NOT_REFUTED VANDREXU_FORGOTTEN VANDREXU_OTHER_ENTRY
        VANDREXU_BUSY VANDREXU_CALL_LENGTH VANDREXU_CALL_TOO_LONG VANDREXU_CALL_NO_ROOM VANDREXU_CALL_FAILED
        VANDREXU_CALL_BUSY VANDREXU_CALL_NO_MEMORY VANDREXU_CALL_SLOT_AREA VANDREXU_UNFINISHED VANDREXU_NO_HOST
        VANDREXU_BAD_NUMBER VANDREXU_IN_CALL VANDREXU_NO_CALL VANDREXU_USED_NUMBER VANDREXU_USED_QUEUE
        VANDREXU_OTHER_HOST
        VANDREXU_REPLY_PENDING VANDREXU_REPLY_READ VANDREXU_REPLY_WRITTEN VANDREXU_REPLY_EQUAL VANDREXU_REPLY_DIFFERS
        VANDREXU_REPLY_SWAPPED VANDREXU_REPLY_FAILED
        VANDREXU_CALL_NO_SERIAL VANDREXU_NO_SLOT VANDREXU_NOT_HELD VANDREXU_HELD VANDREXU_BAD_NAME
        VANDREXU_BAD_AREA VANDREXU_SLOTS_MISUSED
        VANDREXU_SLOT_PENDING VANDREXU_SLOT_HELD VANDREXU_SLOT_TAKEN VANDREXU_SLOT_RELEASED VANDREXU_SLOT_FREE
        VANDREXU_SLOT_OF_NAME VANDREXU_SLOT_FOREIGN VANDREXU_SLOT_FAILED
        VANDREXU_PUBLISH_LINES VANDREXU_FETCH_LINES VANDREXU_GRANT_LINES VANDREXU_BLOCK_LINES VANDREXU_POST_LINES
        VANDREXU_REAP_LINES VANDREXU_REFUSED_LINES VANDREXU_MEDIUM_LINES VANDREXU_ALL_LINES
    };
    assert_eq!(declared, enumerated());
    let constants = DECLARED.matches("pub const VANDREXU_").count();
    assert_eq!(
        constants,
        declared.len() + 10,
        "a constant is compared with nothing: the version and nine handles aside"
    );
}

#[test]
fn the_version_is_that_of_the_header() {
    assert_eq!(between(HEADER, "#define VANDREXU_VERSION \"", "\"").next(), Some(vandrexu_sys::VANDREXU_VERSION));
    assert_eq!(env!("CARGO_PKG_VERSION"), vandrexu_sys::VANDREXU_VERSION);
}

/// A struct: its size, and each field with its offset.
#[derive(Debug, PartialEq)]
struct Layout {
    size: usize,
    fields: Vec<(String, usize)>,
}

macro_rules! layouts {
    ($($name:ident { $($field:ident)* })*) => {
        BTreeMap::from([$((stringify!($name).to_owned(), Layout {
            size: size_of::<vandrexu_sys::$name>(),
            fields: vec![$((stringify!($field).to_owned(), offset_of!(vandrexu_sys::$name, $field))),*],
        })),*])
    };
}

/// The layouts of the header's structs, by its types and C's rule: a field lies at the next multiple of its alignment.
fn laid_out() -> BTreeMap<String, Layout> {
    let text = header();
    let mut found = BTreeMap::new();
    for part in between(&text, "typedef struct ", ";\n\n") {
        let (name, members) = part.split_once(" {").expect("a struct has members");
        let (mut end, mut widest, mut fields) = (0usize, 1, Vec::new());
        for member in
            members.split('}').next().unwrap_or_default().split(';').map(str::trim).filter(|it| !it.is_empty())
        {
            let (kind, name) = member.rsplit_once(' ').expect("a field has a type and a name");
            let pointer = name.starts_with('*');
            let (name, many) =
                name.trim_start_matches('*').split_once('[').unwrap_or((name.trim_start_matches('*'), "1]"));
            let align = if pointer { size_of::<*const u8>() } else { width_of(kind) };
            let at = end.next_multiple_of(align);
            end = at + align * many.trim_end_matches(']').parse::<usize>().expect("so many elements");
            widest = widest.max(align);
            fields.push((name.to_owned(), at));
        }
        found.insert(name.to_owned(), Layout { size: end.next_multiple_of(widest), fields });
    }
    found
}

/// The size of a type of C, which is its alignment too.
fn width_of(kind: &str) -> usize {
    match kind {
        "uint8_t" => size_of::<u8>(),
        "uint16_t" => size_of::<u16>(),
        "uint32_t" => size_of::<u32>(),
        "uint64_t" => size_of::<u64>(),
        "size_t" => size_of::<usize>(),
        other => panic!("the header has a field of type {other}"),
    }
}

#[test]
fn the_layouts_are_those_of_the_header() {
    let declared = layouts! {
        vandrexu_controller { at live }
        vandrexu_checker { at live }
        vandrexu_tracer { at live }
        vandrexu_slot_checker { at live }
        vandrexu_disk { at live }
        vandrexu_host { at live }
        vandrexu_slot_host { at live }
        vandrexu_remote { at live }
        vandrexu_remote_slot_host { at live }
        vandrexu_reply { kind sct sc zeros }
        vandrexu_slot_reply { kind slot serial host sct sc zeros }
        vandrexu_config { blocks awun acwu nabsn nabo pairs sq_size cq_size jobs cqs }
        vandrexu_entry { bytes count }
        vandrexu_work { ticket slba blocks kind op statuses }
        vandrexu_granted { unit slba blocks mode }
        vandrexu_blocked { lba found effect ended zeros }
        vandrexu_step { ticket kind }
        vandrexu_outgoing { bytes count more queue zeros }
    };
    assert_eq!(declared, laid_out());
    // what the headers themselves assert of them
    let number = |text: &str| text.split([' ', ')']).next().and_then(|it| it.parse::<usize>().ok()).expect("a number");
    let mut sized = 0;
    for part in HEADER.split("sizeof(vandrexu_").skip(1) {
        let (name, rest) = part.split_once(") == ").expect("a struct, and its size");
        assert_eq!(number(rest), declared[&format!("vandrexu_{name}")].size, "{name}");
        sized += 1;
    }
    assert_eq!(sized, declared.len());
    for part in HEADER.split("offsetof(vandrexu_").skip(1) {
        let (name, rest) = part.split_once(", ").expect("a struct, and a field");
        let (field, rest) = rest.split_once(") == ").expect("a field, and its offset");
        let layout = &declared[&format!("vandrexu_{name}")];
        assert!(layout.fields.contains(&(field.to_owned(), number(rest))), "{name}.{field}");
    }
}

/// The functions that the header declares, as Rust declares them, without spaces.
fn functions() -> Vec<String> {
    let text = header();
    let words = text.split_whitespace().collect::<Vec<_>>().join(" ");
    let mut found = Vec::new();
    for (kind, answer) in [("uint32_t vandrexu_", "->u32"), ("size_t vandrexu_", "->usize"), ("void vandrexu_", "")] {
        for part in between(&words, kind, ";") {
            if let Some((name, rest)) = part.split_once('(').filter(|it| it.1.ends_with(')')) {
                let taken: Vec<_> =
                    rest.trim_end_matches(')').split(", ").filter(|it| *it != "void").map(argument).collect();
                found.push(format!("pubfnvandrexu_{name}({}){answer}", taken.join(",")));
            }
        }
    }
    found.sort();
    found
}

/// An argument of C as Rust declares it.
fn argument(given: &str) -> String {
    let (kind, name) = given.rsplit_once(' ').expect("an argument has a type and a name");
    let word = kind.trim_start_matches("const ");
    let rust = match word {
        "uint8_t" => "u8",
        "uint16_t" => "u16",
        "uint32_t" => "u32",
        "uint64_t" => "u64",
        "size_t" => "usize",
        other => other,
    };
    match name.strip_prefix('*') {
        Some(name) if kind.starts_with("const ") => format!("{name}:*const{rust}"),
        Some(name) => format!("{name}:*mut{rust}"),
        None => format!("{name}:{rust}"),
    }
}

#[test]
fn the_functions_are_those_of_the_header() {
    let part = between(DECLARED, "extern \"C\" {", "\n}").next().expect("functions are declared");
    let bare: String = part.split_whitespace().collect();
    let mut declared: Vec<_> =
        bare.replace(",)", ")").split(';').filter(|it| !it.is_empty()).map(str::to_owned).collect();
    declared.sort();
    assert_eq!(declared, functions());
}
