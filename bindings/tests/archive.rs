//! That the crate and the header say of the archive what it is, and of the standard which it is.

mod c_compiler;
#[path = "../src/ffi.rs"]
#[allow(dead_code)] // its structs are looked at, its calls are the crate's
mod ffi;

use std::fs;
use std::mem::{offset_of, size_of};
use std::path::Path;

use c_compiler::{assert_compiled, compile};
use ffi::{Counts, Judged, Printed, Ran};
use hogunlas::MAX_THREADS; // the included ../src/ffi.rs says `use crate::MAX_THREADS`
use hogunlas_reference::{judge, machine, printout, reader, Refusal};

/// The names that the archive defines. Its first member is the index that linkers look them up in:
/// behind the magic and a header of 60 bytes a count, as many offsets of 4 bytes, and the names.
fn exported() -> Vec<String> {
    let archive = std::fs::read(env!("HOGUNLAS_ARCHIVE")).expect("the archive");
    assert!(
        archive.starts_with(b"!<arch>\n/ "),
        "an archive with an index"
    );
    let text = |bytes: &[u8]| String::from_utf8_lossy(bytes).into_owned();
    let size: usize = text(&archive[56..66]).trim().parse().expect("a size");
    let index = &archive[68..68 + size];
    let count = u32::from_be_bytes([index[0], index[1], index[2], index[3]]) as usize;
    let names = index[4 + 4 * count..].split(|&byte| byte == 0);
    names.take(count).map(text).collect()
}

/// No call is missing, and none is exported that this crate does not wrap and test.
#[test]
fn the_calls_are_the_archives() {
    let mut calls = exported();
    calls.retain(|name| name.starts_with("hogunlas_"));
    calls.sort();
    let wrapped = ["hogunlas_judge", "hogunlas_line", "hogunlas_run_by_thread"];
    assert_eq!(calls, wrapped);
}

#[test]
fn the_limits_are_the_reimplementations() {
    assert_eq!(hogunlas::MAX_FILE, reader::MAX_FILE);
    assert_eq!(MAX_THREADS, reader::MAX_THREADS);
    assert_eq!(hogunlas::MAX_REPORT, judge::MAX_REPORT);
    assert_eq!(hogunlas::MAX_LIST, machine::MAX_LIST);
    assert_eq!(hogunlas::LINE_BUFFER, printout::LINE_BUFFER);
    let largest = reader::MAX_VARIABLES * 4 + reader::MAX_LOCKS + reader::MAX_THREADS * 34;
    assert_eq!(hogunlas::MAX_STATE, largest);
}

/// Each limit stands in the header under the name it has here.
#[test]
fn the_limits_are_the_headers() {
    let header = include_str!("../../include/hogunlas.h");
    for (name, limit) in [
        ("MAX_FILE", hogunlas::MAX_FILE),
        ("MAX_THREADS", MAX_THREADS),
        ("MAX_REPORT", hogunlas::MAX_REPORT),
        ("MAX_LIST", hogunlas::MAX_LIST),
        ("MAX_STATE", hogunlas::MAX_STATE),
        ("LINE_BUFFER", hogunlas::LINE_BUFFER),
    ] {
        let definition = format!("#define HOGUNLAS_{name} {limit} ");
        assert!(header.contains(&definition), "{definition}");
    }
}

/// What C has to say of a struct: its size, and offset and size of each member, as in `src/ffi.rs`.
macro_rules! layout {
    ($c:literal, $rust:ty, $($member:ident),+) => {
        vec![
            (format!("sizeof({})", $c), size_of::<$rust>()),
            $(
                (format!("offsetof({}, {})", $c, stringify!($member)), offset_of!($rust, $member)),
                (
                    format!("sizeof((({} *)0)->{})", $c, stringify!($member)),
                    size_of_member(|of: &$rust| &of.$member),
                ),
            )+
        ]
    };
}

fn size_of_member<S, M>(_member: fn(&S) -> &M) -> usize {
    size_of::<M>()
}

#[test]
fn the_structs_are_the_headers() {
    let layouts = [
        layout!("hogunlas_judged", Judged, refusal, detail, length),
        layout!("hogunlas_counts", Counts, moved, waiting, idle),
        layout!("hogunlas_ran", Ran, refusal, detail, threads),
        layout!("hogunlas_printed", Printed, refusal, detail, length),
    ];
    let mut program = String::from("#include \"hogunlas.h\"\n");
    for (what, number) in layouts.concat() {
        program += &format!("_Static_assert({what} == {number}, \"{what}\");\n");
    }
    assert_compiled(&compile(&program, &["-fsyntax-only"]));
}

/// The version that the standard gives itself, by its line `Version 1.4.`.
fn standard_version() -> String {
    let page = Path::new(env!("CARGO_MANIFEST_DIR")).join("../docs/STANDARD.md");
    let text = fs::read_to_string(page).expect("docs/STANDARD.md");
    let mut lines = text.lines();
    let version = lines.find_map(|line| line.strip_prefix("Version "));
    let version = version.and_then(|rest| rest.split_whitespace().next());
    let version = version.expect("a line that starts with `Version `");
    version.trim_end_matches('.').to_string()
}

/// The crate, the header and the standard name one version.
#[test]
fn the_version_is_the_standards() {
    let (major, minor) = (hogunlas::STANDARD_MAJOR, hogunlas::STANDARD_MINOR);
    let header = include_str!("../../include/hogunlas.h");
    for definition in [
        format!("#define HOGUNLAS_STANDARD_MAJOR {major}\n"),
        format!("#define HOGUNLAS_STANDARD_MINOR {minor}\n"),
    ] {
        assert!(header.contains(&definition), "{definition}");
    }
    assert_eq!(standard_version(), format!("{major}.{minor}"));
}

/// Each refusal stands in the header under the reimplementation's name and number.
#[test]
fn the_refusals_are_the_headers() {
    let header = include_str!("../../include/hogunlas.h");
    for (name, number) in [
        ("BYTES_MISSING", Refusal::BYTES_MISSING),
        ("VERSION", Refusal::VERSION),
        ("COUNT", Refusal::COUNT),
        ("SECTION_LENGTH", Refusal::SECTION_LENGTH),
        ("BYTES_LEFT_OVER", Refusal::BYTES_LEFT_OVER),
        ("RECORD", Refusal::RECORD),
        ("INSTRUCTION", Refusal::INSTRUCTION),
        ("NESTING", Refusal::NESTING),
        ("ACCESS", Refusal::ACCESS),
        ("TAKE_OF_HELD", Refusal::TAKE_OF_HELD),
        ("GIVE_OF_NOT_HELD", Refusal::GIVE_OF_NOT_HELD),
        ("SETS_DIFFER", Refusal::SETS_DIFFER),
        ("BLOCK_IS_T", Refusal::BLOCK_IS_T),
        ("LIST_TOO_LONG", Refusal::LIST_TOO_LONG),
        ("THREAD_NUMBER", Refusal::THREAD_NUMBER),
        ("BUFFER_TOO_SHORT", Refusal::BUFFER_TOO_SHORT),
        ("NO_SUCH_LINE", Refusal::NO_SUCH_LINE),
        ("FALSE_STATEMENT", Refusal::FALSE_STATEMENT),
    ] {
        let line = header
            .lines()
            .find(|line| line.contains(&format!("HOGUNLAS_{name} = ")));
        let said = line.and_then(|line| line.split("= ").nth(1)).expect(name);
        let digits = said.split(|c: char| !c.is_ascii_digit()).next();
        assert_eq!(digits, Some(number.to_string().as_str()), "{name}");
    }
}
