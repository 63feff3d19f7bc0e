//! The vectors of older versions of the standard that a later version answers otherwise.

/// The versions of vectors, their kinds, and the lines of their files.
const CHANGED: [(&str, &str, &[usize]); 14] = [
    (
        "",
        "judge",
        &[
            38, 45, 51, 74, 77, 79, 80, 140, 142, 167, 168, 171, 219, 232, 240, 249, 304, 327, 328,
            329, 330, 365, 370, 403, 412, 434, 435, 446,
        ],
    ),
    (
        "",
        "run",
        &[30, 37, 173, 176, 198, 226, 248, 259, 289, 456, 467],
    ),
    ("", "line", &[4, 84, 109, 117, 223, 250, 369]),
    (
        "",
        "bench",
        &[
            20, 42, 65, 67, 75, 83, 94, 136, 163, 180, 193, 205, 222, 231, 248, 252, 265, 266, 274,
            275, 306, 307, 349, 357, 367, 413, 425,
        ],
    ),
    ("1.1", "run", &[39, 45, 112, 219, 414]),
    ("1.1", "line", &[424, 464]),
    ("1.1", "bench", &[101, 169, 313]),
    ("1.2", "judge", &[345]),
    ("1.2", "run", &[184, 257, 276, 290]),
    ("1.2", "line", &[48, 188, 288, 363]),
    ("1.2", "bench", &[123]),
    ("1.3", "judge", &[291]),
    ("1.3", "run", &[381, 460]),
    ("1.3", "line", &[21, 145, 250, 486]),
];

/// The lines of a version's file of a kind that are answered otherwise.
pub fn lines(version: &str, kind: &str) -> &'static [usize] {
    let named = CHANGED.iter().find(|of| (of.0, of.1) == (version, kind));
    named.map_or(&[], |of| of.2)
}

/// Whether a later version may answer a case otherwise, by its file and its fields, of which the
/// last ones are the recorded answer.
pub fn can_change(version: &str, file: &[u8], fields: &[&str]) -> bool {
    refused_for_a_statement(file, fields)
        || refused_for_an_op(file, fields)
        || version.is_empty() && reads_what_no_other_thread_writes(file)
}

/// Whether a case was refused by 7 for an ATOMIC whose field a is a statement. Version 1.3 reads it;
/// before, "it had to be 0, and everything else was a 7".
fn refused_for_a_statement(file: &[u8], fields: &[&str]) -> bool {
    let Some((7, at)) = recorded_refusal(fields) else {
        return false;
    };
    matches!(file[at..], [0x34, 1..=4, ..])
}

/// Whether a case was refused by 7 for the op code of MULH or LESSS, with fields that are registers.
/// Since version 1.4 "op codes 07 and 08 are MULH and LESSS .. before, each was a 7".
fn refused_for_an_op(file: &[u8], fields: &[&str]) -> bool {
    let Some((7, at)) = recorded_refusal(fields) else {
        return false;
    };
    matches!(file[at..], [0x07 | 0x08, 0..=7, 0..=7, 0..=7, ..])
}

/// The number and the detail of a case's refusal: its last fields, or what `bench` printed.
fn recorded_refusal(fields: &[&str]) -> Option<(u32, usize)> {
    if let [.., "refused", number, detail] = fields {
        return Some((number.parse().ok()?, detail.parse().ok()?));
    }
    let printed = text(fields.last()?)?;
    let (number, detail) = printed.strip_prefix("refused ")?.split_once(" at ")?;
    Some((number.parse().ok()?, detail.trim_end().parse().ok()?))
}

/// The text that a field has in hexadecimal, if it is one.
fn text(field: &str) -> Option<String> {
    let pairs = field.as_bytes().chunks(2);
    let byte = |pair: &[u8]| u8::from_str_radix(std::str::from_utf8(pair).ok()?, 16).ok();
    let bytes: Option<Vec<u8>> = pairs.map(byte).collect();
    String::from_utf8(bytes?).ok()
}

/// Whether a sound file has a READ of an open variable that no other thread's code has a WRITE of. In
/// version 1.1 it is B, in 1.0 it was A.
fn reads_what_no_other_thread_writes(file: &[u8]) -> bool {
    let (records, code) = sections(file);
    let accesses = |op: u8| {
        let words = code.iter().enumerate().flat_map(|(thread, words)| {
            let words = words.chunks(4).filter(move |word| word[0] == op);
            words.map(move |word| (thread, word[2]))
        });
        words.collect::<Vec<(usize, u8)>>()
    };
    let writes = accesses(0x11);
    let is_open = |variable: u8| records[usize::from(variable) * 6] == 3;
    accesses(0x10).iter().any(|&(thread, variable)| {
        let is_other = |write: &(usize, u8)| write.0 != thread && write.1 == variable;
        is_open(variable) && !writes.iter().any(is_other)
    })
}

/// The variable section and the code sections.
fn sections(file: &[u8]) -> (&[u8], Vec<&[u8]>) {
    let mut at = 3;
    let mut section = || {
        let length = usize::from(u16::from_be_bytes([file[at], file[at + 1]]));
        at += 2 + length;
        &file[at - length..at]
    };
    let records = section();
    (records, (0..file[2]).map(|_| section()).collect())
}
