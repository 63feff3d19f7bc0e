//! Files of vectors: a case to a line, fields between blanks (see reference/vectors/README.md).
#![allow(dead_code)] // no test program uses all of it

use std::fs;
use std::path::Path;

use hogunlas::Refusal;

#[path = "../../../reference/tests/common/changed.rs"]
mod changed;

/// The version of the standard that vectors were answered by.
#[derive(Clone, Copy, Debug, PartialEq, Eq, PartialOrd, Ord)]
pub enum Version {
    V1_0,
    V1_1,
    V1_2,
    V1_3,
    V1_4,
}

const VERSIONS: [Version; 5] = [
    Version::V1_0,
    Version::V1_1,
    Version::V1_2,
    Version::V1_3,
    Version::V1_4,
];

impl Version {
    /// Its folder of `reference/vectors/`.
    fn folder(self) -> &'static str {
        match self {
            Version::V1_0 => "",
            Version::V1_1 => "1.1",
            Version::V1_2 => "1.2",
            Version::V1_3 => "1.3",
            Version::V1_4 => "1.4",
        }
    }
}

/// One line of a vector file, split into fields.
pub struct Case<'t> {
    pub version: Version,
    pub fields: Vec<&'t str>,
    pub line: usize,
}

impl Case<'_> {
    pub fn bytes(&self, field: usize) -> Vec<u8> {
        bytes(self.fields[field])
    }

    pub fn number(&self, field: usize) -> u64 {
        number(self.fields[field])
    }

    /// The answer that starts at a field: what `answer` makes of the fields from there, with the
    /// bytes it lays into the buffer, or the refusal that they state.
    pub fn expected<T>(
        &self,
        from: usize,
        answer: impl Fn(&[&str]) -> (T, Vec<u8>),
    ) -> Result<(T, Vec<u8>), Refusal> {
        match &self.fields[from..] {
            ["refused", n, detail] => Err(Refusal {
                number: number(n) as u32,
                detail: number(detail),
            }),
            fields => Ok(answer(fields)),
        }
    }
}

pub fn number(field: &str) -> u64 {
    field.parse().expect("a decimal number")
}

/// Bytes in hexadecimal; `-` stands for none.
pub fn bytes(field: &str) -> Vec<u8> {
    if field == "-" {
        return Vec::new();
    }
    let digit = |byte: u8| char::from(byte).to_digit(16).expect("a digit") as u8;
    let pairs = field.as_bytes().chunks_exact(2);
    assert!(pairs.remainder().is_empty());
    pairs
        .map(|pair| digit(pair[0]) << 4 | digit(pair[1]))
        .collect()
}

/// Checks each line of a vector file, and that there are as many as newlines.
fn each_case(version: Version, kind: &str, mut check: impl FnMut(&Case)) {
    let vectors = Path::new(env!("CARGO_MANIFEST_DIR")).join("../reference/vectors");
    let folder = vectors.join(version.folder());
    let path = folder.join(kind).with_extension("txt");
    let text = fs::read_to_string(path).expect("a file of vectors");
    let mut cases = 0;
    for (index, line) in text.lines().enumerate() {
        check(&Case {
            version,
            fields: line.split(' ').collect(),
            line: index + 1,
        });
        cases += 1;
    }
    assert!(cases > 0);
    assert_eq!(cases, text.matches('\n').count());
}

/// Every case is answered as recorded, but for the named ones of older versions, which later ones
/// answer otherwise. `difference` says what is not as a case records it.
pub fn answers_its_vectors(kind: &str, difference: impl Fn(&Case) -> Option<String>) {
    for version in VERSIONS {
        let folder = version.folder();
        let mut changed = Vec::new();
        each_case(version, kind, |case| {
            if let Some(difference) = difference(case) {
                let can_change = changed::can_change(folder, &case.bytes(1), &case.fields);
                let at = format!("line {} of {folder}/{kind}.txt", case.line);
                assert!(can_change, "{at}: {difference}");
                changed.push(case.line);
            }
        });
        let named = changed::lines(folder, kind);
        assert_eq!(changed, named, "lines of {folder}/{kind}.txt");
    }
}
