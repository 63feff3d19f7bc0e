//! What comments quote stands in docs/STANDARD.md, and no comment cites a paper that is not in the
//! tree.
//!
//! A quotation stands between double quotation marks; two points between blanks are words left
//! out, and a first letter may be large or small. What is quoted from elsewhere (code, a printed
//! word) stands between backticks instead.

use std::fs;
use std::path::{Path, PathBuf};

use hogunlas_reference::standard::Page;

fn root() -> PathBuf {
    Path::new(env!("CARGO_MANIFEST_DIR")).join("..")
}

/// The files below a folder, in order, without what is built.
fn files(folder: &Path, found: &mut Vec<PathBuf>) {
    let entries = fs::read_dir(folder).unwrap_or_else(|_| panic!("no {}", folder.display()));
    let mut paths: Vec<PathBuf> = entries
        .map(|entry| entry.expect("an entry").path())
        .collect();
    paths.sort();
    for path in paths {
        if !path.is_dir() {
            found.push(path);
        } else if !path.ends_with("target") && !path.ends_with("out") {
            files(&path, found);
        }
    }
}

/// All texts of these folders, each with its path from the root.
fn texts(folders: &[&str]) -> Vec<(PathBuf, String)> {
    let mut found = Vec::new();
    for folder in folders {
        files(&root().join(folder), &mut found);
    }
    found
        .into_iter()
        .filter_map(|path| {
            // A station program is no text.
            let text = String::from_utf8(fs::read(&path).expect("a file")).ok()?;
            let name = path.strip_prefix(root()).expect("below the root");
            Some((name.to_path_buf(), text))
        })
        .collect()
}

/// What begins a comment, by the file's ending; nothing for files that are no code.
fn marker(path: &Path) -> Option<&'static str> {
    match path.extension()?.to_str()? {
        "antt" => Some("--"),
        "rt" | "rs" | "h" | "c" => Some("//"),
        "edit" | "toml" => Some("#"),
        _ => None,
    }
}

/// The comments of a text: lines of comment that follow each other are one.
fn comments(text: &str, marker: &str) -> Vec<String> {
    let mut comments = Vec::new();
    let mut whole = String::new();
    let mut in_block = false;
    for line in text.lines() {
        match comment_line(line, marker, &mut in_block) {
            Some(part) => whole.extend([" ", part]),
            None => {
                comments.push(std::mem::take(&mut whole));
                comments.extend(behind_code(line, marker).map(str::to_string));
            }
        }
    }
    comments.push(whole);
    comments
        .iter()
        .map(|comment| joined(comment))
        .filter(|comment| !comment.is_empty())
        .collect()
}

/// The words of a line that is comment, also within `/*` and `*/`.
fn comment_line<'l>(line: &'l str, marker: &str, in_block: &mut bool) -> Option<&'l str> {
    let line = line.trim();
    if marker == "//" && (*in_block || line.starts_with("/*")) {
        *in_block = !line.ends_with("*/");
        return Some(line.trim_matches(['/', '*', ' ']));
    }
    let words = line.strip_prefix(marker)?;
    Some(words.trim_start_matches(['/', '!', '-']))
}

/// A comment behind code, on the same line.
fn behind_code<'l>(line: &'l str, marker: &str) -> Option<&'l str> {
    let mut in_text = false;
    let bytes = line.as_bytes();
    for at in 1..bytes.len() {
        let escaped = bytes[at - 1] == b'\\' || bytes[at - 1] == b'\'';
        if bytes[at] == b'"' && !escaped {
            in_text = !in_text;
        } else if !in_text && bytes[at - 1] == b' ' && bytes[at..].starts_with(marker.as_bytes()) {
            return Some(&line[at + marker.len()..]);
        } else if !in_text && marker == "//" && bytes[at..].starts_with(b"/*") {
            return Some(line[at..].trim_matches(['/', '*', ' ']));
        }
    }
    None
}

/// One blank between words.
fn joined(text: &str) -> String {
    text.split_whitespace().collect::<Vec<&str>>().join(" ")
}

/// A quotation of a comment, and whether it is cited as a title.
#[derive(Debug, PartialEq)]
struct Quotation {
    words: String,
    is_title: bool,
}

/// The quotations of a comment. What stands between backticks is none.
fn quotations(comment: &str) -> Vec<Quotation> {
    let mut found: Vec<Quotation> = Vec::new();
    let (mut rest, mut after_title) = (comment, false);
    while let Some(at) = rest.find(['"', '`']) {
        let (before, here) = rest.split_at(at);
        let ticks = here.len() - here.trim_start_matches('`').len();
        let fence = if ticks > 0 { &here[..ticks] } else { "\"" };
        let Some(length) = here[fence.len()..].find(fence) else {
            assert!(ticks > 0, "a quotation without an end: {comment}");
            return found;
        };
        let words = &here[fence.len()..fence.len() + length];
        rest = &here[2 * fence.len() + length..];
        if ticks == 0 {
            let is_title = before.to_lowercase().ends_with("the standard, ")
                || after_title && [", ", "; "].contains(&before);
            after_title = is_title;
            let words = words.to_string();
            found.push(Quotation { words, is_title });
        }
    }
    found
}

/// The quotations in the comments of a text.
fn quoted(text: &str, marker: &str) -> Vec<Quotation> {
    let comments = comments(text, marker);
    comments
        .iter()
        .flat_map(|comment| quotations(comment))
        .collect()
}

/// Without the marks of code and emphasis.
fn plain(text: &str) -> String {
    joined(&text.replace(['`', '*'], ""))
}

/// Whether the pieces of a quotation stand on the page, one after the other.
fn stands(page: &str, words: &str) -> bool {
    let words = format!(" {} ", plain(words));
    let mut rest = page;
    words.split(" .. ").all(|piece| {
        let piece = piece.trim().trim_end_matches('.');
        let found = other_cases(piece)
            .iter()
            .filter_map(|piece| rest.find(piece))
            .min();
        let at = found.map(|at| at + piece.len());
        rest = at.map_or("", |at| &rest[at..]);
        at.is_some()
    })
}

/// With a small and with a large first letter.
fn other_cases(piece: &str) -> [String; 2] {
    let mut letters = piece.chars();
    let first = letters.next().map(String::from).unwrap_or_default();
    [first.to_lowercase(), first.to_uppercase()].map(|first| first + letters.as_str())
}

const CODE: [&str; 4] = ["crates", "include", "bindings", "reference"];

#[test]
fn every_quotation_stands_in_the_standard() {
    let page = Page::read();
    let text = plain(&page.text);
    let mut wrong = Vec::new();
    let mut met = 0;
    for (path, file) in texts(&CODE) {
        let Some(marker) = marker(&path) else {
            continue;
        };
        for quotation in quoted(&file, marker) {
            met += 1;
            let right = match quotation.is_title {
                true => page.titles.contains(&quotation.words),
                false => stands(&text, &quotation.words),
            };
            if !right {
                wrong.push(format!("{}: {}", path.display(), quotation.words));
            }
        }
    }
    assert!(met > 200, "only {met} quotations");
    assert!(
        wrong.is_empty(),
        "not in docs/STANDARD.md:\n{}",
        wrong.join("\n")
    );
}

/// The sections of the page by their titles, each with its subsections, without marks.
fn sections(page: &str) -> Vec<(String, String)> {
    let level = |line: &str| line.len() - line.trim_start_matches('#').len();
    let lines: Vec<&str> = page.lines().collect();
    let heads = (0..lines.len()).filter(|&at| level(lines[at]) > 0);
    heads
        .map(|head| {
            let own = level(lines[head]);
            let inner = lines[head + 1..]
                .iter()
                .take_while(|line| level(line) == 0 || level(line) > own);
            let text = inner.copied().collect::<Vec<&str>>().join("\n");
            let title = lines[head].trim_matches(['#', ' ']).to_string();
            (title, plain(&text))
        })
        .collect()
}

/// Whether a file holds definitions that a reader must believe.
fn is_believed(path: &Path) -> bool {
    let has = |name: &str| path.iter().any(|part| part == name);
    has("crates") && has("specs") && !has("Internal")
}

/// A reader finds a definition's sentence by the sections that its file cites.
#[test]
fn a_definition_cites_the_section_that_it_quotes() {
    let page = Page::read();
    let sections = sections(&page.text);
    let mut wrong = Vec::new();
    let mut met = 0;
    for (path, file) in texts(&["crates"]) {
        if !is_believed(&path) {
            continue;
        }
        let all = quoted(&file, "--")
            .into_iter()
            .map(|quotation| quotation.words);
        let (titles, sentences): (Vec<String>, Vec<String>) =
            all.partition(|words| page.titles.contains(words));
        let cited: Vec<&String> = sections
            .iter()
            .filter(|(title, _)| titles.contains(title))
            .map(|(_, text)| text)
            .collect();
        for words in sentences {
            met += 1;
            if !cited.iter().any(|text| stands(text, &words)) {
                wrong.push(format!("{}: {words}", path.display()));
            }
        }
    }
    assert!(met > 80, "only {met} quotations of definitions");
    assert!(
        wrong.is_empty(),
        "in no section that the file cites:\n{}",
        wrong.join("\n")
    );
}

/// The first citation of a paper or of a request that is not in the tree: a word, then a digit.
fn cited(words: &str) -> Option<String> {
    let words_then_digit = ["document ", "documents ", "source ", "No. "];
    let cited = words_then_digit.iter().flat_map(|word| {
        words
            .match_indices(word)
            .map(|(at, _)| &words[at..])
            .filter(|text| text[word.len()..].starts_with(|digit: char| digit.is_ascii_digit()))
    });
    let shown = |text: &str| text.split(' ').take(2).collect::<Vec<&str>>().join(" ");
    cited.map(shown).next()
}

#[test]
fn no_comment_cites_a_paper_that_is_not_in_the_tree() {
    let mut wrong = Vec::new();
    let readme = fs::read_to_string(root().join("README.md")).expect("README.md");
    let all = texts(&[&CODE[..], &["examples"]].concat());
    assert!(all.len() > 300, "only {} texts", all.len());
    for (path, file) in all
        .into_iter()
        .chain([(PathBuf::from("README.md"), readme)])
    {
        let is_code = path.extension().is_some_and(|ending| ending != "toml");
        let words = match marker(&path) {
            Some(marker) if is_code => comments(&file, marker).join(" "),
            _ => joined(&file),
        };
        let words = words.replace("Document", "document");
        wrong.extend(cited(&words).map(|text| format!("{}: {text}", path.display())));
    }
    assert!(wrong.is_empty(), "cited:\n{}", wrong.join("\n"));
}

/// The search sees what it is meant to see.
#[test]
fn a_wrong_quotation_is_found() {
    let antt = "-- a (the standard, \"The file\", \"Cases\"; \"none\": \"op,\n-- a .. c\"), `b\"x\"`\nx = y -- \"z\"\n";
    let found: Vec<(String, bool)> = quoted(antt, "--")
        .into_iter()
        .map(|quotation| (quotation.words, quotation.is_title))
        .collect();
    let wanted = [
        ("The file", true),
        ("Cases", true),
        ("none", true),
        ("op, a .. c", false),
        ("z", false),
    ];
    assert_eq!(
        found,
        wanted.map(|(words, is_title)| (words.to_string(), is_title))
    );
    let c = "/* a \"b\n * c\" */\nint x; /* \"d\" */\nchar *s = \"// e\"; // \"f\"\n";
    let found: Vec<String> = quoted(c, "//")
        .into_iter()
        .map(|quotation| quotation.words)
        .collect();
    assert_eq!(found, ["b c", "d", "f"]);
    assert!(stands("One two three four.", "one .. three"));
    assert!(!stands("One two three four.", "three .. one"));
    assert!(!stands("One two three four.", "one three"));
}
