//! The page as titles, fenced blocks and tables.

use std::fs;
use std::path::Path;

/// A fenced block: `KIND NAME` or `KIND NAME: ARGUMENT` behind the fence, then its lines.
#[derive(Debug)]
pub struct Block {
    pub kind: String,
    pub name: String,
    pub argument: String,
    pub lines: Vec<String>,
}

/// A table. Its head names it.
#[derive(Debug)]
pub struct Table {
    pub head: Vec<String>,
    pub rows: Vec<Vec<String>>,
}

/// The whole page.
pub struct Page {
    pub text: String,
    pub titles: Vec<String>,
    pub blocks: Vec<Block>,
    pub tables: Vec<Table>,
}

impl Page {
    /// The page of this repository.
    pub fn read() -> Page {
        let path = Path::new(env!("CARGO_MANIFEST_DIR")).join("../docs/STANDARD.md");
        Page::parse(fs::read_to_string(path).expect("docs/STANDARD.md"))
    }

    pub fn parse(text: String) -> Page {
        let mut page = Page {
            text: String::new(),
            titles: Vec::new(),
            blocks: Vec::new(),
            tables: Vec::new(),
        };
        let mut lines = text.lines().peekable();
        while let Some(line) = lines.next() {
            if let Some(info) = line.strip_prefix("```") {
                page.blocks.push(block(info, &mut lines));
            } else if line.starts_with('#') {
                page.titles.push(line.trim_matches(['#', ' ']).to_string());
            } else if line.starts_with('|') {
                let mut rows = vec![cells(line)];
                while let Some(row) = lines.next_if(|line| line.starts_with('|')) {
                    rows.push(cells(row));
                }
                page.tables.push(table(rows));
            }
        }
        page.text = text;
        page
    }

    /// The one table with this head, its cells separated by ` | `.
    pub fn table(&self, head: &str) -> &Table {
        let mut tables = self.tables.iter().filter(|table| table.is(head));
        let table = tables.next();
        assert!(tables.next().is_none(), "several tables `{head}`");
        table.unwrap_or_else(|| panic!("no table `{head}`"))
    }

    /// The blocks of a kind; there are some.
    pub fn blocks(&self, kind: &str) -> Vec<&Block> {
        let of_kind = |block: &&Block| block.kind == kind;
        let blocks: Vec<&Block> = self.blocks.iter().filter(of_kind).collect();
        assert!(!blocks.is_empty(), "no block `{kind}`");
        blocks
    }
}

impl Table {
    pub fn is(&self, head: &str) -> bool {
        self.head.join(" | ") == head
    }
}

/// A block up to its closing fence.
fn block<'t>(info: &str, lines: &mut impl Iterator<Item = &'t str>) -> Block {
    let (head, argument) = info.split_once(": ").unwrap_or((info, ""));
    let (kind, name) = head.split_once(' ').unwrap_or((head, ""));
    let mut block = Block {
        kind: kind.to_string(),
        name: name.to_string(),
        argument: argument.to_string(),
        lines: Vec::new(),
    };
    loop {
        let line = lines.next().expect("a closing fence");
        if line == "```" {
            return block;
        }
        block.lines.push(line.to_string());
    }
}

/// The cells of a row, without the backticks of one that is code.
fn cells(line: &str) -> Vec<String> {
    let row = line.strip_prefix('|').and_then(|row| row.strip_suffix('|'));
    let row = row.unwrap_or_else(|| panic!("a row without its last bar: {line}"));
    row.split('|').map(cell).collect()
}

fn cell(text: &str) -> String {
    let text = text.trim();
    let code = text
        .strip_prefix('`')
        .and_then(|text| text.strip_suffix('`'));
    match code {
        Some(code) if !code.contains('`') => code.trim().to_string(),
        _ => text.to_string(),
    }
}

/// A table from its head, the line of dashes and its rows, all equally wide.
fn table(mut rows: Vec<Vec<String>>) -> Table {
    let body = rows.split_off(2.min(rows.len()));
    let [head, dashes] = <[Vec<String>; 2]>::try_from(rows).expect("a head and a line of dashes");
    assert!(dashes.iter().all(|cell| cell == "---"), "dashes: {head:?}");
    for row in &body {
        assert_eq!(row.len(), head.len(), "cells of {row:?}");
    }
    assert!(!body.is_empty(), "no rows: {head:?}");
    Table { head, rows: body }
}
