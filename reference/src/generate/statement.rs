//! What blocks state of themselves. It is put in when all code is written, since what a block is
//! depends on the code of every thread.

use std::collections::BTreeSet;

use super::program::{Source, Style};
use super::rng::Rng;
use crate::atomicity::Atomicity;
use crate::instruction::Instruction::Atomic;
use crate::instruction::{MAX_STATEMENT, NOT_STATED};
use crate::judge::Report;
use crate::op::{self, Word};
use crate::reader::{Program, VARIABLE_BYTES};

/// Has none, some or all blocks of a sound program state what they are. A careless writer's state
/// anything.
pub(super) fn state_blocks(rng: &mut Rng, source: &mut Source, style: Style) {
    let percent = rng.pick(&[0, 50, 100]).unwrap_or(0);
    for (site, report_byte) in blocks(source) {
        let stated = match style {
            Style::Careless => anything(rng),
            Style::Disciplined | Style::Careful => statement_of(rng, report_byte),
        };
        if rng.chance(percent) {
            state(source, site, stated);
        }
    }
}

fn state(source: &mut Source, site: AtomicSite, stated: u8) {
    if let Atomic { statement, .. } = &mut source.code[site.thread][site.place] {
        *statement = stated;
    }
}

/// What a block of this report byte states: the truth, but T can't be stated. Then it is mostly A,
/// which a wrong judging may take the block for.
fn statement_of(rng: &mut Rng, report_byte: u8) -> u8 {
    match report_byte {
        known @ ..=MAX_STATEMENT => known,
        _ if rng.chance(75) => Atomicity::A.report_byte(),
        _ => anything(rng),
    }
}

/// Any statement, true or false.
fn anything(rng: &mut Rng) -> u8 {
    rng.between(1, MAX_STATEMENT.into()) as u8
}

/// Gives a block of a sound program another field a: mostly a false statement; or none, or a value
/// that is no statement.
pub(super) fn change_statement(rng: &mut Rng, source: &mut Source) {
    let Some((site, report_byte)) = some_block(rng, source) else {
        return;
    };
    let false_ones: Vec<u8> = (1..=MAX_STATEMENT).filter(|&s| s != report_byte).collect();
    let changed = match rng.below(12) {
        0 => NOT_STATED,
        1 => MAX_STATEMENT + 1,
        2 => u8::MAX,
        3 => rng.between(MAX_STATEMENT.into(), 255) as u8,
        _ => rng.pick(&false_ones).unwrap_or(NOT_STATED),
    };
    state(source, site, changed);
}

/// Some ATOMIC of `blocks`. Most blocks are B or A: so that L and R are met too, it is first settled
/// what the block is.
fn some_block(rng: &mut Rng, source: &Source) -> Option<(AtomicSite, u8)> {
    let mut blocks = blocks(source);
    let kinds: BTreeSet<u8> = blocks.iter().map(|&(_, byte)| byte).collect();
    let kind = rng.pick(&Vec::from_iter(kinds))?;
    blocks.retain(|&(_, byte)| byte == kind);
    rng.pick(&blocks)
}

/// The ATOMICs of a sound program, each with the report byte of its block.
fn blocks(source: &Source) -> Vec<(AtomicSite, u8)> {
    let file = source.encode();
    let report = Report::of_sound(&file);
    let sites = atomics(&file).into_iter();
    sites
        .map(|site| (site, report.bytes()[site.report_index]))
        .collect()
}

/// Where an ATOMIC stands. What its block is plays no part.
#[derive(Clone, Copy, Debug)]
pub struct AtomicSite {
    pub thread: usize,
    pub place: usize,
    /// Its offset in the file.
    pub offset: usize,
    /// Where the byte of its block stands in a report.
    pub report_index: usize,
}

impl AtomicSite {
    /// The offset of field a, the statement.
    pub fn field(self) -> usize {
        self.offset + 1
    }
}

/// The ATOMICs of a sound file, in order.
pub fn atomics(file: &[u8]) -> Vec<AtomicSite> {
    let program = Program::read(file).unwrap_or_else(|refusal| panic!("not sound: {refusal:?}"));
    let mut section = 3 + 2 + program.variables().len() * VARIABLE_BYTES;
    let mut reported = 0;
    let mut sites = Vec::new();
    for thread in 0..program.thread_count() {
        let words = program.words(thread);
        let places = (0..words.len()).filter(|&place| words[place][0] == op::ATOMIC);
        sites.extend(places.map(|place| AtomicSite {
            thread,
            place,
            offset: section + 2 + place * size_of::<Word>(),
            report_index: reported + place,
        }));
        section += 2 + size_of_val(words);
        reported += words.len() + 1;
    }
    sites
}

/// A sound file with its statements taken out: field a of every ATOMIC made 0.
pub fn without_statements(file: &[u8]) -> Vec<u8> {
    let mut without = file.to_vec();
    for site in atomics(file) {
        without[site.field()] = NOT_STATED;
    }
    without
}
