//! The printout, line by line and whole ("Line and bench"; refusals 17 and 16).

use crate::judge::Report;
use crate::op::Word;
use crate::reader::{Program, Variable, MAX_FILE, MAX_THREADS};
use crate::refusal::{check_buffer, Refusal};
use crate::text::Text;

/// The buffer that `line` needs, whatever the line's own length.
pub const LINE_BUFFER: usize = 48;

/// The bytes that `bench` reads: one more than the largest file, to see that bytes are left over.
pub const BENCH_INPUT: usize = MAX_FILE + 1;

/// Lays line `i` of an accepted file's printout over the front of `out`; answers its length.
pub fn line(file: &[u8], i: u64, out: &mut [u8]) -> Result<usize, Refusal> {
    let mut report = Report::new();
    let program = report.fill(file)?;
    let printout = Printout::new(&program, &report);
    let Some(line) = printout.line(i) else {
        return Err(Refusal::new(Refusal::NO_SUCH_LINE, printout.line_count()));
    };
    check_buffer(out, LINE_BUFFER)?;
    let mut text = [0; LINE_BUFFER];
    let length = Text::write(line, &mut text);
    out[..length].copy_from_slice(&text[..length]);
    Ok(length)
}

/// How many lines an accepted file's printout has.
pub fn line_count(file: &[u8]) -> Result<u64, Refusal> {
    let mut report = Report::new();
    let program = report.fill(file)?;
    Ok(Printout::new(&program, &report).line_count() as u64)
}

/// The output of the program `bench`: all lines, or the refusal.
pub fn bench(input: &[u8]) -> Vec<u8> {
    let file = &input[..input.len().min(BENCH_INPUT)];
    print_all(file).unwrap_or_else(|refusal| {
        format!("refused {} at {}\n", refusal.number, refusal.detail).into_bytes()
    })
}

/// All lines, written one after the other into one buffer.
fn print_all(file: &[u8]) -> Result<Vec<u8>, Refusal> {
    let mut report = Report::new();
    let program = report.fill(file)?;
    let printout = Printout::new(&program, &report);
    let mut output = vec![0; printout.line_count() * LINE_BUFFER];
    let mut length = 0;
    for part in printout.parts() {
        for index in 0..printout.length(part) {
            let room = output[length..].first_chunk_mut();
            let room = room.expect("a buffer's length for each line");
            length += Text::write(printout.line_of(part, index), room);
        }
    }
    output.truncate(length);
    Ok(output)
}

/// What a line is about.
#[derive(Clone, Copy)]
pub(crate) enum Line {
    Version,
    Locks(usize),
    Threads(usize),
    Variables(usize),
    Variable(usize, Variable),
    /// A thread and how many instructions it has.
    Code(usize, usize),
    /// A place, the instruction there and its report byte.
    Instruction(usize, Word, u8),
    /// A thread and its whole code's report byte.
    Whole(usize, u8),
}

/// Lines of one sort that follow each other.
#[derive(Clone, Copy)]
enum Part {
    Header,
    Variables,
    /// A thread's code section.
    Code(usize),
    Wholes,
}

/// Version, locks, threads, and the variable section's length.
const HEADER_LINES: usize = 4;

/// An accepted program with its report, seen as lines.
struct Printout<'p> {
    program: &'p Program<'p>,
    /// Each thread's part of the report.
    reports: [&'p [u8]; MAX_THREADS],
}

impl<'p> Printout<'p> {
    fn new(program: &'p Program, report: &'p Report) -> Printout<'p> {
        let mut reports = [&[][..]; MAX_THREADS];
        let mut rest = report.bytes();
        for (thread, part) in (0..program.thread_count()).zip(&mut reports) {
            (*part, rest) = rest.split_at(program.words(thread).len() + 1);
        }
        Printout { program, reports }
    }

    /// All parts in their order.
    fn parts(&self) -> impl Iterator<Item = Part> {
        let code = (0..self.program.thread_count()).map(Part::Code);
        let before = [Part::Header, Part::Variables];
        before.into_iter().chain(code).chain([Part::Wholes])
    }

    /// How many lines a part has.
    fn length(&self, part: Part) -> usize {
        match part {
            Part::Header => HEADER_LINES,
            Part::Variables => self.program.variables().len(),
            Part::Code(thread) => 1 + self.program.words(thread).len(),
            Part::Wholes => self.program.thread_count(),
        }
    }

    fn line_count(&self) -> usize {
        self.parts().map(|part| self.length(part)).sum()
    }

    /// The line with a number, if there is one.
    fn line(&self, i: u64) -> Option<Line> {
        let mut index = usize::try_from(i).ok()?;
        for part in self.parts() {
            let length = self.length(part);
            if index < length {
                return Some(self.line_of(part, index));
            }
            index -= length;
        }
        None
    }

    /// A line of a part, by its index there.
    #[inline]
    fn line_of(&self, part: Part, index: usize) -> Line {
        let program = self.program;
        match (part, index) {
            (Part::Header, 0) => Line::Version,
            (Part::Header, 1) => Line::Locks(program.lock_count()),
            (Part::Header, 2) => Line::Threads(program.thread_count()),
            (Part::Header, _) => Line::Variables(program.variables().len()),
            (Part::Variables, number) => Line::Variable(number, program.variables()[number]),
            (Part::Code(thread), 0) => Line::Code(thread, program.words(thread).len()),
            (Part::Code(thread), _) => {
                let place = index - 1;
                let word = program.words(thread)[place];
                Line::Instruction(place, word, self.reports[thread][place])
            }
            (Part::Wholes, thread) => {
                let end = program.words(thread).len();
                Line::Whole(thread, self.reports[thread][end])
            }
        }
    }
}
