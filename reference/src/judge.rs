//! The call judge and the report ("Atomicities"; refusal 16).

use crate::access::AccessRules;
use crate::code::Code;
use crate::judging::Judging;
use crate::reader::{Cursor, Program, MAX_INSTRUCTIONS, MAX_THREADS};
use crate::refusal::{check_buffer, Refusal};
use crate::writers::Writers;

/// The longest report: a byte for each instruction and one for each thread's whole code.
pub const MAX_REPORT: usize = MAX_THREADS * (MAX_INSTRUCTIONS + 1);

/// Judges a file, lays its report over the front of `out` and answers the report's length.
pub fn judge(file: &[u8], out: &mut [u8]) -> Result<usize, Refusal> {
    let mut report = Report::new();
    report.fill(file)?;
    let bytes = report.bytes();
    check_buffer(out, bytes.len())?;
    out[..bytes.len()].copy_from_slice(bytes);
    Ok(bytes.len())
}

/// The length of an accepted file's report.
pub fn report_length(file: &[u8]) -> Result<usize, Refusal> {
    let program = Program::read_accepted(file)?;
    Ok(program.instruction_count() + program.thread_count())
}

impl<'f> Program<'f> {
    /// Reads an accepted file, where its report doesn't matter.
    pub fn read_accepted(file: &'f [u8]) -> Result<Program<'f>, Refusal> {
        Report::new().fill(file)
    }
}

/// The report of a program. It is made here and not in the caller's buffer, because a refusal may
/// come as late as the file's last byte.
pub struct Report {
    bytes: [u8; MAX_REPORT],
    length: usize,
}

impl Report {
    pub fn new() -> Report {
        Report {
            bytes: [0; MAX_REPORT],
            length: 0,
        }
    }

    /// Reads and judges a file into this new report. The writer's first offence is remembered
    /// until the whole file is read, since all of the sender's come before it. (Filled in place:
    /// handing a report back by value would copy it.)
    pub fn fill<'f>(&mut self, file: &'f [u8]) -> Result<Program<'f>, Refusal> {
        let mut cursor = Cursor::new(file);
        let mut program = Program::without_code(&mut cursor)?;
        let writers = Writers::find(&program, cursor);
        let mut rules = AccessRules::new(program.variables());
        let mut first_offence = None;
        program.read_code(cursor, |program, thread, code| {
            rules.set_thread(thread, program.variables(), &writers);
            let offence = self.add_thread(program, &rules, code)?;
            first_offence = first_offence.or(offence);
            Ok(())
        })?;
        match first_offence {
            Some(refusal) => Err(refusal),
            None => Ok(program),
        }
    }

    /// What judging works out for a sound file, also where its writer's offences leave it without a
    /// report. Those who write files want to know.
    pub(crate) fn of_sound(file: &[u8]) -> Report {
        let mut report = Report::new();
        let refusal = report.fill(file).err();
        debug_assert!(refusal.is_none_or(Refusal::is_writers), "{refusal:?}");
        report
    }

    /// Reads and judges one thread's code; answers the writer's first offence in it. (Never
    /// inlined, so that the loop has the processor's registers to itself.)
    #[inline(never)]
    fn add_thread(
        &mut self,
        program: &Program,
        rules: &AccessRules,
        code: Code,
    ) -> Result<Option<Refusal>, Refusal> {
        let rest = &mut self.bytes[self.length..];
        let bytes = rest.first_chunk_mut().expect("room for the longest code");
        let judging = code.read(program.limits(), Judging::new(rules, bytes))?;
        let end = code.words.len();
        let (whole, first_offence) = judging.finish(end);
        self.bytes[self.length + end] = whole.report_byte();
        self.length += end + 1;
        Ok(first_offence.map(|offence| offence.refusal(code)))
    }

    pub fn bytes(&self) -> &[u8] {
        &self.bytes[..self.length]
    }
}

impl Default for Report {
    fn default() -> Self {
        Report::new()
    }
}
