//! Reading a file front to back, the first offence deciding ("The file"; refusals 1 to 8).

use crate::code::{Code, Limits, OnlyReading};
use crate::instruction::Instruction;
use crate::op::Word;
use crate::refusal::Refusal;

pub const MAX_LOCKS: usize = 16;
pub const MAX_THREADS: usize = 8;
pub const MAX_VARIABLES: usize = 64;
pub const MAX_INSTRUCTIONS: usize = 1024;
pub const VARIABLE_BYTES: usize = 6;
pub const INSTRUCTION_BYTES: usize = 4;

/// The length of the largest sound file: header, variable section, eight code sections.
pub const MAX_FILE: usize = 3
    + (2 + MAX_VARIABLES * VARIABLE_BYTES)
    + MAX_THREADS * (2 + MAX_INSTRUCTIONS * INSTRUCTION_BYTES);

/// Who may use a variable.
#[derive(Clone, Copy, Debug, PartialEq, Eq)]
pub enum Kind {
    Guarded { lock: u8 },
    Own { thread: u8 },
    Fixed,
    Open,
}

#[derive(Clone, Copy, Debug, PartialEq, Eq)]
pub struct Variable {
    pub kind: Kind,
    pub initial: u32,
}

/// A file's contents as far as it is read. Code stays in the file: nothing is copied or allocated.
pub struct Program<'f> {
    lock_count: usize,
    thread_count: usize,
    variable_count: usize,
    variables: [Variable; MAX_VARIABLES],
    code: [Code<'f>; MAX_THREADS],
}

impl<'f> Program<'f> {
    /// Reads a sound file, or refuses it with its first offence.
    pub fn read(file: &'f [u8]) -> Result<Program<'f>, Refusal> {
        let mut cursor = Cursor::new(file);
        let mut program = Program::without_code(&mut cursor)?;
        program.read_code(cursor, |program, _, code| {
            code.read(program.limits(), OnlyReading)?;
            Ok(())
        })?;
        Ok(program)
    }

    /// Reads a file's header and variables.
    #[inline]
    pub(crate) fn without_code(cursor: &mut Cursor<'f>) -> Result<Program<'f>, Refusal> {
        let mut program = Program::with_header(cursor)?;
        program.read_variables(cursor)?;
        Ok(program)
    }

    /// The code sections from the cursor on, up to the first whose length or bytes are refused:
    /// reading comes to that refusal or to an earlier one.
    #[inline]
    pub(crate) fn code_ahead(&self, mut cursor: Cursor<'f>) -> impl Iterator<Item = Code<'f>> {
        (0..self.thread_count).map_while(move |_| cursor.code().ok())
    }

    /// Reads the code section by section to the file's end; `visit` reads each thread's, with a
    /// visitor of its own.
    #[inline]
    pub(crate) fn read_code(
        &mut self,
        mut cursor: Cursor<'f>,
        mut visit: impl FnMut(&Program, usize, Code) -> Result<(), Refusal>,
    ) -> Result<(), Refusal> {
        for thread in 0..self.thread_count {
            let code = cursor.code()?;
            visit(self, thread, code)?;
            self.code[thread] = code;
        }
        cursor.finish()
    }

    fn with_header(cursor: &mut Cursor<'f>) -> Result<Program<'f>, Refusal> {
        cursor.byte(Refusal::VERSION, |version| version == 1)?;
        let lock_count = cursor.byte(Refusal::COUNT, |n| n <= MAX_LOCKS)?;
        let thread_count = cursor.byte(Refusal::COUNT, |n| (1..=MAX_THREADS).contains(&n))?;
        let unused = Variable {
            kind: Kind::Open,
            initial: 0,
        };
        Ok(Program {
            lock_count,
            thread_count,
            variable_count: 0,
            variables: [unused; MAX_VARIABLES],
            code: [Code::default(); MAX_THREADS],
        })
    }

    fn read_variables(&mut self, cursor: &mut Cursor) -> Result<(), Refusal> {
        let (start, bytes) = cursor.section(VARIABLE_BYTES, MAX_VARIABLES)?;
        let (records, _) = bytes.as_chunks::<VARIABLE_BYTES>();
        for (number, &[kind, g, w, x, y, z]) in records.iter().enumerate() {
            let Some(kind) = self.decode_kind(kind, g) else {
                let offset = start + number * VARIABLE_BYTES;
                return Err(Refusal::new(Refusal::RECORD, offset));
            };
            let initial = u32::from_be_bytes([w, x, y, z]);
            self.variables[number] = Variable { kind, initial };
        }
        self.variable_count = records.len();
        Ok(())
    }

    fn decode_kind(&self, kind: u8, g: u8) -> Option<Kind> {
        match (kind, g) {
            (0, lock) if usize::from(lock) < self.lock_count => Some(Kind::Guarded { lock }),
            (1, thread) if usize::from(thread) < self.thread_count => Some(Kind::Own { thread }),
            (2, 0) => Some(Kind::Fixed),
            (3, 0) => Some(Kind::Open),
            _ => None,
        }
    }

    pub(crate) fn limits(&self) -> Limits {
        Limits {
            variables: self.variable_count as u8,
            locks: self.lock_count as u8,
        }
    }

    pub fn lock_count(&self) -> usize {
        self.lock_count
    }

    pub fn thread_count(&self) -> usize {
        self.thread_count
    }

    pub fn variables(&self) -> &[Variable] {
        &self.variables[..self.variable_count]
    }

    /// One thread's code as it stands in the file.
    #[inline]
    pub fn words(&self, thread: usize) -> &'f [Word] {
        self.code[thread].words
    }

    /// All threads' code; absent threads have none.
    pub(crate) fn all_words(&self) -> [&'f [Word]; MAX_THREADS] {
        self.code.map(|code| code.words)
    }

    /// One thread's code, decoded.
    pub fn code(&self, thread: usize) -> Vec<Instruction> {
        let decode = |&word| Instruction::decode(word).expect("a sound file's instruction");
        self.words(thread).iter().map(decode).collect()
    }

    /// How many instructions all threads have together.
    pub fn instruction_count(&self) -> usize {
        self.code.iter().map(|code| code.words.len()).sum()
    }
}

/// How far the file is read.
#[derive(Clone, Copy)]
pub(crate) struct Cursor<'f> {
    file: &'f [u8],
    at: usize,
}

impl<'f> Cursor<'f> {
    pub fn new(file: &'f [u8]) -> Cursor<'f> {
        Cursor { file, at: 0 }
    }

    /// The next `count` bytes, or refusal 1 with the file's length.
    fn take(&mut self, count: usize) -> Result<&'f [u8], Refusal> {
        let rest = &self.file[self.at..];
        if rest.len() < count {
            return Err(Refusal::new(Refusal::BYTES_MISSING, self.file.len()));
        }
        self.at += count;
        Ok(&rest[..count])
    }

    /// A field of one byte, refused with `number` at its own offset if it is not good.
    fn byte(&mut self, number: u32, good: impl Fn(usize) -> bool) -> Result<usize, Refusal> {
        let offset = self.at;
        let value = usize::from(self.take(1)?[0]);
        if !good(value) {
            return Err(Refusal::new(number, offset));
        }
        Ok(value)
    }

    /// A section of records: its length, tested before its bytes; then its offset and bytes.
    fn section(&mut self, record: usize, most: usize) -> Result<(usize, &'f [u8]), Refusal> {
        let offset = self.at;
        let field = self.take(2)?;
        let length = usize::from(u16::from_be_bytes([field[0], field[1]]));
        if length % record != 0 || length > record * most {
            return Err(Refusal::new(Refusal::SECTION_LENGTH, offset));
        }
        Ok((self.at, self.take(length)?))
    }

    /// A code section, its instructions not yet read.
    fn code(&mut self) -> Result<Code<'f>, Refusal> {
        let (start, bytes) = self.section(INSTRUCTION_BYTES, MAX_INSTRUCTIONS)?;
        let (words, _) = bytes.as_chunks();
        Ok(Code { start, words })
    }

    /// The file ends here, or bytes are left over.
    fn finish(&self) -> Result<(), Refusal> {
        if self.at < self.file.len() {
            return Err(Refusal::new(Refusal::BYTES_LEFT_OVER, self.at));
        }
        Ok(())
    }
}
