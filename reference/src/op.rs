//! The op codes and what each asks of its instruction's fields ("The file", the table of op
//! codes).

/// The bytes of an instruction: op, a, b, c.
pub type Word = [u8; 4];

pub const SET: u8 = 0x01;
pub const COPY: u8 = 0x02;
pub const ADD: u8 = 0x03;
pub const SUB: u8 = 0x04;
pub const LESS: u8 = 0x05;
pub const MULH: u8 = 0x07;
pub const LESSS: u8 = 0x08;
pub const READ: u8 = 0x10;
pub const WRITE: u8 = 0x11;
pub const TAKE: u8 = 0x20;
pub const GIVE: u8 = 0x21;
pub const IF: u8 = 0x30;
pub const ELSE: u8 = 0x31;
pub const WHILE: u8 = 0x32;
pub const AGAIN: u8 = 0x33;
pub const ATOMIC: u8 = 0x34;
pub const END: u8 = 0x35;

/// The number that the fields b and c make together.
#[inline]
pub fn number([_, _, b, c]: Word) -> u16 {
    u16::from_be_bytes([b, c])
}

/// What reading and judging tell apart: the instructions that only touch registers are one form.
#[derive(Clone, Copy)]
pub(crate) enum Form {
    Unknown,
    Calculation,
    Read,
    Write,
    Take,
    Give,
    If,
    Else,
    While,
    Again,
    Atomic,
    End,
}

/// What a field holds.
#[derive(Clone, Copy)]
enum Field {
    Register,
    /// A variable or lock, which has to lie below a count that is the file's.
    Name,
    /// A report byte that may be stated, or 0. No mask says what is good: its form's test does.
    Statement,
    /// Half of a number or distance.
    Half,
    Unused,
}

impl Field {
    /// The bits that are 0 in a good field of any file.
    const fn zero_bits(self) -> u8 {
        match self {
            Field::Register => !7,
            Field::Name | Field::Statement | Field::Half => 0,
            Field::Unused => !0,
        }
    }
}

/// An op code's row of the table.
#[derive(Clone, Copy)]
pub(crate) struct Row {
    pub form: Form,
    /// The bits that must be 0 in the whole instruction, its bytes taken as one number.
    zero_bits: u32,
}

impl Row {
    #[inline]
    pub fn of(op: u8) -> Row {
        ROWS[usize::from(op)]
    }

    /// Whether every register exists and every unused field is 0: one test for all fields. Names
    /// and statements are left to the form's own.
    #[inline]
    pub fn fits(self, word: Word) -> bool {
        u32::from_le_bytes(word) & self.zero_bits == 0
    }

    const fn new(form: Form, a: Field, b: Field, c: Field) -> Row {
        let zero_bits = u32::from_le_bytes([0, a.zero_bits(), b.zero_bits(), c.zero_bits()]);
        Row { form, zero_bits }
    }
}

/// As wide as a byte, so that an op code needs no test before it is looked up.
static ROWS: [Row; 256] = rows();

const fn rows() -> [Row; 256] {
    use Field::{Half, Name, Register, Statement, Unused};
    let mut rows = [Row::new(Form::Unknown, Unused, Unused, Unused); 256];
    rows[SET as usize] = Row::new(Form::Calculation, Register, Half, Half);
    rows[COPY as usize] = Row::new(Form::Calculation, Register, Register, Unused);
    rows[ADD as usize] = Row::new(Form::Calculation, Register, Register, Register);
    rows[SUB as usize] = Row::new(Form::Calculation, Register, Register, Register);
    rows[LESS as usize] = Row::new(Form::Calculation, Register, Register, Register);
    rows[MULH as usize] = Row::new(Form::Calculation, Register, Register, Register);
    rows[LESSS as usize] = Row::new(Form::Calculation, Register, Register, Register);
    rows[READ as usize] = Row::new(Form::Read, Register, Name, Unused);
    rows[WRITE as usize] = Row::new(Form::Write, Register, Name, Unused);
    rows[TAKE as usize] = Row::new(Form::Take, Name, Unused, Unused);
    rows[GIVE as usize] = Row::new(Form::Give, Name, Unused, Unused);
    rows[IF as usize] = Row::new(Form::If, Register, Half, Half);
    rows[ELSE as usize] = Row::new(Form::Else, Unused, Half, Half);
    rows[WHILE as usize] = Row::new(Form::While, Register, Half, Half);
    rows[AGAIN as usize] = Row::new(Form::Again, Unused, Half, Half);
    rows[ATOMIC as usize] = Row::new(Form::Atomic, Statement, Half, Half);
    rows[END as usize] = Row::new(Form::End, Unused, Unused, Unused);
    rows
}
