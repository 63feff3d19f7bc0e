//! A line's text: raw fields in capital hexadecimal, then names and decimal values ("Line and
//! bench").

use crate::atomicity::Atomicity;
use crate::instruction::NOT_STATED;
use crate::op::{self, Word};
use crate::printout::{Line, LINE_BUFFER};
use crate::reader::{Kind, Variable, INSTRUCTION_BYTES, VARIABLE_BYTES};

/// The front of a buffer, written so far. The longest line, of a variable guarded by k15, has 42
/// bytes.
pub(crate) struct Text<'b> {
    buffer: &'b mut [u8; LINE_BUFFER],
    length: usize,
}

impl Text<'_> {
    /// Writes a line; answers its length.
    #[inline]
    pub fn write(line: Line, buffer: &mut [u8; LINE_BUFFER]) -> usize {
        let mut text = Text { buffer, length: 0 };
        text.line(line).push(b"\n");
        text.length
    }

    fn line(&mut self, line: Line) -> &mut Self {
        match line {
            Line::Version => self.hex(1).push(b" version 1"),
            Line::Locks(count) => self.hex(count as u8).push(b" locks").number(count),
            Line::Threads(count) => self.hex(count as u8).push(b" threads").number(count),
            Line::Variables(count) => self
                .section_length(count * VARIABLE_BYTES)
                .push(b" variables")
                .number(count),
            Line::Variable(number, variable) => self.variable(number, variable),
            Line::Code(thread, count) => self
                .section_length(count * INSTRUCTION_BYTES)
                .push(b" thread")
                .number(thread)
                .push(b" code")
                .number(count),
            Line::Instruction(place, word, report) => self
                .raw(word)
                .number(place)
                .instruction(word)
                .letter(report),
            Line::Whole(thread, report) => self.push(b"thread").number(thread).letter(report),
        }
    }

    /// The bytes are an array, so that their number is known where they are written.
    #[inline]
    fn push<const N: usize>(&mut self, bytes: &[u8; N]) -> &mut Self {
        self.buffer[self.length..self.length + N].copy_from_slice(bytes);
        self.length += N;
        self
    }

    #[inline]
    fn hex(&mut self, byte: u8) -> &mut Self {
        self.push(&HEX[usize::from(byte)])
    }

    fn section_length(&mut self, length: usize) -> &mut Self {
        let [high, low] = (length as u16).to_be_bytes();
        self.hex(high).hex(low)
    }

    /// An instruction's bytes.
    #[inline]
    fn raw(&mut self, [op, a, b, c]: Word) -> &mut Self {
        let [op, a, b, c] = [op, a, b, c].map(|byte| HEX[usize::from(byte)]);
        self.push(&[
            op[0], op[1], b' ', a[0], a[1], b' ', b[0], b[1], b' ', c[0], c[1],
        ])
    }

    fn decimal(&mut self, number: u32) -> &mut Self {
        if number >= 10 {
            self.decimal(number / 10);
        }
        self.push(&[b'0' + (number % 10) as u8])
    }

    /// A blank and a number.
    #[inline]
    fn number(&mut self, number: usize) -> &mut Self {
        self.push(b" ").decimal(number as u32)
    }

    #[inline]
    fn register(&mut self, number: u8) -> &mut Self {
        self.push(b" r").decimal(u32::from(number))
    }

    #[inline]
    fn letter(&mut self, report: u8) -> &mut Self {
        self.push(&[b' ', Atomicity::letter(report)])
    }

    fn variable(&mut self, number: usize, variable: Variable) -> &mut Self {
        let Variable { kind, initial } = variable;
        let (code, g) = match kind {
            Kind::Guarded { lock } => (0, lock),
            Kind::Own { thread } => (1, thread),
            Kind::Fixed => (2, 0),
            Kind::Open => (3, 0),
        };
        self.hex(code).push(b" ").hex(g).push(b" ");
        for byte in initial.to_be_bytes() {
            self.hex(byte);
        }
        self.push(b" v").decimal(number as u32);
        match kind {
            Kind::Guarded { lock } => self.push(b" guarded k").decimal(u32::from(lock)),
            Kind::Own { thread } => self.push(b" own t").decimal(u32::from(thread)),
            Kind::Fixed => self.push(b" fixed"),
            Kind::Open => self.push(b" open"),
        };
        self.push(b" ").decimal(initial)
    }

    /// An instruction's name and fields.
    fn instruction(&mut self, word: Word) -> &mut Self {
        let [op, a, b, c] = word;
        let n = usize::from(op::number(word));
        match op {
            op::SET => self.push(b" SET").register(a).number(n),
            op::COPY => self.push(b" COPY").register(a).register(b),
            op::ADD => self.push(b" ADD").register(a).register(b).register(c),
            op::SUB => self.push(b" SUB").register(a).register(b).register(c),
            op::LESS => self.push(b" LESS").register(a).register(b).register(c),
            op::MULH => self.push(b" MULH").register(a).register(b).register(c),
            op::LESSS => self.push(b" LESSS").register(a).register(b).register(c),
            op::READ => self
                .push(b" READ")
                .register(a)
                .push(b" v")
                .decimal(u32::from(b)),
            op::WRITE => self
                .push(b" WRITE")
                .register(a)
                .push(b" v")
                .decimal(u32::from(b)),
            op::TAKE => self.push(b" TAKE k").decimal(u32::from(a)),
            op::GIVE => self.push(b" GIVE k").decimal(u32::from(a)),
            op::IF => self.push(b" IF").register(a).number(n),
            op::ELSE => self.push(b" ELSE").number(n),
            op::WHILE => self.push(b" WHILE").register(a).number(n),
            op::AGAIN => self.push(b" AGAIN").number(n),
            op::ATOMIC if a == NOT_STATED => self.push(b" ATOMIC").number(n),
            op::ATOMIC => self.push(b" ATOMIC").number(n).letter(a),
            _ => self.push(b" END"),
        }
    }
}

/// Each byte in capital hexadecimal.
static HEX: [[u8; 2]; 256] = {
    let digits = b"0123456789ABCDEF";
    let mut hex = [[0; 2]; 256];
    let mut byte = 0;
    while byte < hex.len() {
        hex[byte] = [digits[byte >> 4], digits[byte & 15]];
        byte += 1;
    }
    hex
};
