//! Instructions, decoded from their four bytes ("The file", the table of op codes).

use crate::atomicity::Atomicity;
use crate::op::{self, Word};

/// The number of registers of a thread, r0 to r7.
pub const REGISTERS: usize = 8;

/// The statement of an ATOMIC that states nothing.
pub const NOT_STATED: u8 = 0;

/// The greatest statement, A's report byte: T can't be stated.
pub const MAX_STATEMENT: u8 = Atomicity::A as u8;

/// A decoded instruction. Registers, variables and locks are numbers; a distance counts places; a
/// statement is the report byte that ATOMIC says its block has, or 0.
#[derive(Clone, Copy, Debug, PartialEq, Eq, Hash)]
pub enum Instruction {
    Set { to: u8, number: u16 },
    Copy { to: u8, from: u8 },
    Add { to: u8, left: u8, right: u8 },
    Sub { to: u8, left: u8, right: u8 },
    Less { to: u8, left: u8, right: u8 },
    Mulh { to: u8, left: u8, right: u8 },
    Lesss { to: u8, left: u8, right: u8 },
    Read { to: u8, variable: u8 },
    Write { from: u8, variable: u8 },
    Take { lock: u8 },
    Give { lock: u8 },
    If { test: u8, distance: u16 },
    Else { distance: u16 },
    While { test: u8, distance: u16 },
    Again { distance: u16 },
    Atomic { statement: u8, distance: u16 },
    End,
}

use Instruction::*;

impl Instruction {
    /// Decodes a known op whose unused fields are 0. The names used may still not exist, and a
    /// statement may lie above the greatest.
    pub fn decode(word: Word) -> Option<Instruction> {
        let n = op::number(word);
        Some(match word {
            [op::SET, to, _, _] => Set { to, number: n },
            [op::COPY, to, from, 0] => Copy { to, from },
            [op::ADD, to, left, right] => Add { to, left, right },
            [op::SUB, to, left, right] => Sub { to, left, right },
            [op::LESS, to, left, right] => Less { to, left, right },
            [op::MULH, to, left, right] => Mulh { to, left, right },
            [op::LESSS, to, left, right] => Lesss { to, left, right },
            [op::READ, to, variable, 0] => Read { to, variable },
            [op::WRITE, from, variable, 0] => Write { from, variable },
            [op::TAKE, lock, 0, 0] => Take { lock },
            [op::GIVE, lock, 0, 0] => Give { lock },
            [op::IF, test, _, _] => If { test, distance: n },
            [op::ELSE, 0, _, _] => Else { distance: n },
            [op::WHILE, test, _, _] => While { test, distance: n },
            [op::AGAIN, 0, _, _] => Again { distance: n },
            [op::ATOMIC, statement, _, _] => Atomic {
                statement,
                distance: n,
            },
            [op::END, 0, 0, 0] => End,
            _ => return None,
        })
    }

    /// The four bytes that decode to this instruction.
    pub fn encode(self) -> Word {
        let wide = |op: u8, a: u8, n: u16| {
            let [b, c] = n.to_be_bytes();
            [op, a, b, c]
        };
        match self {
            Set { to, number } => wide(op::SET, to, number),
            Copy { to, from } => [op::COPY, to, from, 0],
            Add { to, left, right } => [op::ADD, to, left, right],
            Sub { to, left, right } => [op::SUB, to, left, right],
            Less { to, left, right } => [op::LESS, to, left, right],
            Mulh { to, left, right } => [op::MULH, to, left, right],
            Lesss { to, left, right } => [op::LESSS, to, left, right],
            Read { to, variable } => [op::READ, to, variable, 0],
            Write { from, variable } => [op::WRITE, from, variable, 0],
            Take { lock } => [op::TAKE, lock, 0, 0],
            Give { lock } => [op::GIVE, lock, 0, 0],
            If { test, distance } => wide(op::IF, test, distance),
            Else { distance } => wide(op::ELSE, 0, distance),
            While { test, distance } => wide(op::WHILE, test, distance),
            Again { distance } => wide(op::AGAIN, 0, distance),
            Atomic {
                statement,
                distance,
            } => wide(op::ATOMIC, statement, distance),
            End => [op::END, 0, 0, 0],
        }
    }
}
