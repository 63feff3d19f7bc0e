//! One thread's code: instructions and nesting are tested in one pass (refusals 7 and 8), in which
//! a visitor sees every instruction.

use crate::atomicity::Atomicity::{self, A, B, L, R};
use crate::instruction::NOT_STATED;
use crate::nesting::{Broken, Closer, Ended, Nesting};
use crate::op::{self, Form, Row, Word};
use crate::refusal::Refusal;

/// How many variables and locks there are.
#[derive(Clone, Copy)]
pub(crate) struct Limits {
    pub variables: u8,
    pub locks: u8,
}

/// What is done with a thread's instructions while its code is read. Each is shown at its place,
/// once it is known to be good and well nested; closers come with their opener's place. What has
/// to be known of the whole file first is found before, as the module `writers` does.
pub(crate) trait Visitor {
    /// SET, COPY, ADD, SUB, LESS, MULH, LESSS.
    fn calculation(&mut self, place: usize);
    fn read(&mut self, place: usize, variable: u8);
    fn write(&mut self, place: usize, variable: u8);
    fn take(&mut self, place: usize, lock: u8);
    fn give(&mut self, place: usize, lock: u8);
    /// IF, WHILE, ATOMIC, with the atomicity that is stated, if one is.
    fn open(&mut self, stated: Option<Atomicity>);
    fn turn_to_else(&mut self);
    fn end_if(&mut self, place: usize, opener: usize);
    fn again(&mut self, place: usize, opener: usize);
    fn end_block(&mut self, place: usize, opener: usize);
}

/// Does nothing: the code is only read.
pub(crate) struct OnlyReading;

impl Visitor for OnlyReading {
    fn calculation(&mut self, _: usize) {}
    fn read(&mut self, _: usize, _: u8) {}
    fn write(&mut self, _: usize, _: u8) {}
    fn take(&mut self, _: usize, _: u8) {}
    fn give(&mut self, _: usize, _: u8) {}
    fn open(&mut self, _: Option<Atomicity>) {}
    fn turn_to_else(&mut self) {}
    fn end_if(&mut self, _: usize, _: usize) {}
    fn again(&mut self, _: usize, _: usize) {}
    fn end_block(&mut self, _: usize, _: usize) {}
}

/// One thread's code section in the file.
#[derive(Clone, Copy, Default)]
pub(crate) struct Code<'f> {
    /// The offset of its first instruction.
    pub start: usize,
    pub words: &'f [Word],
}

impl Code<'_> {
    /// The file offset of a place; for the place past the last, the section's end.
    pub fn offset_of(&self, place: usize) -> usize {
        self.start + place * size_of::<Word>()
    }

    /// Reads the code, shows it to the visitor and hands that back, or refuses the code with its
    /// first offence.
    #[inline]
    pub fn read<V: Visitor>(&self, limits: Limits, visitor: V) -> Result<V, Refusal> {
        let mut pass = Pass::new(limits, visitor);
        for (place, &word) in self.words.iter().enumerate() {
            if let Err(fault) = pass.admit(place, word) {
                return Err(self.refusal(limits, place, fault));
            }
        }
        if pass.nesting.depth() != 0 {
            return Err(self.refusal(limits, self.words.len(), Fault::Nesting));
        }
        Ok(pass.visitor)
    }

    #[cold]
    fn refusal(&self, limits: Limits, place: usize, fault: Fault) -> Refusal {
        let wrong = match fault {
            Fault::Instruction => Some(place),
            // All wrong instructions of a thread come before its nesting.
            Fault::Nesting => self.wrong_instruction(limits, place),
        };
        match wrong {
            Some(place) => Refusal::new(Refusal::INSTRUCTION, self.offset_of(place)),
            None => Refusal::new(Refusal::NESTING, self.offset_of(place)),
        }
    }

    /// The first wrong instruction from a place on, whatever the nesting.
    fn wrong_instruction(&self, limits: Limits, from: usize) -> Option<usize> {
        let mut pass = Pass::new(limits, OnlyReading);
        (from..self.words.len()).find(|&place| {
            let admitted = pass.admit(place, self.words[place]);
            matches!(admitted, Err(Fault::Instruction))
        })
    }
}

/// Why an instruction is not shown to the visitor.
enum Fault {
    Instruction,
    Nesting,
}

impl From<Broken> for Fault {
    #[inline]
    fn from(_: Broken) -> Fault {
        Fault::Nesting
    }
}

#[inline]
fn require(good: bool) -> Result<(), Fault> {
    if good {
        Ok(())
    } else {
        Err(Fault::Instruction)
    }
}

/// What an ATOMIC with this field a states. No field states T.
#[inline(always)]
fn stated(field: u8) -> Result<Option<Atomicity>, Fault> {
    match field {
        NOT_STATED => Ok(None),
        1 => Ok(Some(B)),
        2 => Ok(Some(L)),
        3 => Ok(Some(R)),
        4 => Ok(Some(A)),
        _ => Err(Fault::Instruction),
    }
}

/// One pass over a thread's code. Its functions are inlined into the loop, where one jump by the
/// instruction's form leads to all that is done with it.
struct Pass<V> {
    limits: Limits,
    nesting: Nesting,
    visitor: V,
}

impl<V: Visitor> Pass<V> {
    #[inline(always)]
    fn new(limits: Limits, visitor: V) -> Pass<V> {
        Pass {
            limits,
            nesting: Nesting::new(),
            visitor,
        }
    }

    /// Tests an instruction, then its nesting, and shows it to the visitor.
    #[inline(always)]
    fn admit(&mut self, place: usize, word: Word) -> Result<(), Fault> {
        let [op, a, b, _] = word;
        let n = op::number(word);
        let row = Row::of(op);
        require(row.fits(word))?;
        match row.form {
            Form::Unknown => Err(Fault::Instruction),
            Form::Calculation => self.calculation(place),
            Form::Read => self.read(place, b),
            Form::Write => self.write(place, b),
            Form::Take => self.take(place, a),
            Form::Give => self.give(place, a),
            Form::If => self.open(Closer::Else, place, n, None),
            Form::Else => self.turn_to_else(place, n),
            Form::While => self.open(Closer::Again, place, n, None),
            Form::Again => self.again(place, n),
            Form::Atomic => self.open(Closer::EndOfBlock, place, n, stated(a)?),
            Form::End => self.end(place),
        }
    }

    #[inline(always)]
    fn calculation(&mut self, place: usize) -> Result<(), Fault> {
        self.nesting.plain(place)?;
        self.visitor.calculation(place);
        Ok(())
    }

    #[inline(always)]
    fn read(&mut self, place: usize, variable: u8) -> Result<(), Fault> {
        require(variable < self.limits.variables)?;
        self.nesting.plain(place)?;
        self.visitor.read(place, variable);
        Ok(())
    }

    #[inline(always)]
    fn write(&mut self, place: usize, variable: u8) -> Result<(), Fault> {
        require(variable < self.limits.variables)?;
        self.nesting.plain(place)?;
        self.visitor.write(place, variable);
        Ok(())
    }

    #[inline(always)]
    fn take(&mut self, place: usize, lock: u8) -> Result<(), Fault> {
        require(lock < self.limits.locks)?;
        self.nesting.plain(place)?;
        self.visitor.take(place, lock);
        Ok(())
    }

    #[inline(always)]
    fn give(&mut self, place: usize, lock: u8) -> Result<(), Fault> {
        require(lock < self.limits.locks)?;
        self.nesting.plain(place)?;
        self.visitor.give(place, lock);
        Ok(())
    }

    #[inline(always)]
    fn open(
        &mut self,
        closer: Closer,
        place: usize,
        n: u16,
        stated: Option<Atomicity>,
    ) -> Result<(), Fault> {
        self.nesting.open(closer, place, n)?;
        self.visitor.open(stated);
        Ok(())
    }

    #[inline(always)]
    fn turn_to_else(&mut self, place: usize, n: u16) -> Result<(), Fault> {
        self.nesting.turn_to_else(place, n)?;
        self.visitor.turn_to_else();
        Ok(())
    }

    #[inline(always)]
    fn again(&mut self, place: usize, n: u16) -> Result<(), Fault> {
        let opener = self.nesting.again(place, n)?;
        self.visitor.again(place, opener);
        Ok(())
    }

    #[inline(always)]
    fn end(&mut self, place: usize) -> Result<(), Fault> {
        match self.nesting.end(place)? {
            Ended::If(opener) => self.visitor.end_if(place, opener),
            Ended::Block(opener) => self.visitor.end_block(place, opener),
        }
        Ok(())
    }
}
