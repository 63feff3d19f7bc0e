//! The rules of judging, walked plainly and apart from the crate's own judging; and rules for open
//! variables and for statements that look reasonable and are wrong.

use std::collections::BTreeSet;

use hogunlas_reference::atomicity::Atomicity::{self, *};
use hogunlas_reference::instruction::Instruction::{self, *};
use hogunlas_reference::reader::{Kind, Program};
use hogunlas_reference::Refusal;

/// A WRITE of the variable in question.
#[derive(Clone, Copy)]
pub struct Writer {
    pub thread: usize,
    /// Whether nothing is known that keeps every run from it.
    pub reached: bool,
}

/// What is done with what a block states.
#[derive(Clone, Copy, Debug, PartialEq, Eq)]
enum Statements {
    /// "A stated value must be exactly the one worked out: a false statement is refused (18)."
    Exact,
    NotCompared,
    AtOrAbove,
    AtTheAtomic,
    Before13,
    /// Compared with what the sequence that the block stands in is up to the END.
    UpToTheEnd,
    /// Compared with what that sequence is from there on.
    OfWhatFollows,
    /// Compared with what the thread's code is.
    OfTheWhole,
    /// Not compared: what follows is composed with the statement.
    StandForTheBlock,
    /// 0 is one that is never true.
    NeverLeftOut,
}

/// A rule for open variables: by the WRITEs of a variable in all code, is a thread's access B? And
/// a rule for statements.
#[derive(Clone, Copy)]
pub struct Rule {
    pub name: &'static str,
    read_is_b: fn(&[Writer], usize) -> bool,
    write_is_b: fn(&[Writer], usize) -> bool,
    statements: Statements,
}

fn no_other(writers: &[Writer], thread: usize) -> bool {
    writers.iter().all(|writer| writer.thread == thread)
}

/// "a WRITE of an open variable is A, a READ of an open variable is B if no other thread's code has
/// a WRITE of it, and A otherwise"
pub const RIGHT: Rule = Rule {
    name: "right",
    read_is_b: no_other,
    write_is_b: |_, _| false,
    statements: Statements::Exact,
};

/// What the rule was in the standard's version 1.0.
pub const EVERY_READ_IS_A: Rule = Rule {
    name: "every READ is A",
    read_is_b: |_, _| false,
    ..RIGHT
};

pub const ONLY_REACHED: Rule = Rule {
    name: "only reached WRITEs count",
    read_is_b: |writers, thread| {
        let mut reached = writers.iter().filter(|writer| writer.reached);
        reached.all(|writer| writer.thread == thread)
    },
    ..RIGHT
};

/// Make too many READs A, and so refuse blocks that are accepted.
pub const TOO_STRICT: [Rule; 2] = [
    Rule {
        name: "a thread's own WRITEs count",
        read_is_b: |writers, _| writers.is_empty(),
        ..RIGHT
    },
    Rule {
        name: "what nobody writes is A",
        read_is_b: |writers, thread| !writers.is_empty() && no_other(writers, thread),
        ..RIGHT
    },
];

/// Make too many accesses B, and so accept blocks of which lists have no uninterrupted one.
pub const TOO_LENIENT: [Rule; 7] = [
    Rule {
        name: "no WRITE counts",
        read_is_b: |_, _| true,
        ..RIGHT
    },
    Rule {
        name: "only the thread before counts",
        read_is_b: |writers, thread| writers.iter().all(|writer| writer.thread + 1 != thread),
        ..RIGHT
    },
    Rule {
        name: "only earlier threads count",
        read_is_b: |writers, thread| writers.iter().all(|writer| writer.thread >= thread),
        ..RIGHT
    },
    Rule {
        name: "only later threads count",
        read_is_b: |writers, thread| writers.iter().all(|writer| writer.thread <= thread),
        ..RIGHT
    },
    Rule {
        name: "everybody's READ of what one thread writes is B",
        read_is_b: |writers, _| writers.iter().all(|w| w.thread == writers[0].thread),
        ..RIGHT
    },
    Rule {
        name: "a READ is B where the thread writes too",
        read_is_b: |writers, thread| {
            no_other(writers, thread) || writers.iter().any(|writer| writer.thread == thread)
        },
        ..RIGHT
    },
    Rule {
        name: "the one writer's WRITE is B",
        write_is_b: no_other,
        ..RIGHT
    },
];

const NOT_COMPARED: Rule = Rule {
    name: "statements are not compared",
    statements: Statements::NotCompared,
    ..RIGHT
};

/// Deal otherwise with what blocks state.
pub const WRONG_STATEMENTS: [Rule; 9] = [
    NOT_COMPARED,
    Rule {
        name: "a statement at or above the one worked out is true",
        statements: Statements::AtOrAbove,
        ..RIGHT
    },
    Rule {
        name: "18 at the ATOMIC",
        statements: Statements::AtTheAtomic,
        ..RIGHT
    },
    Rule {
        name: "18 before 13",
        statements: Statements::Before13,
        ..RIGHT
    },
    Rule {
        name: "a statement is of the code up to the END",
        statements: Statements::UpToTheEnd,
        ..RIGHT
    },
    Rule {
        name: "a statement is of what follows",
        statements: Statements::OfWhatFollows,
        ..RIGHT
    },
    Rule {
        name: "a statement is of the whole",
        statements: Statements::OfTheWhole,
        ..RIGHT
    },
    Rule {
        name: "a statement stands for the one worked out",
        statements: Statements::StandForTheBlock,
        ..RIGHT
    },
    Rule {
        name: "a block has to state",
        statements: Statements::NeverLeftOut,
        ..RIGHT
    },
];

/// All WRITEs of each variable.
pub fn writers(program: &Program) -> Vec<Vec<Writer>> {
    let mut writers = vec![Vec::new(); program.variables().len()];
    for thread in 0..program.thread_count() {
        let code = program.code(thread);
        for (place, &instruction) in code.iter().enumerate() {
            if let Write { variable, .. } = instruction {
                let reached = !is_kept_from(&code, place);
                writers[usize::from(variable)].push(Writer { thread, reached });
            }
        }
    }
    writers
}

/// Whether a place stands in a part of an IF or WHILE that is not taken, since a SET just before
/// says so.
fn is_kept_from(code: &[Instruction], place: usize) -> bool {
    code.windows(2).enumerate().any(|(before, pair)| {
        let opener = before + 1;
        match *pair {
            [Set { to, number }, If { test, distance }] if to == test => {
                let middle = opener + usize::from(distance);
                let Else { distance } = code[middle] else {
                    panic!("an IF names its ELSE");
                };
                let end = middle + usize::from(distance);
                let not_taken = if number == 0 {
                    opener..middle
                } else {
                    middle..end
                };
                not_taken.contains(&place)
            }
            [Set { to, number: 0 }, While { test, distance }] if to == test => {
                (opener..opener + usize::from(distance)).contains(&place)
            }
            _ => false,
        }
    })
}

/// One thread's code, walked by the structure of its constructs.
#[derive(Clone)]
struct Walk<'p> {
    program: &'p Program<'p>,
    rule: Rule,
    writers: &'p [Vec<Writer>],
    thread: usize,
    code: Vec<Instruction>,
    /// The offset of the code's first instruction.
    start: usize,
    place: usize,
    held: BTreeSet<u8>,
    report: Vec<u8>,
}

impl Walk<'_> {
    fn require(&self, good: bool, number: u32) -> Result<(), Refusal> {
        if good {
            return Ok(());
        }
        let detail = (self.start + 4 * self.place) as u64;
        Err(Refusal { number, detail })
    }

    /// The whole code; its byte comes last.
    fn whole(mut self) -> Result<Vec<u8>, Refusal> {
        let whole = self.sequence()?;
        self.require(self.held.is_empty(), Refusal::SETS_DIFFER)?;
        self.report.push(whole.report_byte());
        Ok(self.report)
    }

    /// Up to the closer of the enclosing construct, or the code's end.
    fn sequence(&mut self) -> Result<Atomicity, Refusal> {
        let mut so_far = B;
        while let Some(&instruction) = self.code.get(self.place) {
            let opener = self.place;
            let part = match instruction {
                Else { .. } | Again { .. } | End => break,
                If { .. } => self.choice()?,
                While { .. } => self.repetition()?,
                Atomic { statement, .. } => self.block(statement, so_far)?,
                _ => self.plain(instruction)?,
            };
            self.report[opener] = part.report_byte();
            self.place += 1;
            so_far = so_far.then(part);
        }
        Ok(so_far)
    }

    fn choice(&mut self) -> Result<Atomicity, Refusal> {
        let held = self.held.clone();
        self.place += 1;
        let then_part = self.sequence()?;
        let then_held = std::mem::replace(&mut self.held, held);
        self.place += 1;
        let else_part = self.sequence()?;
        self.require(self.held == then_held, Refusal::SETS_DIFFER)?;
        Ok(then_part.join(else_part))
    }

    fn repetition(&mut self) -> Result<Atomicity, Refusal> {
        let held = self.held.clone();
        self.place += 1;
        let body = self.sequence()?;
        self.require(self.held == held, Refusal::SETS_DIFFER)?;
        Ok(body.closure())
    }

    fn block(&mut self, statement: u8, before: Atomicity) -> Result<Atomicity, Refusal> {
        let opener = self.place;
        self.place += 1;
        let body = self.sequence()?;
        let is_true = self.is_true(stated(statement), before, body);
        if self.rule.statements == Statements::Before13 {
            self.require(is_true, Refusal::FALSE_STATEMENT)?;
        }
        self.require(body != T, Refusal::BLOCK_IS_T)?;
        let end = self.place;
        if self.rule.statements == Statements::AtTheAtomic {
            self.place = opener;
        }
        self.require(is_true, Refusal::FALSE_STATEMENT)?;
        self.place = end;
        match stated(statement) {
            Some(stands) if self.rule.statements == Statements::StandForTheBlock => Ok(stands),
            _ => Ok(body),
        }
    }

    /// Whether what a block states passes, by the rule at hand.
    fn is_true(&self, stated: Option<Atomicity>, before: Atomicity, body: Atomicity) -> bool {
        let Some(stated) = stated else {
            return self.rule.statements != Statements::NeverLeftOut;
        };
        match self.rule.statements {
            Statements::NotCompared | Statements::StandForTheBlock => true,
            Statements::AtOrAbove => body.join(stated) == stated,
            Statements::UpToTheEnd => before.then(body) == stated,
            Statements::OfWhatFollows => self.is_from(self.place + 1, &self.held, stated),
            Statements::OfTheWhole => self.is_from(0, &BTreeSet::new(), stated),
            _ => body == stated,
        }
    }

    /// Whether the sequence from a place on, where these locks are held, is as stated. An offence
    /// in it is left for the walk to find.
    fn is_from(&self, place: usize, held: &BTreeSet<u8>, stated: Atomicity) -> bool {
        let mut ahead = Walk {
            rule: NOT_COMPARED,
            place,
            held: held.clone(),
            ..self.clone()
        };
        ahead.sequence().map_or(true, |is| is == stated)
    }

    fn plain(&mut self, instruction: Instruction) -> Result<Atomicity, Refusal> {
        match instruction {
            Take { lock } => {
                let is_new = self.held.insert(lock);
                self.require(is_new, Refusal::TAKE_OF_HELD)?;
                Ok(R)
            }
            Give { lock } => {
                let was_held = self.held.remove(&lock);
                self.require(was_held, Refusal::GIVE_OF_NOT_HELD)?;
                Ok(L)
            }
            Read { variable, .. } => self.access(variable, false),
            Write { variable, .. } => self.access(variable, true),
            _ => Ok(B),
        }
    }

    fn access(&self, variable: u8, writes: bool) -> Result<Atomicity, Refusal> {
        let variable = usize::from(variable);
        let kind = self.program.variables()[variable].kind;
        let allowed = match kind {
            Kind::Guarded { lock } => self.held.contains(&lock),
            Kind::Own { thread } => usize::from(thread) == self.thread,
            Kind::Fixed => !writes,
            Kind::Open => true,
        };
        self.require(allowed, Refusal::ACCESS)?;
        let is_b = if writes {
            self.rule.write_is_b
        } else {
            self.rule.read_is_b
        };
        let open = kind == Kind::Open;
        let both = !open || is_b(&self.writers[variable], self.thread);
        Ok(if both { B } else { A })
    }
}

/// The atomicity that a field states; "0 means not stated".
fn stated(statement: u8) -> Option<Atomicity> {
    let all = Atomicity::ALL.into_iter();
    let mut same = all.filter(|of| of.report_byte() == statement);
    same.next()
}

/// What a sound program is answered with a rule.
pub fn judged_with(rule: Rule, program: &Program) -> Result<Vec<u8>, Refusal> {
    let writers = writers(program);
    let mut start = 3 + 2 + 6 * program.variables().len();
    let mut report = Vec::new();
    for thread in 0..program.thread_count() {
        let code = program.code(thread);
        let length = code.len();
        start += 2;
        let walk = Walk {
            program,
            rule,
            writers: &writers,
            thread,
            code,
            start,
            place: 0,
            held: BTreeSet::new(),
            report: vec![0; length],
        };
        report.extend(walk.whole()?);
        start += 4 * length;
    }
    Ok(report)
}
