//! The files and lists that are measured.

use hogunlas::MAX_LIST;
use hogunlas_reference::generate::{self, encode_file, Rng};
use hogunlas_reference::instruction::Instruction::{self, *};
use hogunlas_reference::instruction::NOT_STATED;

const THREADS: usize = 8;
const INSTRUCTIONS: usize = 1_024;
const MAX_OPEN: usize = 16;

const GUARDED_BY_K0: [u8; 6] = [0, 0, 0, 0, 0, 7];
const OPEN: [u8; 6] = [3, 0, 0, 0, 0, 7];

/// A file of 16 locks with 64 variables, all guarded by k0.
fn file(code: &[Vec<Instruction>]) -> Vec<u8> {
    encode_file(16, &[GUARDED_BY_K0; 64], code)
}

/// A file of the largest size, all of whose threads have this code.
fn largest(code: Vec<Instruction>) -> Vec<u8> {
    let file = file(&vec![code; THREADS]);
    assert_eq!(file.len(), hogunlas::MAX_FILE);
    file
}

/// TAKE k0, READs, GIVE k0: so many instructions in all.
fn reads(instructions: usize) -> Vec<Instruction> {
    let mut code = vec![Take { lock: 0 }];
    code.extend((1..instructions - 1).map(|place| Read {
        to: (place % 8) as u8,
        variable: (place % 64) as u8,
    }));
    code.push(Give { lock: 0 });
    code
}

pub fn guarded_reads() -> Vec<u8> {
    largest(reads(INSTRUCTIONS))
}

/// READs of 64 open variables. Each thread writes 8 of them alone, at the beginning of its code;
/// mostly it reads these (B), and at every eighth place any (A, if another thread's).
pub fn open_reads() -> Vec<u8> {
    let threads: Vec<Vec<Instruction>> = (0..THREADS).map(open_reads_of).collect();
    let file = encode_file(16, &[OPEN; 64], &threads);
    assert_eq!(file.len(), hogunlas::MAX_FILE);
    file
}

fn open_reads_of(thread: usize) -> Vec<Instruction> {
    let own = |column: usize| (thread + column * THREADS) as u8;
    let access = |place: usize| {
        let (to, from) = ((place % 8) as u8, 0);
        let (variable, any) = (own(place % 8), (place / 8 % 64) as u8);
        match (place / 8, place % 8) {
            (0, _) => Write { from, variable },
            (_, 0) => Read { to, variable: any },
            _ => Read { to, variable },
        }
    };
    (0..INSTRUCTIONS).map(access).collect()
}

/// One thread of so many instructions.
pub fn one_thread(instructions: usize) -> Vec<u8> {
    file(&[reads(instructions)])
}

/// Nothing but IF, WHILE and ATOMIC with their closers, one construct after the other.
pub fn flat_constructs() -> Vec<u8> {
    largest(filled_with((0..3).map(|kind| construct(kind, &[]))))
}

/// The same constructs within each other, 16 deep; at the end, less deep ones fill the room.
pub fn nested_constructs() -> Vec<u8> {
    let nest = |depth| (0..depth).fold(Vec::new(), |body, level| construct(level, &body));
    largest(filled_with((1..=MAX_OPEN).rev().map(nest)))
}

/// An IF, a WHILE or an ATOMIC around a body; the IF has the body as its then part.
fn construct(kind: usize, body: &[Instruction]) -> Vec<Instruction> {
    let (test, distance) = (0, body.len() as u16 + 1);
    let (opener, closers) = match kind % 3 {
        0 => (If { test, distance }, vec![Else { distance: 1 }, End]),
        1 => (While { test, distance }, vec![Again { distance }]),
        _ => (atomic_to(distance), vec![End]),
    };
    [&[opener], body, &closers].concat()
}

/// A block that states nothing.
fn atomic_to(distance: u16) -> Instruction {
    Atomic {
        statement: NOT_STATED,
        distance,
    }
}

/// Nothing but blocks that state what they are, B and A in turn.
pub fn stated_blocks() -> Vec<u8> {
    let block = |statement, body: &[Instruction]| {
        let distance = body.len() as u16 + 1;
        let opener = Atomic {
            statement,
            distance,
        };
        [&[opener], body, &[End]].concat()
    };
    let section = [Take { lock: 0 }, Give { lock: 0 }];
    largest(filled_with([block(1, &[]), block(4, &section)].into_iter()))
}

/// A thread's code: rounds of all parts while they fit, then single parts, then SETs.
fn filled_with(parts: impl Iterator<Item = Vec<Instruction>>) -> Vec<Instruction> {
    let parts: Vec<_> = parts.collect();
    let round = parts.concat();
    let mut code = round.repeat(INSTRUCTIONS / round.len());
    for part in parts {
        let room = INSTRUCTIONS - code.len();
        code.extend(part.repeat(room / part.len()));
    }
    code.resize(INSTRUCTIONS, Set { to: 0, number: 0 });
    code
}

/// Accepted files of the largest size with random code of every kind. There are several, so that
/// the processor can't learn one by heart.
pub fn random_code() -> Vec<Vec<u8>> {
    let file = |seed| generate::largest_file(&mut Rng::new(seed));
    (0..8).map(file).collect()
}

/// Guarded READs, but the last instruction has an unknown op.
pub fn last_op_unknown() -> Vec<u8> {
    last_instruction([0xFF, 0, 0, 0])
}

/// Guarded READs, but the last instruction opens an entry.
pub fn last_entry_open() -> Vec<u8> {
    last_instruction(atomic_to(1).encode())
}

fn last_instruction(word: [u8; 4]) -> Vec<u8> {
    let mut file = guarded_reads();
    let at = file.len() - word.len();
    file[at..].copy_from_slice(&word);
    file
}

/// Eight threads that never end. In each round a thread adds to v0 in a block and then calculates
/// for a while, so that most steps move and some wait.
pub fn busy_threads() -> Vec<u8> {
    file(&vec![busy_thread(); THREADS])
}

fn busy_thread() -> Vec<Instruction> {
    endless(&[&add_to_v0()[..], &calculate().repeat(12)].concat())
}

/// Eight threads that never end and multiply and compare numbers below zero.
pub fn multiplying_threads() -> Vec<u8> {
    file(&vec![endless(&multiply().repeat(12)); THREADS])
}

/// Eight threads that do nothing but add to v0 under its lock, so that most steps wait.
pub fn contending_threads() -> Vec<u8> {
    file(&vec![endless(&add_to_v0()); THREADS])
}

/// Eight threads that end after their first step.
pub fn ended_threads() -> Vec<u8> {
    file(&vec![one_step(); THREADS])
}

/// Eight threads, of which the first ends after its first step and the others never end.
pub fn first_thread_ended() -> Vec<u8> {
    let mut threads = vec![busy_thread(); THREADS];
    threads[0] = one_step();
    file(&threads)
}

fn one_step() -> Vec<Instruction> {
    vec![Set { to: 0, number: 1 }]
}

fn endless(body: &[Instruction]) -> Vec<Instruction> {
    let distance = body.len() as u16 + 1;
    let start = [Set { to: 1, number: 1 }, While { test: 1, distance }];
    [&start[..], body, &[Again { distance }]].concat()
}

fn add_to_v0() -> [Instruction; 7] {
    let (to, from, variable) = (2, 2, 0);
    let (left, right) = (2, 1);
    [
        atomic_to(6),
        Take { lock: 0 },
        Read { to, variable },
        Add { to, left, right },
        Write { from, variable },
        Give { lock: 0 },
        End,
    ]
}

fn calculate() -> [Instruction; 6] {
    let (to, left, right) = (3, 3, 1);
    let is_less = Less {
        to: 4,
        left: 3,
        right: 2,
    };
    let (test, distance) = (4, 2);
    [
        is_less,
        If { test, distance },
        Copy { to, from: 2 },
        Else { distance },
        Sub { to, left, right },
        End,
    ]
}

fn multiply() -> [Instruction; 4] {
    let (to, left, right) = (2, 2, 1);
    let product = Mulh {
        to: 4,
        left: 2,
        right: 3,
    };
    let is_less = Lesss {
        to: 5,
        left: 4,
        right: 2,
    };
    [
        Sub { to, left, right },
        Set { to: 3, number: 150 },
        product,
        is_less,
    ]
}

/// The longest list, a step of each thread in turn.
pub fn round_robin() -> Vec<u8> {
    (0..MAX_LIST).map(|index| (index % THREADS) as u8).collect()
}

/// The longest list, any thread at each step.
pub fn random_list() -> Vec<u8> {
    let mut rng = Rng::new(1);
    (0..MAX_LIST).map(|_| rng.below(THREADS) as u8).collect()
}

/// The longest list, the first thread at each step.
pub fn first_thread_only() -> Vec<u8> {
    vec![0; MAX_LIST]
}
