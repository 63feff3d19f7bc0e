//! The standard's cases, starred and not; its mistakes that look reasonable; its example file; and
//! what it means to stand inside a block.

mod common;

use common::{atomic_to, counts, file, hex, judge_in, line_in, refused, run_in, stating};
use hogunlas_reference::atomicity::Atomicity;
use hogunlas_reference::instruction::Instruction::{self, *};
use hogunlas_reference::machine::{is_inside, Outcome, State, Thread};
use hogunlas_reference::nesting::MAX_OPEN;
use hogunlas_reference::reader::Program;
use hogunlas_reference::{bench, generate, line_count, state_length, Counts, Refusal};

const GUARDED_BY_K0: [u8; 6] = [0, 0, 0, 0, 0, 5];
const OPEN: [u8; 6] = [3, 0, 0, 0, 0, 7];

const TAKE: Instruction = Take { lock: 0 };
const GIVE: Instruction = Give { lock: 0 };
const READ: Instruction = Read { to: 2, variable: 0 };
const WRITE: Instruction = Write {
    from: 2,
    variable: 0,
};

fn block(body: &[Instruction]) -> Vec<Instruction> {
    let distance = body.len() as u16 + 1;
    [&[atomic_to(distance)], body, &[End]].concat()
}

fn repeat(body: &[Instruction]) -> Vec<Instruction> {
    let distance = body.len() as u16 + 1;
    [&[While { test: 0, distance }], body, &[Again { distance }]].concat()
}

fn choice(then_part: &[Instruction], else_part: &[Instruction]) -> Vec<Instruction> {
    let to_else = then_part.len() as u16 + 1;
    let to_end = else_part.len() as u16 + 1;
    let opener = If {
        test: 0,
        distance: to_else,
    };
    let middle = Else { distance: to_end };
    [&[opener], then_part, &[middle], else_part, &[End]].concat()
}

/// The report on one thread with one lock and one variable.
fn report(variable: [u8; 6], code: &[Instruction]) -> Result<Vec<u8>, Refusal> {
    judge_in(100, &file(1, &[variable], &[code]))
}

/// The same, where another thread writes the variable: what is reported on the first.
fn report_beside_writer(variable: [u8; 6], code: &[Instruction]) -> Result<Vec<u8>, Refusal> {
    let both = judge_in(100, &file(1, &[variable], &[code, &[WRITE]]))?;
    let (first, second) = both.split_at(code.len() + 1);
    assert_eq!(second, [4, 4], "WRITE is A, and so is the whole");
    Ok(first.to_vec())
}

/// The offset of a place in such a file.
fn offset(place: usize) -> u64 {
    3 + 2 + 6 + 2 + 4 * place as u64
}

// The starred cases.

#[test]
fn right_then_left_is_atomic() {
    assert_eq!(Atomicity::R.then(Atomicity::L), Atomicity::A);
}

#[test]
fn left_then_right_is_none() {
    assert_eq!(Atomicity::L.then(Atomicity::R), Atomicity::T);
}

#[test]
fn left_joined_with_right_is_atomic() {
    assert_eq!(Atomicity::L.join(Atomicity::R), Atomicity::A);
}

#[test]
fn closure_of_atomic_is_none() {
    assert_eq!(Atomicity::A.closure(), Atomicity::T);
}

#[test]
fn add_wraps_to_zero() {
    let own_full = [1, 0, 0xFF, 0xFF, 0xFF, 0xFF];
    let sum = Add {
        to: 3,
        left: 2,
        right: 1,
    };
    let file = file(0, &[own_full], &[&[READ, Set { to: 1, number: 1 }, sum]]);
    let (counted, state) = run_in(50, &file, &[0, 0, 0], 38).unwrap();
    assert_eq!(counted, counts(&[[3, 0, 0]]));
    let registers = &state[6..];
    assert_eq!(&registers[4..16], hex("00000001 FFFFFFFF 00000000"));
}

#[test]
fn block_of_end_only_is_both_mover() {
    assert_eq!(report(OPEN, &block(&[])), Ok(vec![1, 0, 1]));
}

#[test]
fn block_of_a_critical_section_is_atomic() {
    let code = block(&[TAKE, READ, WRITE, GIVE]);
    assert_eq!(report(GUARDED_BY_K0, &code), Ok(vec![4, 3, 1, 1, 2, 0, 4]));
}

#[test]
fn block_of_two_critical_sections_is_refused() {
    let code = block(&[TAKE, READ, WRITE, GIVE, TAKE, READ, WRITE, GIVE]);
    assert_eq!(report(GUARDED_BY_K0, &code), refused(13, offset(9)));
}

#[test]
fn block_of_take_read_open_give_is_atomic_whoever_writes() {
    let code = block(&[TAKE, READ, GIVE]);
    assert_eq!(
        report_beside_writer(OPEN, &code),
        Ok(vec![4, 3, 4, 2, 0, 4])
    );
    assert_eq!(report(OPEN, &code), Ok(vec![4, 3, 1, 2, 0, 4]));
}

#[test]
fn block_of_read_open_take_give_is_refused_if_another_thread_writes() {
    let code = block(&[READ, TAKE, GIVE]);
    assert_eq!(report_beside_writer(OPEN, &code), refused(13, offset(4)));
    assert_eq!(report(OPEN, &code), Ok(vec![4, 1, 3, 2, 0, 4]));
}

#[test]
fn two_threads_take_turns_at_a_lock() {
    let file = file(1, &[], &[&[TAKE, GIVE], &[TAKE, GIVE]]);
    let (counted, state) = run_in(80, &file, &[0, 1, 0, 1], 69).unwrap();
    assert_eq!(counted, counts(&[[2, 0, 0], [1, 1, 0]]));
    let all_threads = Counts {
        moved: 3,
        waiting: 1,
        idle: 0,
    };
    assert_eq!(counted.iter().sum::<Counts>(), all_threads);
    assert_eq!(state[0], 2, "k0 is held by thread 1");
    assert_eq!((state[1], state[2]), (0, 2), "place of thread 0");
    assert_eq!((state[35], state[36]), (0, 1), "place of thread 1");
}

// The other cases.

#[test]
fn empty_file_is_refused_at_0() {
    assert_eq!(judge_in(10, &[]), refused(1, 0));
    assert_eq!(run_in(10, &[], &[], 0), refused(1, 0));
    assert_eq!(line_in(48, &[], 0), refused(1, 0));
    assert_eq!(bench(&[]), b"refused 1 at 0\n");
}

#[test]
fn empty_list_gives_the_start_state() {
    let file = file(2, &[GUARDED_BY_K0, OPEN], &[&[TAKE, GIVE], &[]]);
    let (counted, state) = run_in(90, &file, &[], 78).unwrap();
    assert_eq!(counted, counts(&[]));
    let mut start = hex("00000005 00000007");
    start.resize(78, 0);
    assert_eq!(state, start);
}

/// Two threads at a lock and one whose code is empty, and a list in which they differ.
fn own_counts() -> (Vec<u8>, [u8; 7]) {
    let file = file(1, &[], &[&[TAKE, GIVE], &[TAKE, GIVE], &[]]);
    (file, [0, 1, 2, 1, 2, 0, 1])
}

#[test]
fn each_entry_counts_for_its_own_thread() {
    let (file, list) = own_counts();
    let (counted, state) = run_in(110, &file, &list, 103).unwrap();
    assert_eq!(counted, counts(&[[2, 0, 0], [1, 2, 0], [0, 0, 2]]));
    assert_eq!(state[0], 2, "k0 is held by thread 1");
}

#[test]
fn sixteen_open_entries_pass() {
    let mut code = Vec::new();
    for _ in 0..MAX_OPEN {
        code = block(&code);
    }
    let expected = [[1; MAX_OPEN], [0; MAX_OPEN]].concat();
    assert_eq!(report(OPEN, &code), Ok([&expected[..], &[1]].concat()));
}

#[test]
fn the_seventeenth_open_entry_is_refused() {
    let mut code = Vec::new();
    for _ in 0..MAX_OPEN + 1 {
        code = repeat(&code);
    }
    assert_eq!(report(OPEN, &code), refused(8, offset(16)));
}

#[test]
fn sixteen_ifs_within_each_other_pass_their_elses() {
    let mut code = Vec::new();
    for _ in 0..MAX_OPEN {
        code = choice(&[], &code);
    }
    assert_eq!(report(OPEN, &code).map(|report| report.len()), Ok(49));
}

#[test]
fn read_before_take_in_the_example_is_refused() {
    let file = hex("01 01 01 00 06 00 00 00 00 00 05 00 0C 10 02 00 00 20 00 00 00 21 00 00 00");
    assert_eq!(judge_in(10, &file), refused(9, 13));
}

#[test]
fn while_around_take_give_is_none_outside_a_block() {
    let code = repeat(&[TAKE, GIVE]);
    assert_eq!(report(OPEN, &code), Ok(vec![5, 3, 2, 0, 5]));
}

#[test]
fn while_around_take_give_is_refused_within_a_block() {
    let code = block(&repeat(&[TAKE, GIVE]));
    assert_eq!(report(OPEN, &code), refused(13, offset(5)));
}

// Signed hundredths.

const MULH: Instruction = Mulh {
    to: 2,
    left: 0,
    right: 1,
};
const LESSS: Instruction = Lesss {
    to: 2,
    left: 0,
    right: 1,
};
const LESS: Instruction = Less {
    to: 2,
    left: 0,
    right: 1,
};

/// The first registers after some instructions, where r0 and r1 hold these signed values.
fn registers_after(operands: [i32; 2], instructions: &[Instruction]) -> [u32; 3] {
    let fixed = operands.map(|operand| {
        let [w, x, y, z] = operand.to_be_bytes();
        [2, 0, w, x, y, z]
    });
    let read = |variable| Read {
        to: variable,
        variable,
    };
    let code = [&[read(0), read(1)], instructions].concat();
    let list = vec![0; code.len()];
    let (counted, state) = run_in(42, &file(0, &fixed, &[&code]), &list, 42).unwrap();
    assert_eq!(counted, counts(&[[code.len() as u64, 0, 0]]));
    [10, 14, 18].map(|at| u32::from_be_bytes(state[at..at + 4].try_into().unwrap()))
}

#[test]
fn mulh_multiplies_hundredths() {
    for (left, right, product) in [
        (150, 150, 225),
        (-1, 50, -1),
        (-1, 49, 0),
        (i32::MAX, 101, i32::MAX),
        (i32::MIN, 101, i32::MIN),
    ] {
        let [.., found] = registers_after([left, right], &[MULH]);
        assert_eq!(found as i32, product, "{left} times {right}");
    }
}

#[test]
fn lesss_compares_signed_values() {
    for (left, right, lesss, less) in [(-1, 0, 1, 0), (0, -1, 0, 1), (-2, -1, 1, 1), (1, 1, 0, 0)] {
        let results = [LESSS, LESS].map(|instruction| {
            let [.., found] = registers_after([left, right], &[instruction]);
            found
        });
        assert_eq!(results, [lesss, less], "{left} and {right}");
    }
}

/// "The same register may be named more than once in an instruction: all operands are read before the
/// result is put."
#[test]
fn operands_are_read_before_the_result_is_put() {
    let mulh = |to, left, right| Mulh { to, left, right };
    let lesss = |to, left, right| Lesss { to, left, right };
    for (instruction, registers) in [
        (mulh(0, 0, 1), [-2, 50, 0]),
        (mulh(1, 0, 1), [-3, -2, 0]),
        (mulh(1, 1, 1), [-3, 25, 0]),
        (lesss(0, 0, 1), [1, 50, 0]),
        (lesss(1, 0, 1), [-3, 1, 0]),
        (lesss(1, 1, 1), [-3, 0, 0]),
    ] {
        let found = registers_after([-3, 50], &[instruction]);
        assert_eq!(
            found.map(|value| value as i32),
            registers,
            "{instruction:?}"
        );
    }
}

/// "Both are plain": B, in a block and outside.
#[test]
fn signed_hundredths_are_both_movers() {
    assert_eq!(report(OPEN, &[MULH, LESSS]), Ok(vec![1, 1, 1]));
    let within = block(&[TAKE, MULH, LESSS, GIVE, MULH]);
    assert_eq!(report(OPEN, &within), Ok(vec![4, 3, 1, 1, 2, 1, 0, 4]));
}

// What a block states.

/// A block that states a report byte.
fn stated(statement: u8, body: &[Instruction]) -> Vec<Instruction> {
    let mut code = block(body);
    code[0] = stating(statement, body.len() as u16 + 1);
    code
}

/// A block with a report byte: what stands before it, its body, and what stands behind.
type Surrounded = (u8, [&'static [Instruction]; 3]);

const BLOCKS: [Surrounded; 4] = [
    (1, [&[], &[], &[]]),
    (2, [&[TAKE], &[GIVE], &[]]),
    (3, [&[], &[TAKE], &[GIVE]]),
    (4, [&[], &[TAKE, READ, WRITE, GIVE], &[]]),
];

#[test]
fn a_statement_is_true_of_the_atomicity_itself_alone() {
    for (right, [before, body, behind]) in BLOCKS {
        let judged = |statement| {
            let code = [before, &stated(statement, body), behind].concat();
            report(GUARDED_BY_K0, &code)
        };
        let unstated = judged(0).unwrap();
        assert_eq!(unstated[before.len()], right);
        let end = offset(before.len() + body.len() + 1);
        for statement in 1..=4 {
            if statement == right {
                assert_eq!(judged(statement).as_ref(), Ok(&unstated));
            } else {
                let answer = judged(statement);
                assert_eq!(answer, refused(18, end), "{right} stated {statement}");
            }
        }
    }
}

#[test]
fn t_cannot_be_stated() {
    assert_eq!(report(OPEN, &stated(5, &[])), refused(7, offset(0)));
    let two_writes = |statement| report(OPEN, &stated(statement, &[WRITE, WRITE]));
    assert_eq!(two_writes(5), refused(7, offset(0)));
    for statement in 0..=4 {
        assert_eq!(two_writes(statement), refused(13, offset(3)), "13 first");
    }
}

#[test]
fn the_inner_blocks_statement_is_compared_first() {
    let nested = |inner, outer| stated(outer, &[stated(inner, &[TAKE]), vec![GIVE]].concat());
    let both_true = Ok(vec![4, 3, 3, 0, 2, 0, 4]);
    assert_eq!(report(OPEN, &nested(3, 4)), both_true);
    assert_eq!(report(OPEN, &nested(4, 4)), refused(18, offset(3)));
    assert_eq!(report(OPEN, &nested(4, 3)), refused(18, offset(3)));
    assert_eq!(report(OPEN, &nested(3, 3)), refused(18, offset(5)));
}

#[test]
fn a_write_in_another_thread_makes_a_statement_false() {
    let reads = |statement| stated(statement, &[READ]);
    assert_eq!(report(OPEN, &reads(1)), Ok(vec![1, 1, 0, 1]));
    assert_eq!(report(OPEN, &reads(4)), refused(18, offset(2)));
    let beside_writer = |statement| report_beside_writer(OPEN, &reads(statement));
    assert_eq!(beside_writer(1), refused(18, offset(2)));
    assert_eq!(beside_writer(4), Ok(vec![4, 4, 0, 4]));
}

#[test]
fn a_statement_is_printed_after_the_distance() {
    let line = |code: &[Instruction]| {
        let line = line_in(48, &file(1, &[], &[code]), 5).unwrap();
        String::from_utf8(line).unwrap()
    };
    let body = [TAKE, GIVE];
    assert_eq!(line(&stated(4, &body)), "34 04 00 03 0 ATOMIC 3 A A\n");
    assert_eq!(line(&stated(0, &body)), "34 00 00 03 0 ATOMIC 3 A\n");
    let kept = [stated(3, &[TAKE]), vec![GIVE]].concat();
    assert_eq!(line(&kept), "34 03 00 02 0 ATOMIC 2 R R\n");
    assert_eq!(line(&stated(1, &[])), "34 01 00 01 0 ATOMIC 1 B B\n");
}

// Mistakes that look reasonable.

/// The block is B; what follows, what stands before and the whole are A.
#[test]
fn a_statement_is_of_the_block_alone() {
    let followed = |statement| [stated(statement, &[]), vec![WRITE]].concat();
    assert_eq!(report(OPEN, &followed(1)), Ok(vec![1, 0, 4, 4]));
    assert_eq!(report(OPEN, &followed(4)), refused(18, offset(1)));
    let behind = |statement| [vec![WRITE], stated(statement, &[])].concat();
    assert_eq!(report(OPEN, &behind(1)), Ok(vec![4, 1, 0, 4]));
    assert_eq!(report(OPEN, &behind(4)), refused(18, offset(2)));
}

#[test]
fn a_statement_does_not_stand_for_the_block() {
    let writes = stated(1, &[WRITE]);
    let twice = stated(1, &[&writes[..], &writes].concat());
    assert_eq!(report(OPEN, &twice), refused(18, offset(3)));
    let unstated = block(&[block(&[WRITE]), block(&[WRITE])].concat());
    assert_eq!(report(OPEN, &unstated), refused(13, offset(7)));
}

#[test]
fn two_atomic_parts_are_not_atomic() {
    for code in [[READ, READ], [READ, WRITE], [WRITE, READ], [WRITE, WRITE]] {
        assert_eq!(report_beside_writer(OPEN, &code), Ok(vec![4, 4, 5]));
        let answer = report_beside_writer(OPEN, &block(&code));
        assert_eq!(answer, refused(13, offset(3)));
    }
    assert_eq!(report(OPEN, &[WRITE, WRITE]), Ok(vec![4, 4, 5]));
    assert_eq!(
        report(OPEN, &block(&[WRITE, WRITE])),
        refused(13, offset(3))
    );
}

#[test]
fn repeating_an_atomic_part_is_not_atomic() {
    for code in [READ, WRITE].map(|access| repeat(&[access])) {
        assert_eq!(report_beside_writer(OPEN, &code), Ok(vec![5, 4, 0, 5]));
        let answer = report_beside_writer(OPEN, &block(&code));
        assert_eq!(answer, refused(13, offset(4)));
    }
}

/// No base file shows it, because the parts' sets would differ; so the algebra has to.
#[test]
fn joining_left_and_right_gives_atomic_and_not_none() {
    assert_eq!(Atomicity::L.join(Atomicity::R), Atomicity::A);
    assert_eq!(Atomicity::R.join(Atomicity::L), Atomicity::A);
}

#[test]
fn a_thread_at_its_atomic_is_not_inside() {
    assert!(!is_inside(&block(&[GIVE]), 0));
}

#[test]
fn a_thread_at_the_end_of_its_block_is_still_inside() {
    assert!(is_inside(&block(&[GIVE]), 2));
}

#[test]
fn the_else_part_starts_with_the_set_at_the_if() {
    let both_take = [choice(&[TAKE], &[TAKE]), vec![GIVE]].concat();
    assert_eq!(
        report(OPEN, &both_take),
        Ok(vec![3, 3, 0, 3, 0, 2, 4]),
        "the else part may take what the then part took"
    );
    let only_then_takes = [choice(&[TAKE, READ], &[READ]), vec![GIVE]].concat();
    assert_eq!(
        report(GUARDED_BY_K0, &only_then_takes),
        refused(9, offset(4)),
        "the else part holds nothing"
    );
    assert_eq!(
        report(OPEN, &choice(&[TAKE], &[])),
        refused(12, offset(3)),
        "the sets are compared at END"
    );
}

// Inside a block.

#[test]
fn past_its_end_a_thread_is_outside() {
    let code = block(&[GIVE]);
    let inside: Vec<bool> = (0..=3).map(|place| is_inside(&code, place)).collect();
    assert_eq!(inside, [false, true, true, false]);
}

#[test]
fn an_inner_block_is_inside_the_outer_one_throughout() {
    let code = [vec![GIVE], block(&block(&[])), block(&[])].concat();
    let inside: Vec<bool> = (0..=7).map(|place| is_inside(&code, place)).collect();
    // GIVE, ATOMIC, ATOMIC, END, END, ATOMIC, END, code's end
    let expected = [false, false, true, true, true, false, true, false];
    assert_eq!(inside, expected);
}

#[test]
fn code_without_a_block_is_outside() {
    let code = repeat(&choice(&[TAKE], &[GIVE]));
    assert!((0..=code.len()).all(|place| !is_inside(&code, place)));
}

#[test]
fn stands_inside_follows_the_thread() {
    let file = file(0, &[], &[&block(&[]), &[]]);
    let program = Program::read(&file).unwrap();
    let mut state = State::start(&program);
    let mut seen = vec![state.stands_inside(&program, 0)];
    while state.step(&program, 0) == Outcome::Moved {
        seen.push(state.stands_inside(&program, 0));
        assert!(!state.stands_inside(&program, 1));
    }
    assert_eq!(seen, [false, true, false]);
}

// The example file.

const EXAMPLE: &str = "01 01 01 00 06 00 00 00 00 00 05 00 0C 20 00 00 00 10 02 00 00 21 00 00 00";

const EXAMPLE_LINES: [&str; 10] = [
    "01 version 1\n",
    "01 locks 1\n",
    "01 threads 1\n",
    "0006 variables 1\n",
    "00 00 00000005 v0 guarded k0 5\n",
    "000C thread 0 code 3\n",
    "20 00 00 00 0 TAKE k0 R\n",
    "10 02 00 00 1 READ r2 v0 B\n",
    "21 00 00 00 2 GIVE k0 L\n",
    "thread 0 A\n",
];

#[test]
fn the_example_prints_its_ten_lines() {
    let file = hex(EXAMPLE);
    assert_eq!(line_count(&file), Ok(10));
    for (i, expected) in EXAMPLE_LINES.iter().enumerate() {
        assert_eq!(line_in(48, &file, i as u64).unwrap(), expected.as_bytes());
    }
    assert_eq!(line_in(48, &file, 10), refused(17, 10));
    assert_eq!(bench(&file), EXAMPLE_LINES.concat().into_bytes());
}

#[test]
fn the_example_reads_its_variable() {
    let file = hex(EXAMPLE);
    assert_eq!(state_length(&file), Ok(39));
    let (counted, state) = run_in(39, &file, &[0, 0, 0, 0], 39).unwrap();
    assert_eq!(counted, counts(&[[3, 0, 1]]));
    let mut end = hex("00000005 00 0003 00000000 00000000 00000005");
    end.resize(39, 0);
    assert_eq!(state, end);
}

// The verified test program.

fn numbers(bytes: &[u8]) -> String {
    bytes.iter().map(|byte| format!(" {byte}")).collect()
}

/// What `crates/cases` prints of a judgement.
fn judged(name: &str, answer: Result<Vec<u8>, Refusal>) -> String {
    match answer {
        Ok(report) => format!("{name}: report{}\n", numbers(&report)),
        Err(refusal) => refusal_of(name, refusal),
    }
}

fn refusal_of(name: &str, refusal: Refusal) -> String {
    format!("{name}: refused {} at {}\n", refusal.number, refusal.detail)
}

/// What `crates/cases` prints of a run into a buffer of 255s, one byte longer than the state.
fn ran(name: &str, file: &[u8], list: &[u8]) -> String {
    let needed = state_length(file).unwrap();
    let (counted, state) = run_in(needed, file, list, needed).unwrap();
    let of_thread = |counts: &Counts| {
        let Counts {
            moved,
            waiting,
            idle,
        } = counts;
        format!(" {moved}/{waiting}/{idle}")
    };
    let counts: String = counted.iter().map(of_thread).collect();
    format!("{name}: counts{counts}, buffer{} 255\n", numbers(&state))
}

fn empty_cases() -> String {
    let run = run_in(40, &[], &[], 0).unwrap_err();
    let line = line_in(48, &[], 0).unwrap_err();
    [
        judged("empty file, judge", judge_in(10, &[])),
        refusal_of("empty file, run", run),
        refusal_of("empty file, line", line),
        ran("empty list", &hex(EXAMPLE), &[]),
    ]
    .concat()
}

/// What `crates/cases` prints of a READ of an open variable and WRITEs of it.
fn writers() -> String {
    let not_reached = choice(&[WRITE], &[]);
    let of = |name, codes: &[&[Instruction]]| {
        let name = format!("READ with {name}");
        judged(&name, judge_in(100, &file(0, &[OPEN], codes)))
    };
    [
        of("an own WRITE", &[&[READ, WRITE]]),
        of("a WRITE in the next thread", &[&[READ], &[WRITE]]),
        of("a WRITE in the thread before", &[&[WRITE], &[READ]]),
        of("a WRITE that is not reached", &[&[READ], &not_reached]),
    ]
    .concat()
}

/// What `crates/cases` prints where one thread alone writes.
fn one_writer() -> String {
    let of = |name, variables: &[[u8; 6]], codes: &[&[Instruction]]| {
        let name = format!("one writer, and {name}");
        judged(&name, judge_in(100, &file(0, variables, codes)))
    };
    let write = |variable| Write { from: 0, variable };
    let read = |to, variable| Read { to, variable };
    let writes = block(&[write(0), write(1)]);
    let reads = [read(0, 0), read(1, 1)];
    [
        of("READs of both threads", &[OPEN], &[&[WRITE, READ], &[READ]]),
        of("a block of two WRITEs", &[OPEN, OPEN], &[&writes, &reads]),
    ]
    .concat()
}

/// What `crates/cases` prints of what blocks state.
fn statements() -> String {
    let guarded = |name, code: Vec<Instruction>| judged(name, report(GUARDED_BY_K0, &code));
    let taken = |statement| stated(statement, &[TAKE]);
    let given = |statement| [vec![TAKE], stated(statement, &[GIVE])].concat();
    let both = |statement| stated(statement, &[TAKE, GIVE]);
    let line = |name, statement| {
        let text = line_in(48, &file(1, &[], &[&both(statement)]), 5).unwrap();
        format!("{name}, its line: {}", String::from_utf8(text).unwrap())
    };
    let inner = stated(4, &[taken(4), vec![GIVE]].concat());
    [
        guarded("B, states B", stated(1, &[])),
        guarded("L, states L", given(2)),
        guarded("R, states R", [taken(3), vec![GIVE]].concat()),
        guarded("A, states A", stated(4, &[TAKE, READ, WRITE, GIVE])),
        guarded("B, states A", stated(4, &[])),
        guarded("A, states B", both(1)),
        guarded("L, states R", given(3)),
        judged("T, states A", report(OPEN, &stated(4, &[WRITE, WRITE]))),
        guarded("A, states A, around R, states A", inner),
        guarded("B, states T", stated(5, &[])),
        line("states A", 4),
        line("states nothing", 0),
    ]
    .concat()
}

/// A thread at place 6 with 3 in r0 and 5 in r1 after a step of this code, where v0 is 9.
fn moved(name: &str, code: &[Instruction]) -> String {
    let registers = [3, 5, 0, 0, 0, 0, 0, 0];
    let before = Thread {
        place: 6,
        registers,
    };
    moved_from(before, name, code)
}

fn moved_from(before: Thread, name: &str, code: &[Instruction]) -> String {
    let file = file(1, &[[2, 0, 0, 0, 0, 9]], &[code]);
    let program = Program::read_accepted(&file).unwrap();
    let mut state = State::start(&program);
    state.threads[0] = before;
    assert_eq!(state.step(&program, 0), Outcome::Moved);
    let Thread { place, registers } = state.threads[0];
    let registers: String = registers.iter().map(|value| format!(" {value}")).collect();
    format!("{name}: place {place}, registers{registers}\n")
}

/// What `crates/cases` prints of moves of signed instructions, each at place 0 with -1, 50, 49 and 150
/// in the first registers.
fn signed_moves() -> String {
    let before = Thread {
        place: 0,
        registers: [u32::MAX, 50, 49, 150, 0, 0, 0, 0],
    };
    let to = 4;
    let at_0 = |name, instruction| moved_from(before, name, &[instruction]);
    let mulh = |left, right| Mulh { to, left, right };
    let (left, right) = (0, 1);
    [
        at_0("MULH r4 r3 r3", mulh(3, 3)),
        at_0("MULH r4 r0 r1", mulh(0, 1)),
        at_0("MULH r4 r0 r2", mulh(0, 2)),
        at_0("LESSS r4 r0 r1", Lesss { to, left, right }),
        at_0("LESS r4 r0 r1", Less { to, left, right }),
    ]
    .concat()
}

/// What `crates/cases` prints of moves, each of the instruction at place 6 but for the signed ones.
fn moves() -> String {
    let plain = |n| vec![Set { to: 0, number: 0 }; n];
    let at_6 = |name, rest: Vec<Instruction>| moved(name, &[plain(6), rest].concat());
    let sub = |left, right| vec![Sub { to: 2, left, right }];
    let v0 = vec![Read { to: 7, variable: 0 }];
    let mut tests_r2 = repeat(&plain(3));
    tests_r2[0] = While {
        test: 2,
        distance: 4,
    };
    let else_at_6 = [plain(5), choice(&[], &plain(3))].concat();
    [
        at_6("SUB r2 r1 r0", sub(1, 0)),
        at_6("SUB r2 r0 r1", sub(0, 1)),
        at_6("READ r7 v0", v0),
        signed_moves(),
        at_6("IF r0 4", choice(&plain(3), &[])),
        at_6("WHILE r2 4", tests_r2),
        moved("ELSE 4", &else_at_6),
        moved("AGAIN 4", &[plain(2), repeat(&plain(3))].concat()),
        moved("GIVE k0", &[plain(5), vec![TAKE, GIVE]].concat()),
    ]
    .concat()
}

/// `crates/cases` executes cases without a star, the mistakes and what blocks state through the
/// verified calls, and moves of a thread whose record is lent.
#[test]
fn the_test_program_prints_these_answers() {
    let of = |name, variable, code: &[Instruction]| judged(name, report(variable, code));
    let nested = |depth| (0..depth).fold(Vec::new(), |code, _| repeat(&code));
    let again = repeat(&[TAKE, GIVE]);
    let whole = line_in(48, &file(1, &[], &[&again]), 9).unwrap();
    let both_take = [choice(&[TAKE], &[TAKE]), vec![GIVE]].concat();
    let else_reads = [choice(&[TAKE, READ], &[READ]), vec![GIVE]].concat();
    let joined = Atomicity::L.join(Atomicity::R).report_byte();
    let name = "WHILE around TAKE, GIVE";
    let (own, own_list) = own_counts();
    let lines = [
        empty_cases(),
        ran("own counts", &own, &own_list),
        of("16 entries open", GUARDED_BY_K0, &nested(16)),
        of("17 entries open", GUARDED_BY_K0, &nested(17)),
        of("READ before TAKE", GUARDED_BY_K0, &[READ, TAKE, GIVE]),
        of(name, OPEN, &again),
        format!("{name}, last line: {}", String::from_utf8(whole).unwrap()),
        of(&format!("{name} in a block"), OPEN, &block(&again)),
        of("A;A", OPEN, &[WRITE, WRITE]),
        of("A;A in a block", OPEN, &block(&[WRITE, WRITE])),
        of("WHILE around A", OPEN, &repeat(&[WRITE])),
        of("WHILE around A in a block", OPEN, &block(&repeat(&[WRITE]))),
        format!("L joined with R: {joined}\n"),
        of("both parts TAKE", GUARDED_BY_K0, &both_take),
        of(
            "the else part READs without TAKE",
            GUARDED_BY_K0,
            &else_reads,
        ),
        writers(),
        one_writer(),
        statements(),
        moves(),
    ];
    let stdout = include_str!("../../crates/cases/stdout");
    assert_eq!(lines.concat(), stdout);
}

// Every instruction's line, and the longest line.

#[test]
fn every_instruction_is_printed_with_its_fields() {
    let code = [
        "01 07 FF FF 0 SET r7 65535 B",
        "02 01 02 00 1 COPY r1 r2 B",
        "03 01 02 03 2 ADD r1 r2 r3 B",
        "04 04 05 06 3 SUB r4 r5 r6 B",
        "05 00 01 02 4 LESS r0 r1 r2 B",
        "07 05 06 07 5 MULH r5 r6 r7 B",
        "08 07 00 01 6 LESSS r7 r0 r1 B",
        "10 03 01 00 7 READ r3 v1 B",
        "11 03 01 00 8 WRITE r3 v1 A",
        "30 04 00 02 9 IF r4 2 B",
        "01 00 00 00 10 SET r0 0 B",
        "31 00 00 01 11 ELSE 1 -",
        "35 00 00 00 12 END -",
        "32 05 00 01 13 WHILE r5 1 B",
        "33 00 00 01 14 AGAIN 1 -",
        "34 00 00 01 15 ATOMIC 1 B",
        "35 00 00 00 16 END -",
        "34 01 00 01 17 ATOMIC 1 B B",
        "35 00 00 00 18 END -",
    ];
    let mut file = hex("01 00 01 00 0C 02 00 00 00 00 09 03 00 80 00 00 00 00 4C");
    code.iter().for_each(|line| file.extend(hex(&line[..11])));
    let head = "01 version 1\n00 locks 0\n01 threads 1\n000C variables 2\n\
        02 00 00000009 v0 fixed 9\n03 00 80000000 v1 open 2147483648\n004C thread 0 code 19\n";
    let printed = String::from_utf8(bench(&file)).unwrap();
    assert_eq!(printed, format!("{head}{}\nthread 0 A\n", code.join("\n")));
}

/// The letters of a printout's READ and of its thread's whole follow the other thread's code.
#[test]
fn a_read_of_an_open_variable_is_printed_as_it_is_judged() {
    for (other, letter) in [(WRITE, 'A'), (READ, 'B')] {
        let file = file(0, &[OPEN], &[&[READ], &[other]]);
        let read = format!("10 02 00 00 0 READ r2 v0 {letter}\n");
        let whole = format!("thread 0 {letter}\n");
        assert_eq!(line_in(48, &file, 6), Ok(read.clone().into_bytes()));
        assert_eq!(line_in(48, &file, 9), Ok(whole.clone().into_bytes()));
        let printed = String::from_utf8(bench(&file)).unwrap();
        assert!(printed.contains(&(read + "0004 thread 1 code 1\n")));
        assert!(printed.contains(&(whole + "thread 1 ")));
    }
}

#[test]
fn the_longest_line_has_42_bytes() {
    let mut variables = vec![[1, 0, 0, 0, 0, 0]; 63];
    variables.push([0, 15, 0xFF, 0xFF, 0xFF, 0xFF]);
    let line = line_in(48, &file(16, &variables, &[&[]]), 67).unwrap();
    assert_eq!(line, b"00 0F FFFFFFFF v63 guarded k15 4294967295\n");
    assert_eq!(line.len(), 42);
}

#[test]
fn the_largest_file_has_33173_bytes_and_one_more_is_left_over() {
    let mut file = generate::largest_file(&mut generate::Rng::new(1));
    assert_eq!(file.len(), 33_173);
    assert_eq!(judge_in(8200, &file).map(|report| report.len()), Ok(8200));
    assert_eq!(judge_in(8199, &file), refused(16, 8200));
    file.extend([0; 100]);
    assert_eq!(judge_in(8200, &file), refused(5, 33_173));
    assert_eq!(bench(&file), b"refused 5 at 33173\n");
}
