//! The standard's cases, answered by the compiled library. Each answer stands here, and the
//! reimplementation has to leave the same bytes in and around every buffer that is lent.

mod stored;
#[path = "differential/support.rs"]
#[allow(dead_code)] // the tally is for generated files
mod support;

use hogunlas::Refusal;
use stored::Stored;
use support::lend;

/// What judge answers: the report, or number and detail of the refusal.
type Answer = Result<&'static [u8], (u32, u64)>;

const SIXTEEN_OPEN: &[u8] = &[
    1, 1, 1, 1, 1, 1, 1, 1, 1, 1, 1, 1, 1, 1, 1, 1, // ATOMIC
    0, 0, 0, 0, 0, 0, 0, 0, 0, 0, 0, 0, 0, 0, 0, 0, // END
    1,
];

const EVERY_NAME: &[u8] = &[
    1, 1, 1, 1, 1, 1, 1, 3, 1, 2, 1, 1, 4, 1, 1, 0, 0, 1, 0, 1, 0, 5,
];

/// The files of `examples/cases/`, whose README says what each one shows.
const ANSWERS: [(&str, Answer); 46] = [
    // Cases.
    ("empty_file", Err((1, 0))),
    ("sixteen_open", Ok(SIXTEEN_OPEN)),
    ("seventeenth_open", Err((8, 7 + 4 * 16))),
    ("read_before_take", Err((9, 13))),
    ("while_outside", Ok(&[5, 3, 2, 0, 5])),
    ("while_in_block", Err((13, 7 + 4 * 5))),
    // Cases with a star.
    ("right_left", Ok(&[3, 2, 4])),
    ("left_right", Ok(&[3, 5, 2, 3, 0, 0, 2, 5])),
    ("closure_of_a", Ok(&[5, 4, 0, 5])),
    ("block_of_end", Ok(&[1, 0, 1])),
    ("block_guarded", Ok(&[4, 3, 1, 1, 2, 0, 4])),
    ("block_guarded_twice", Err((13, 13 + 4 * 9))),
    ("block_open_within", Ok(&[4, 3, 4, 2, 0, 4, 4, 4])),
    ("block_unwritten_within", Ok(&[4, 3, 1, 2, 0, 4])),
    ("block_open_first", Err((13, 13 + 4 * 4))),
    ("block_unwritten_first", Ok(&[4, 1, 3, 2, 0, 4])),
    ("two_threads", Ok(&[3, 2, 4, 3, 2, 4])),
    // What a block states.
    ("stated_truly", Ok(&[1, 0, 3, 3, 0, 2, 2, 0, 4, 3, 2, 0, 5])),
    ("stated_above", Err((18, 7 + 4))),
    ("stated_below", Err((18, 7 + 4 * 3))),
    ("stated_beside", Err((18, 7 + 4 * 2))),
    ("stated_t", Err((13, 13 + 4 * 3))),
    ("stated_within", Err((18, 7 + 4 * 3))),
    ("stated_and_written", Err((18, 13 + 4 * 2))),
    ("statement_of_5", Err((7, 7))),
    // Mistakes that look reasonable.
    ("a_then_a", Ok(&[4, 4, 5])),
    ("both_parts_take", Ok(&[3, 3, 0, 3, 0, 2, 4])),
    ("else_part_reads", Err((9, 13 + 4 * 4))),
    ("own_write", Ok(&[1, 4, 4])),
    ("writer_behind", Ok(&[4, 4, 4, 4])),
    ("writer_before", Ok(&[4, 4, 4, 4])),
    ("write_not_reached", Ok(&[4, 4, 4, 4, 0, 0, 4])),
    ("one_writer_reads", Ok(&[4, 1, 4, 4, 4])),
    ("one_writer_writes", Err((13, 19 + 4 * 3))),
    // A refusal of each number, and the details that are no offset of an instruction.
    ("cut_short", Err((1, 24))),
    ("version_2", Err((2, 0))),
    ("seventeen_locks", Err((3, 1))),
    ("length_of_5", Err((4, 3))),
    ("left_over", Err((5, 25))),
    ("kind_4", Err((6, 5))),
    ("register_8", Err((7, 13 + 4))),
    ("open_at_end", Err((8, 7 + 4))),
    ("take_held", Err((10, 7 + 4))),
    ("give_not_held", Err((11, 7))),
    ("kept_to_end", Err((12, 7 + 4))),
    // Every name and every kind.
    ("every_name", Ok(EVERY_NAME)),
];

fn each_case(mut check: impl FnMut(&Stored, Answer)) {
    for (name, answer) in ANSWERS {
        check(&stored::one(stored::CASES, name), answer);
    }
}

fn refused((number, detail): (u32, u64)) -> Refusal {
    Refusal { number, detail }
}

/// Calls judge on both sides with a buffer of so many bytes, and answers the report.
fn judge(case: &Stored, length: usize) -> Result<Vec<u8>, Refusal> {
    let mut report = Vec::new();
    let wanted = lend(3, length, |buffer| {
        hogunlas_reference::judge(&case.file, buffer)
    });
    let judged = lend(3, length, |buffer| {
        let used = hogunlas::judge(&case.file, buffer)?;
        report = buffer[..used].to_vec();
        Ok::<usize, Refusal>(used)
    });
    judged.assert_is(&wanted, format_args!("judge, {}, {length}", case.name));
    judged.answer.map(|_| report)
}

#[test]
fn every_stored_case_has_its_answer() {
    let mut answered: Vec<&str> = ANSWERS.iter().map(|&(name, _)| name).collect();
    answered.sort();
    let stored = stored::all(stored::CASES);
    let names: Vec<&str> = stored.iter().map(|case| case.name.as_str()).collect();
    assert_eq!(names, answered);
}

#[test]
fn judge_answers_so() {
    each_case(|case, answer| {
        let wanted = answer.map(<[u8]>::to_vec).map_err(refused);
        assert_eq!(judge(case, 40), wanted, "{}", case.name);
        if let Ok(report) = answer {
            assert_eq!(judge(case, report.len()), wanted, "{}", case.name);
            let short = judge(case, report.len() - 1);
            assert_eq!(short, Err(refused((16, report.len() as u64))));
        }
    });
}

mod run {
    use super::*;
    use hogunlas::{Counts, MAX_STATE, MAX_THREADS};
    use hogunlas_reference::generate::encode_file;
    use hogunlas_reference::instruction::Instruction::*;
    use support::{as_ours, assert_sums};

    /// What run answers: the counts of each thread.
    type Threads = [Counts; MAX_THREADS];

    /// Moved, waiting and idle of a file's threads; of all others they are 0.
    fn counts<const N: usize>(of_threads: [(u64, u64, u64); N]) -> Threads {
        let mut threads = [Counts::default(); MAX_THREADS];
        for (counts, (moved, waiting, idle)) in threads.iter_mut().zip(of_threads) {
            *counts = Counts {
                moved,
                waiting,
                idle,
            };
        }
        threads
    }

    /// Calls run on both sides with the longest buffer, and answers the counts and the state.
    fn run(name: &str, file: &[u8], list: &[u8]) -> Result<(Threads, Vec<u8>), Refusal> {
        let mut state = Vec::new();
        let wanted = lend(5, MAX_STATE, |buffer| {
            hogunlas_reference::run(file, list, buffer).map(as_ours)
        });
        let ran = lend(5, MAX_STATE, |buffer| {
            let threads = hogunlas::run(file, list, buffer)?;
            assert_sums(&threads, file, list, format_args!("{name}, {list:?}"));
            let used = hogunlas_reference::state_length(file).expect("an accepted file");
            state = buffer[..used].to_vec();
            Ok::<Threads, Refusal>(threads)
        });
        ran.assert_is(&wanted, format_args!("run, {name}, {list:?}"));
        ran.answer.map(|threads| (threads, state))
    }

    /// Initial values, then zeros for the locks, places and registers.
    fn start_state(file: &[u8]) -> Vec<u8> {
        let length = usize::from(file[4]);
        let records = file[5..5 + length].chunks(6);
        let mut state: Vec<u8> = records.flat_map(|record| record[2..].to_vec()).collect();
        let (locks, threads) = (usize::from(file[1]), usize::from(file[2]));
        state.resize(state.len() + locks + 34 * threads, 0);
        state
    }

    #[test]
    fn the_empty_list_gives_the_start_state() {
        let example = stored::one(stored::EXAMPLES, "standard");
        let (counted, state) = run("standard", &example.file, &[]).expect("an answer");
        assert_eq!(counted, counts([]));
        assert_eq!(state[..5], [0, 0, 0, 5, 0]);
        assert_eq!(state[5..], [0; 34]);
        each_case(|case, answer| {
            let ran = run(&case.name, &case.file, &[]);
            let wanted = answer.map(|_| (counts([]), start_state(&case.file)));
            assert_eq!(ran, wanted.map_err(refused), "{}", case.name);
        });
    }

    #[test]
    fn two_threads_take_turns_at_a_lock() {
        let case = stored::one(stored::CASES, "two_threads");
        let (counted, state) = run(&case.name, &case.file, &[0, 1, 0, 1]).expect("an answer");
        assert_eq!(counted, counts([(2, 0, 0), (1, 1, 0)]));
        let mut wanted = [0; 69];
        wanted[0] = 2; // k0 is held by thread 1
        wanted[2] = 2; // the place of thread 0
        wanted[36] = 1; // and of thread 1
        assert_eq!(state, wanted);
    }

    /// Thread t makes t moves before it takes k0. Thread 0 takes it, and the others wait t + 1 times
    /// each, until thread 0 gives it and is idle three times: so no two threads have equal counts.
    #[test]
    fn each_of_eight_threads_has_its_own_counts() {
        let code = |t: u8| {
            let set = Set { to: 0, number: 1 };
            let taking = [Take { lock: 0 }, Give { lock: 0 }];
            [vec![set; t.into()], taking.to_vec()].concat()
        };
        let codes: Vec<_> = (0..8).map(code).collect();
        let file = encode_file(1, &[], &codes);
        let others = (1..8).flat_map(|t| vec![t; 2 * usize::from(t) + 1]);
        let list: Vec<u8> = [0].into_iter().chain(others).chain([0; 4]).collect();
        let (counted, _) = run("eight", &file, &list).expect("an answer");
        let mut wanted = [0, 1, 2, 3, 4, 5, 6, 7].map(|t| (t, t + 1, 0));
        wanted[0] = (2, 0, 3);
        assert_eq!(counted, counts(wanted));
    }

    #[test]
    fn add_wraps_to_zero() {
        let own_full = [1, 0, 0xFF, 0xFF, 0xFF, 0xFF];
        let (to, left, right) = (3, 2, 1);
        let code = [
            Read { to: 2, variable: 0 },
            Set { to: 1, number: 1 },
            Set { to: 3, number: 7 },
            Add { to, left, right },
        ];
        let file = encode_file(0, &[own_full], &[code]);
        let (counted, state) = run("add", &file, &[0, 0, 0, 0]).expect("an answer");
        assert_eq!(counted, counts([(4, 0, 0)]));
        let registers = &state[6..];
        assert_eq!(registers[4..8], [0, 0, 0, 1]);
        assert_eq!(registers[8..12], [0xFF; 4]);
        assert_eq!(registers[12..16], [0; 4]);
    }

    /// -1 times 50 is -1, and -1 times 49 is 0; -1 is below 0.
    #[test]
    fn signed_hundredths_go_below_zero() {
        let own_minus_1 = [1, 0, 0xFF, 0xFF, 0xFF, 0xFF];
        let (left, right) = (0, 1);
        let code = [
            Read { to: 0, variable: 0 },
            Set { to: 1, number: 50 },
            Mulh { to: 2, left, right },
            Set { to: 1, number: 49 },
            Mulh { to: 3, left, right },
            Lesss {
                to: 4,
                left,
                right: 3,
            },
        ];
        let file = encode_file(0, &[own_minus_1], &[code]);
        let (counted, state) = run("below zero", &file, &[0; 6]).expect("an answer");
        assert_eq!(counted, counts([(6, 0, 0)]));
        let registers = &state[6..];
        assert_eq!(registers[8..12], [0xFF; 4]);
        assert_eq!(registers[12..16], [0; 4]);
        assert_eq!(registers[16..20], [0, 0, 0, 1]);
    }
}

mod line {
    use super::*;
    use hogunlas::LINE_BUFFER;

    /// Calls line on both sides, and answers the text.
    fn line(case: &Stored, i: u64) -> Result<Vec<u8>, Refusal> {
        let mut text = Vec::new();
        let wanted = lend(i, LINE_BUFFER, |buffer| {
            hogunlas_reference::line(&case.file, i, buffer)
        });
        let printed = lend(i, LINE_BUFFER, |buffer| {
            let used = hogunlas::line(&case.file, i, buffer)?;
            text = buffer[..used].to_vec();
            Ok::<usize, Refusal>(used)
        });
        printed.assert_is(&wanted, format_args!("line {i}, {}", case.name));
        printed.answer.map(|_| text)
    }

    #[test]
    fn the_lines_are_the_stored_printouts() {
        each_case(|case, answer| {
            if let Err(refusal) = answer {
                assert_eq!(line(case, 0), Err(refused(refusal)), "{}", case.name);
                return;
            }
            let lines = case.printout.split_inclusive(|&byte| byte == b'\n');
            let mut count = 0;
            for wanted in lines {
                assert_eq!(line(case, count).as_deref(), Ok(wanted), "{}", case.name);
                count += 1;
            }
            assert_eq!(line(case, count), Err(refused((17, count))));
        });
    }
}
