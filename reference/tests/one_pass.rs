//! Where reading and judging in one pass after a search for WRITEs, tests by masks, vector
//! instructions, and counts worked out after the steps could go wrong: fields at their limits,
//! offences of different kinds in one file, offences and WRITEs at the first and the last place,
//! codes of no and of 1,024 instructions, statements at every depth, and threads that end at any
//! index of a list.

mod common;

use common::{atomic_to, counts, file, judge_in, line_in, refused, run_in, stating, stepped};
use hogunlas_reference::instruction::Instruction::{self, *};
use hogunlas_reference::machine::{State, MAX_LIST};
use hogunlas_reference::reader::Program;
use hogunlas_reference::{bench, Refusal};

const OPEN: [u8; 6] = [3, 0, 0, 0, 0, 0];
const GUARDED_BY_K0: [u8; 6] = [0, 0, 0, 0, 0, 0];

const TAKE: Instruction = Take { lock: 0 };
const GIVE: Instruction = Give { lock: 0 };
const READ: Instruction = Read { to: 0, variable: 0 };
const WRITE: Instruction = write_of(0);
const PLAIN: Instruction = Set { to: 0, number: 0 };

const fn write_of(variable: u8) -> Instruction {
    Write { from: 0, variable }
}

/// What a refused file is refused with.
fn refusal(file: &[u8]) -> (u32, u64) {
    let Refusal { number, detail } = judge_in(8_200, file).expect_err("a refusal");
    (number, detail)
}

/// A code section of words that may be no instructions.
fn section(words: &[[u8; 4]]) -> Vec<u8> {
    let bytes = words.concat();
    let length = (bytes.len() as u16).to_be_bytes();
    [&length[..], &bytes].concat()
}

fn words(code: &[Instruction]) -> Vec<[u8; 4]> {
    code.iter()
        .map(|instruction| instruction.encode())
        .collect()
}

const WRONG: [u8; 4] = [0xFF, 0, 0, 0];

// Fields.

const ANY: usize = 256;
const REGISTER: usize = 8;
const STATEMENT: usize = 5;
const UNUSED: usize = 1;

/// The standard's table of op codes: the values below these are good in the fields a, b, c.
fn good_values(locks: usize, variables: usize) -> [(u8, [usize; 3]); 17] {
    [
        (0x01, [REGISTER, ANY, ANY]),
        (0x02, [REGISTER, REGISTER, UNUSED]),
        (0x03, [REGISTER, REGISTER, REGISTER]),
        (0x04, [REGISTER, REGISTER, REGISTER]),
        (0x05, [REGISTER, REGISTER, REGISTER]),
        (0x07, [REGISTER, REGISTER, REGISTER]),
        (0x08, [REGISTER, REGISTER, REGISTER]),
        (0x10, [REGISTER, variables, UNUSED]),
        (0x11, [REGISTER, variables, UNUSED]),
        (0x20, [locks, UNUSED, UNUSED]),
        (0x21, [locks, UNUSED, UNUSED]),
        (0x30, [REGISTER, ANY, ANY]),
        (0x31, [UNUSED, ANY, ANY]),
        (0x32, [REGISTER, ANY, ANY]),
        (0x33, [UNUSED, ANY, ANY]),
        (0x34, [STATEMENT, ANY, ANY]),
        (0x35, [UNUSED, UNUSED, UNUSED]),
    ]
}

/// Whether a code of one word is refused for its instruction.
fn is_wrong(locks: usize, variables: usize, word: [u8; 4]) -> bool {
    let head = file(locks as u8, &vec![OPEN; variables], &[&[]]);
    let without_code = &head[..head.len() - 2];
    let file = [without_code, &section(&[word])].concat();
    let at = (file.len() - 4) as u64;
    judge_in(2, &file) == refused(7, at)
}

#[test]
fn every_value_of_every_field_is_good_or_a_7() {
    for (locks, variables) in [(16, 64), (3, 5), (0, 0)] {
        for (op, good) in good_values(locks, variables) {
            for field in 0..3 {
                for value in 0..=255 {
                    let mut word = [op, 0, 0, 0];
                    word[1 + field] = value;
                    // A count of 0 leaves the 0 in another field no good name.
                    let wrong = (0..3).any(|f| usize::from(word[1 + f]) >= good[f]);
                    let found = is_wrong(locks, variables, word);
                    assert_eq!(
                        found, wrong,
                        "{word:02X?}, {locks} locks, {variables} variables"
                    );
                }
            }
        }
    }
}

#[test]
fn every_other_op_is_a_7() {
    let known = good_values(16, 64).map(|(op, _)| op);
    for op in (0..=255).filter(|op| !known.contains(op)) {
        for fields in [[0, 0, 0], [1, 1, 1], [255, 255, 255]] {
            let [a, b, c] = fields;
            assert!(is_wrong(16, 64, [op, a, b, c]), "{op:02X}");
        }
    }
}

// Wrong instructions and nesting.

fn if_to(distance: u16) -> Instruction {
    If { test: 0, distance }
}

fn while_to(distance: u16) -> Instruction {
    While { test: 0, distance }
}

/// Codes whose nesting is broken at their last place.
fn broken_codes() -> Vec<Vec<Instruction>> {
    let mut codes = vec![
        vec![End],
        vec![PLAIN, Else { distance: 1 }],
        vec![Again { distance: 1 }],
        vec![atomic_to(0)],
        vec![atomic_to(2), End],
        vec![atomic_to(1), PLAIN],
        vec![atomic_to(1), while_to(3)],
        vec![if_to(1), End],
        vec![if_to(1), Else { distance: 0 }],
        vec![while_to(2), PLAIN, Again { distance: 1 }],
        vec![while_to(1), End],
    ];
    for opener in [if_to(900), while_to(900), atomic_to(900)] {
        codes.push(vec![opener; 17]);
    }
    codes
}

/// A file of one thread with these words.
fn one_thread(words: &[[u8; 4]]) -> Vec<u8> {
    [&[1, 1, 1, 0, 0][..], &section(words)].concat()
}

fn offset(place: usize) -> u64 {
    7 + 4 * place as u64
}

#[test]
fn a_wrong_instruction_after_a_broken_nesting_comes_first() {
    let rest = [PLAIN, TAKE, GIVE, if_to(1), Else { distance: 1 }, End, End];
    for code in broken_codes() {
        let broken_at = code.len() - 1;
        let mut words = words(&[code, rest.repeat(9)].concat());
        assert_eq!(refusal(&one_thread(&words)), (8, offset(broken_at)));
        let last = words.len();
        words.push(WRONG);
        assert_eq!(refusal(&one_thread(&words)), (7, offset(last)));
        words.push(WRONG);
        assert_eq!(refusal(&one_thread(&words)), (7, offset(last)), "the first");
        words[broken_at + 1] = WRONG;
        assert_eq!(refusal(&one_thread(&words)), (7, offset(broken_at + 1)));
        words[0] = WRONG;
        assert_eq!(refusal(&one_thread(&words)), (7, offset(0)));
    }
}

#[test]
fn a_wrong_instruction_comes_before_an_entry_left_open() {
    let mut words = words(&[atomic_to(1)]);
    assert_eq!(refusal(&one_thread(&words)), (8, offset(1)), "at the end");
    words.push(WRONG);
    assert_eq!(refusal(&one_thread(&words)), (7, offset(1)));
}

/// A named place that no code can have is an entry left open, also where 16 bits would wrap.
#[test]
fn an_entry_may_name_a_place_past_every_code() {
    for opener in [0x30, 0x32, 0x34] {
        let far = [opener, 0, 0xFF, 0xFF];
        let full: Vec<[u8; 4]> = [&[far][..], &[PLAIN.encode(); 1_023]].concat();
        assert_eq!(refusal(&one_thread(&full)), (8, offset(1_024)));
    }
}

#[test]
fn sixteen_entries_pass_and_the_seventeenth_of_each_kind_is_refused() {
    let around = |kind: usize, body: Vec<Instruction>| {
        let distance = body.len() as u16 + 1;
        let (opener, closers) = match kind % 3 {
            0 => (if_to(distance), vec![Else { distance: 1 }, End]),
            1 => (while_to(distance), vec![Again { distance }]),
            _ => (atomic_to(distance), vec![End]),
        };
        [vec![opener], body, closers].concat()
    };
    for kind in 0..3 {
        let sixteen = (0..16).fold(Vec::new(), |body, level| around(kind + level, body));
        let twice = [&sixteen[..], &sixteen].concat();
        assert_eq!(
            judge_in(200, &file(0, &[], &[&twice])).map(|report| report.len()),
            Ok(twice.len() + 1),
            "the entries are closed in between"
        );
        let seventeen = (0..17).fold(Vec::new(), |body, level| around(kind + level, body));
        assert_eq!(refusal(&file(0, &[], &[&seventeen])), (8, offset(16)));
    }
}

// Statements.

/// Sixteen constructs within each other, blocks or every second one an IF, around an A. All blocks
/// are A and state it but one, at some level from the outside.
fn nested_statements(with_ifs: bool, level: usize, statement: u8) -> Vec<Instruction> {
    (0..16).rev().fold(vec![WRITE], |body, at| {
        let distance = body.len() as u16 + 1;
        if with_ifs && at % 2 == 1 {
            return [&[if_to(distance)], &body[..], &[Else { distance: 1 }, End]].concat();
        }
        let statement = if at == level { statement } else { 4 };
        [&[stating(statement, distance)], &body[..], &[End]].concat()
    })
}

/// Each open entry keeps its own statement, whatever is opened and closed within.
#[test]
fn a_statement_is_compared_at_its_own_end() {
    for (with_ifs, level) in (0..16).flat_map(|level| [(false, level), (true, level & !1)]) {
        let code = |statement| nested_statements(with_ifs, level, statement);
        let whole = file(0, &[OPEN], &[&code(4)]);
        assert!(judge_in(60, &whole).is_ok());
        for statement in 1..=3 {
            let wrong = code(statement);
            let Atomic { distance, .. } = wrong[level] else {
                panic!("a block at every level")
            };
            let end = 13 + 4 * (level as u64 + u64::from(distance));
            let found = refusal(&file(0, &[OPEN], &[&wrong]));
            assert_eq!(found, (18, end), "level {level}");
        }
    }
}

/// What one block states says nothing of the next one at the same depth, in the same thread or in
/// another.
#[test]
fn a_statement_is_forgotten_at_its_end() {
    let stated = [stating(1, 1), End];
    let takes = |statement| [stating(statement, 2), TAKE, End, GIVE];
    let choice = [if_to(1), Else { distance: 1 }, End];
    let code = [&stated[..], &takes(0), &choice].concat();
    let report = vec![1, 0, 3, 3, 0, 2, 1, 0, 0, 4];
    assert_eq!(judge_in(20, &file(1, &[], &[&code])), Ok(report));
    let threads = file(1, &[], &[&stated, &takes(0)]);
    assert_eq!(judge_in(20, &threads), Ok(vec![1, 0, 1, 3, 3, 0, 2, 4]));
    let wrong = file(1, &[], &[&stated, &takes(1)]);
    assert_eq!(refusal(&wrong), (18, 7 + 8 + 2 + 8));
}

/// Every atomicity with every field a: "0 means not stated".
#[test]
fn every_field_of_every_block() {
    let bodies = [
        (vec![], vec![], 1),
        (vec![TAKE], vec![GIVE], 2),
        (vec![], vec![TAKE], 3),
        (vec![], vec![TAKE, GIVE], 4),
        (vec![], vec![TAKE, GIVE, TAKE, GIVE], 5),
    ];
    for (before, body, report_byte) in bodies {
        let end = before.len() + body.len() + 1;
        let behind = vec![GIVE; usize::from(report_byte == 3)];
        for field in 0..=255 {
            let opener = [stating(field, body.len() as u16 + 1)];
            let code = [&before, &opener[..], &body, &[End], &behind].concat();
            let answer = judge_in(20, &file(1, &[], &[&code]));
            let wanted = match field {
                5.. => refused(7, offset(before.len())),
                _ if report_byte == 5 => refused(13, offset(end)),
                0 => Ok(report_byte),
                _ if field == report_byte => Ok(report_byte),
                _ => refused(18, offset(end)),
            };
            let reported = answer.map(|report| report[before.len()]);
            assert_eq!(reported, wanted, "{report_byte}, field {field}");
        }
    }
}

// The sender's offences and the writer's.

/// Codes with an offence of the writer, its number and its place.
fn offending_codes() -> Vec<(Vec<Instruction>, u32, usize)> {
    let lock = |lock| Take { lock };
    vec![
        (vec![READ], 9, 0),
        (vec![PLAIN, TAKE, GIVE, READ], 9, 3),
        (vec![TAKE, TAKE, GIVE], 10, 1),
        (vec![GIVE], 11, 0),
        (vec![TAKE, GIVE, GIVE], 11, 2),
        (vec![if_to(2), TAKE, Else { distance: 1 }, End, GIVE], 12, 3),
        (vec![while_to(2), TAKE, Again { distance: 2 }, GIVE], 12, 2),
        (vec![TAKE], 12, 1),
        (vec![lock(1), lock(0), GIVE], 12, 3),
        (vec![atomic_to(5), TAKE, GIVE, TAKE, GIVE, End], 13, 5),
        (vec![stating(4, 5), TAKE, GIVE, TAKE, GIVE, End], 13, 5),
        (vec![stating(4, 1), End], 18, 1),
        (vec![TAKE, stating(4, 2), GIVE, End], 18, 3),
        (vec![stating(1, 3), stating(2, 1), End, End], 18, 2),
    ]
}

/// A file of two locks and a variable guarded by k0, its threads' codes given as sections.
fn file_of(sections: &[Vec<u8>]) -> Vec<u8> {
    let head = [1, 2, sections.len() as u8, 0, 6];
    [&head[..], &GUARDED_BY_K0, &sections.concat()].concat()
}

#[test]
fn the_senders_offences_in_a_later_thread_come_before_the_writers() {
    for (code, number, place) in offending_codes() {
        let code = section(&words(&code));
        let start = 5 + 6 + 2;
        let good = section(&[PLAIN.encode()]);
        let found = (number, start + 4 * place as u64);
        assert_eq!(refusal(&file_of(&[code.clone(), good.clone()])), found);
        let next = (5 + 6 + code.len()) as u64;
        for (later, expected) in [
            (vec![], (1, next)),
            (vec![0], (1, next + 1)),
            (vec![0, 4, 1], (1, next + 3)),
            (vec![0, 3, 1], (4, next)),
            (section(&[WRONG]), (7, next + 2)),
            (section(&[End.encode()]), (8, next + 2)),
            ([good.clone(), vec![0]].concat(), (5, next + 6)),
        ] {
            let file = file_of(&[code.clone(), later]);
            assert_eq!(refusal(&file), expected, "after a {number}");
        }
    }
}

#[test]
fn the_senders_offences_in_the_same_thread_come_before_the_writers() {
    for (code, number, _) in offending_codes() {
        let mut words = words(&code);
        let end = 13 + 4 * words.len() as u64;
        words.push(End.encode());
        assert_eq!(refusal(&file_of(&[section(&words)])), (8, end), "{number}");
        words.push(WRONG);
        assert_eq!(
            refusal(&file_of(&[section(&words)])),
            (7, end + 4),
            "{number}"
        );
    }
}

/// Judging goes on past an offence, but what it finds there must not count.
#[test]
fn the_writers_first_offence_decides() {
    for (first, number, place) in offending_codes() {
        for (second, _, _) in offending_codes() {
            let wanted = (number, 13 + 4 * place as u64);
            let threads = file_of(&[section(&words(&first)), section(&words(&second))]);
            assert_eq!(refusal(&threads), wanted, "threads in order");
            if place < first.len() {
                let joined = words(&[&first[..], &second].concat());
                assert_eq!(
                    refusal(&file_of(&[section(&joined)])),
                    wanted,
                    "places in order"
                );
            }
        }
    }
}

// The first and the last place.

#[test]
fn codes_of_no_instructions() {
    let file = file(0, &[], &[&[][..]; 8]);
    assert_eq!(judge_in(8, &file), Ok(vec![1; 8]));
    assert_eq!(judge_in(7, &file), refused(16, 8));
    let list: Vec<u8> = (0..100).map(|index| index % 8).collect();
    let idle = [13, 13, 13, 13, 12, 12, 12, 12];
    let counted = counts(&idle.map(|idle| [0, 0, idle]));
    let state = 8 * 34;
    assert_eq!(
        run_in(state, &file, &list, state),
        Ok((counted, vec![0; state]))
    );
    assert_eq!(
        line_in(48, &file, 11),
        Ok(b"0000 thread 7 code 0\n".to_vec())
    );
    assert_eq!(line_in(48, &file, 19), Ok(b"thread 7 B\n".to_vec()));
    assert_eq!(line_in(48, &file, 20), refused(17, 20));
    assert_eq!(
        bench(&file).iter().filter(|&&byte| byte == b'\n').count(),
        20
    );
}

/// 1,024 instructions, the first of which opens what the last one closes.
fn full_block(body: Instruction) -> Vec<Instruction> {
    let mut code = vec![body; 1_024];
    code[0] = atomic_to(1_023);
    code[1_023] = End;
    code
}

#[test]
fn constructs_from_the_first_to_the_last_place() {
    let threads = vec![full_block(PLAIN); 8];
    let codes: Vec<&[Instruction]> = threads.iter().map(|code| &code[..]).collect();
    let mut part = vec![1; 1_025];
    part[1_023] = 0;
    let largest = file(16, &[OPEN; 64], &codes);
    assert_eq!(largest.len(), 33_173);
    assert_eq!(judge_in(8_200, &largest), Ok(part.repeat(8)));
    assert_eq!(judge_in(8_199, &largest), refused(16, 8_200));
}

#[test]
fn offences_at_the_last_place_of_the_largest_file() {
    let with_last = |code: Vec<Instruction>| {
        let mut threads = vec![full_block(PLAIN); 7];
        threads.push(code);
        let codes: Vec<&[Instruction]> = threads.iter().map(|code| &code[..]).collect();
        refusal(&file(16, &[OPEN; 64], &codes))
    };
    let mut plain = vec![PLAIN; 1_024];
    assert_eq!(with_last(full_block(WRITE)), (13, 33_169));
    for statement in 2..=4 {
        let mut code = full_block(PLAIN);
        code[0] = stating(statement, 1_023);
        assert_eq!(with_last(code), (18, 33_169), "B, stated {statement}");
    }
    plain[1_023] = TAKE;
    assert_eq!(with_last(plain.clone()), (12, 33_173), "the section's end");
    plain[1_023] = GIVE;
    assert_eq!(with_last(plain.clone()), (11, 33_169));
    plain[1_023] = atomic_to(1);
    assert_eq!(with_last(plain.clone()), (8, 33_173));
    plain[1_023] = Read { to: 8, variable: 0 };
    assert_eq!(with_last(plain), (7, 33_169));
}

#[test]
fn the_last_place_is_stepped_on_and_past() {
    let code = full_block(PLAIN);
    let file = file(0, &[], &[&code]);
    let (counted, state) = run_in(34, &file, &[0; 1_030], 34).unwrap();
    assert_eq!(counted, counts(&[[1_024, 0, 6]]));
    assert_eq!(state[..2], [4, 0]);
}

// The search for WRITEs.

/// The report's byte for a READ of an open variable at thread 0's first place, beside the other
/// threads' code.
fn read_beside(variable: u8, others: &[&[Instruction]]) -> u8 {
    let read = [Read { to: 0, variable }];
    let codes = [&[&read[..]], others].concat();
    judge_in(8_200, &file(16, &[OPEN; 64], &codes)).expect("an accepted file")[0]
}

/// WRITEs are searched for in groups of words, so every length and place up to some groups is
/// tried, and every place of the longest code.
#[test]
fn a_write_is_found_at_every_place() {
    for length in (1..=40).chain([1_023, 1_024]) {
        let mut code = vec![PLAIN; length];
        assert_eq!(read_beside(0, &[&code]), 1);
        for place in 0..length {
            code[place] = WRITE;
            assert_eq!(read_beside(0, &[&code]), 4, "place {place} of {length}");
            code[place] = PLAIN;
        }
    }
}

#[test]
fn a_write_of_every_variable_counts_for_that_one_alone() {
    for written in 0..64 {
        for read in 0..64 {
            let wanted = if read == written { 4 } else { 1 };
            assert_eq!(read_beside(read, &[&[write_of(written)]]), wanted);
        }
    }
    let all: Vec<Instruction> = (0..64).map(write_of).collect();
    for read in 0..64 {
        assert_eq!(read_beside(read, &[&all]), 4);
    }
}

#[test]
fn a_write_in_every_thread_counts_for_all_others() {
    for threads in 1..=8 {
        for writer in 0..threads {
            let mut codes = vec![vec![READ]; threads];
            codes[writer].push(WRITE);
            let codes: Vec<&[Instruction]> = codes.iter().map(|code| &code[..]).collect();
            let wanted: Vec<u8> = (0..threads)
                .flat_map(|thread| {
                    if thread == writer {
                        vec![1, 4, 4]
                    } else {
                        vec![4, 4]
                    }
                })
                .collect();
            assert_eq!(judge_in(30, &file(0, &[OPEN], &codes)), Ok(wanted));
        }
    }
}

/// The byte of WRITE in another field than the op, or in an initial value.
#[test]
fn only_an_op_is_a_write() {
    let set = Set {
        to: 0,
        number: 0x1111,
    };
    let reads_17 = Read {
        to: 0,
        variable: 0x11,
    };
    for others in [vec![set; 17], vec![reads_17; 17], vec![set, reads_17, set]] {
        assert_eq!(read_beside(0, &[&others]), 1);
        assert_eq!(read_beside(0x11, &[&others]), 1);
    }
    let open = [3, 0, 0x11, 0x11, 0x11, 0x11];
    let file = file(0, &[open; 18], &[&[READ], &[reads_17]]);
    assert_eq!(judge_in(4, &file), Ok(vec![1; 4]));
}

/// A WRITE of a guarded variable says nothing of an open one, nor does an own variable's.
#[test]
fn only_a_write_of_the_same_variable_counts() {
    let own_to_1 = [1, 1, 0, 0, 0, 0];
    let variables = [OPEN, GUARDED_BY_K0, own_to_1];
    let other = [TAKE, write_of(1), GIVE, write_of(2)];
    let file = file(1, &variables, &[&[READ], &other]);
    assert_eq!(judge_in(20, &file), Ok(vec![1, 1, 3, 1, 2, 1, 4]));
}

/// The search meets the damage before the reading does: the first offence decides all the same.
#[test]
fn the_search_for_writes_alters_no_refusal_of_a_damaged_file() {
    let block = [atomic_to(4), READ, TAKE, GIVE, End];
    let whole = file(1, &[OPEN], &[&block, &[WRITE, PLAIN]]);
    let second = 13 + 4 * block.len();
    assert_eq!(refusal(&whole), (13, second as u64 - 4));
    for length in 0..whole.len() {
        assert_eq!(refusal(&whole[..length]), (1, length as u64));
    }
    let with_length = |high: u8, low: u8| {
        let mut file = whole.clone();
        (file[second], file[second + 1]) = (high, low);
        refusal(&file)
    };
    assert_eq!(with_length(0, 9), (4, second as u64));
    assert_eq!(with_length(0xFF, 0xFC), (4, second as u64));
    assert_eq!(with_length(0x10, 0), (1, whole.len() as u64));
    assert_eq!(with_length(0, 4), (5, second as u64 + 6), "the WRITE stays");
    assert_eq!(with_length(0, 0), (5, second as u64 + 2));
    let wrong = [&whole[..second + 4], &[64, 0, 1, 0, 0, 0]].concat();
    assert_eq!(refusal(&wrong), (7, second as u64 + 2), "WRITE of v64");
}

// Lists.

/// The greatest number of a list is found in pieces of any length, so every length and index up to
/// some pieces is tried.
#[test]
fn a_bad_thread_number_is_found_at_every_index() {
    for threads in [1, 3, 8] {
        let codes: [&[Instruction]; 8] = [&[PLAIN]; 8];
        let file = file(0, &[], &codes[..threads]);
        let needed = 34 * threads;
        for length in 1..=140 {
            let good = vec![threads as u8 - 1; length];
            assert!(run_in(needed, &file, &good, needed).is_ok());
            for index in 0..length {
                for bad in [threads as u8, 128, 255] {
                    let mut list = good.clone();
                    list[index] = bad;
                    assert_eq!(run_in(0, &file, &list, 0), refused(15, index as u64));
                    list[length - 1] = 255;
                    assert_eq!(run_in(0, &file, &list, 0), refused(15, index as u64));
                }
            }
        }
    }
}

#[test]
fn a_bad_thread_number_is_found_at_both_ends_of_the_longest_list() {
    let file = file(0, &[], &[&[PLAIN], &[]]);
    let mut list = vec![1; 65_536];
    list[65_535] = 2;
    assert_eq!(run_in(68, &file, &list, 0), refused(15, 65_535));
    list[0] = 2;
    assert_eq!(run_in(68, &file, &list, 0), refused(15, 0));
    list.push(0);
    assert_eq!(run_in(68, &file, &list, 0), refused(14, 65_536));
    assert!(
        run_in(68, &file, &[], 68).is_ok(),
        "the empty list names no thread"
    );
}

// Steps.

/// The places of a thread that steps alone.
fn places(code: &[Instruction], steps: usize) -> Vec<u16> {
    let file = file(1, &[OPEN], &[code]);
    let place = |count: usize| {
        let (_, state) = run_in(39, &file, &vec![0; count], 39).unwrap();
        u16::from_be_bytes([state[5], state[6]])
    };
    (0..=steps).map(place).collect()
}

#[test]
fn jumps_land_where_they_must() {
    let set = |number| Set { to: 0, number };
    let choice = [if_to(2), PLAIN, Else { distance: 2 }, PLAIN, End];
    let with = |number, code: &[Instruction]| [&[set(number)], code].concat();
    assert_eq!(places(&with(1, &choice), 6), [0, 1, 2, 3, 5, 6, 6]);
    assert_eq!(places(&with(0, &choice), 6), [0, 1, 4, 5, 6, 6, 6]);
    let repeat = [while_to(2), PLAIN, Again { distance: 2 }];
    assert_eq!(places(&with(1, &repeat), 5), [0, 1, 2, 3, 1, 4]);
    assert_eq!(places(&with(0, &repeat), 3), [0, 1, 4, 4]);
    let block = [atomic_to(1), End];
    assert_eq!(places(&block, 3), [0, 1, 2, 2]);
}

// Counts. A list's entries are counted in pieces of some hundred, and stepping ends with the first
// entry at which every thread has been idle: so ends and lengths about these are tried.

/// Threads of so many plain instructions.
fn plain_threads(lengths: &[usize]) -> Vec<u8> {
    let threads: Vec<Vec<Instruction>> = lengths.iter().map(|&n| vec![PLAIN; n]).collect();
    let codes: Vec<&[Instruction]> = threads.iter().map(|code| &code[..]).collect();
    file(0, &[], &codes)
}

/// The counts and the end state of a list are those of one step after the other.
fn runs_as_it_steps(file: &[u8], list: &[u8]) {
    let wanted = stepped(file, list);
    let needed = wanted.1.len();
    let length = list.len();
    assert_eq!(run_in(needed, file, list, needed), Ok(wanted), "{length}");
}

#[test]
fn a_thread_ends_at_every_index() {
    for end in (0..=500).chain([1_023, 1_024]) {
        let file = plain_threads(&[end]);
        for length in [end, end + 1, 2 * end + 3] {
            let (counted, _) = run_in(34, &file, &vec![0; length], 34).unwrap();
            let idle = (length - end) as u64;
            assert_eq!(counted, counts(&[[end as u64, 0, idle]]), "{end}");
        }
    }
}

#[test]
fn lists_of_every_length_are_counted() {
    let file = plain_threads(&[0, 7, 60, 200, 1, 1_024, 30, 90]);
    let turns: Vec<u8> = (0..8).cycle().take(700).collect();
    let bursts: Vec<u8> = (0..700).map(|index| (index / 19 % 8) as u8).collect();
    for length in 0..=700 {
        runs_as_it_steps(&file, &turns[..length]);
        runs_as_it_steps(&file, &bursts[..length]);
    }
}

/// A list of one thread is all moved, all waiting or all idle; the longest has the greatest counts.
#[test]
fn one_thread_is_named_again_and_again() {
    let set = Set { to: 0, number: 1 };
    let endless = [set, while_to(1), Again { distance: 1 }];
    let holder = [&[TAKE], &endless[..], &[GIVE]].concat();
    let file = file(1, &[], &[&holder, &[TAKE, GIVE], &[], &endless]);
    let needed = 1 + 4 * 34;
    for length in (0..=500).chain([MAX_LIST - 1]) {
        let n = length as u64;
        let expected = [
            [[n + 1, 0, 0], [0; 3], [0; 3], [0; 3]],
            [[1, 0, 0], [0, n, 0], [0; 3], [0; 3]],
            [[1, 0, 0], [0; 3], [0, 0, n], [0; 3]],
            [[1, 0, 0], [0; 3], [0; 3], [n, 0, 0]],
        ];
        for (thread, expected) in expected.iter().enumerate() {
            let list = [vec![0], vec![thread as u8; length]].concat();
            let (counted, _) = run_in(needed, &file, &list, needed).unwrap();
            assert_eq!(counted, counts(expected), "{length} of thread {thread}");
        }
    }
}

/// Whichever thread ends last, and whether or not it or another is named afterwards.
#[test]
fn the_last_thread_to_end_may_be_any() {
    for threads in 1..=8 {
        for last in 0..threads {
            let mut lengths = vec![3; threads];
            lengths[last] = 40;
            let file = plain_threads(&lengths);
            let numbers = 0..threads as u8;
            let turns: Vec<u8> = numbers.clone().cycle().take(500).collect();
            runs_as_it_steps(&file, &turns);
            for after in numbers {
                let list = [&turns[..40 * threads], &[after; 300], &turns].concat();
                runs_as_it_steps(&file, &list);
            }
        }
    }
}

/// Run from any state on, the counts of a list's two parts add up to the whole list's.
#[test]
fn the_counts_of_two_parts_add_up() {
    let file = plain_threads(&[0, 5, 40, 100]);
    let program = Program::read(&file).unwrap();
    let list: Vec<u8> = (0..4).cycle().take(600).collect();
    let whole = State::start(&program).run(&program, &list);
    for middle in 0..=list.len() {
        let (first, second) = list.split_at(middle);
        let mut state = State::start(&program);
        let parts = [first, second].map(|part| state.run(&program, part));
        for (thread, &counts) in whole.iter().enumerate() {
            let sum = parts[0][thread] + parts[1][thread];
            assert_eq!(sum, counts, "thread {thread}, cut at {middle}");
        }
    }
}
