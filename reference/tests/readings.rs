//! The order of refusals ("The order of tests"), whose WRITEs count for a READ of an open variable
//! and when a statement is false ("Rules").

mod common;

use common::{atomic_to, file, hex, judge_in, line_in, refused, run_in, stating};
use hogunlas_reference::instruction::Instruction::{self, *};
use hogunlas_reference::Refusal;

fn judged(text: &str) -> Result<Vec<u8>, Refusal> {
    judge_in(100, &hex(text))
}

#[test]
fn header_fields_are_tested_one_by_one() {
    assert_eq!(judged("00"), refused(2, 0));
    assert_eq!(judged("01"), refused(1, 1));
    assert_eq!(judged("01 11"), refused(3, 1), "17 locks, no third byte");
    assert_eq!(judged("01 10"), refused(1, 2));
    assert_eq!(judged("01 10 00"), refused(3, 2));
    assert_eq!(judged("01 10 09"), refused(3, 2));
}

#[test]
fn a_length_is_tested_before_its_sections_bytes() {
    assert_eq!(judged("01 00 01 00"), refused(1, 4), "half a length field");
    assert_eq!(judged("01 00 01 00 05"), refused(4, 3));
    assert_eq!(judged("01 00 01 01 86"), refused(4, 3), "390 bytes");
    assert_eq!(
        judged("01 00 01 01 80"),
        refused(1, 5),
        "384 bytes, none there"
    );
    assert_eq!(judged("01 00 01 00 00 10 04"), refused(4, 5), "4,100 bytes");
    assert_eq!(judged("01 00 01 00 00 10 00"), refused(1, 7), "4,096 bytes");
    assert_eq!(
        judged("01 00 01 00 06 09 09 00 00 00"),
        refused(1, 10),
        "a section's bytes are counted before its first record"
    );
}

#[test]
fn records_are_tested_with_kind_and_g() {
    for (record, good) in [
        ("00 00", true),
        ("00 01", false),
        ("01 01", true),
        ("01 02", false),
        ("02 00", true),
        ("02 01", false),
        ("03 00", true),
        ("03 01", false),
        ("04 00", false),
    ] {
        let text = format!("01 01 02 00 06 {record} 00 00 00 00 00 00 00 00");
        let expected = if good { Ok(vec![1, 1]) } else { refused(6, 5) };
        assert_eq!(judged(&text), expected, "{record}");
    }
}

#[test]
fn wrong_fields_are_refused_at_their_instruction() {
    for word in [
        "00 00 00 00",
        "06 00 00 00",
        "01 08 00 00",
        "02 00 08 00",
        "02 00 00 01",
        "03 00 00 08",
        "10 00 01 00",
        "10 00 00 01",
        "11 08 00 00",
        "20 01 00 00",
        "20 00 01 00",
        "21 00 00 01",
        "30 08 00 01",
        "31 01 00 01",
        "33 01 00 01",
        "34 05 00 01",
        "34 FF 00 01",
        "35 00 00 01",
        "36 00 00 00",
    ] {
        let text = format!("01 01 01 00 06 03 00 00 00 00 00 00 08 02 00 00 00 {word}");
        assert_eq!(judged(&text), refused(7, 17), "{word}");
    }
}

#[test]
fn a_wrong_instruction_comes_before_broken_nesting_of_its_thread_only() {
    let same_thread = "01 00 01 00 00 00 08 35 00 00 00 FF 00 00 00";
    assert_eq!(judged(same_thread), refused(7, 11));
    let next_thread = "01 00 02 00 00 00 04 35 00 00 00 00 03";
    assert_eq!(
        judged(next_thread),
        refused(8, 7),
        "an 8 before the next thread's 4"
    );
    let left_over = "01 00 01 00 00 00 04 35 00 00 00 00";
    assert_eq!(judged(left_over), refused(8, 7), "an 8 before the 5");
}

fn if_to(distance: u16) -> Instruction {
    If { test: 0, distance }
}

fn while_to(distance: u16) -> Instruction {
    While { test: 0, distance }
}

fn else_to(distance: u16) -> Instruction {
    Else { distance }
}

fn again(distance: u16) -> Instruction {
    Again { distance }
}

#[test]
fn nesting_is_broken_at_the_first_place_that_does_not_fit() {
    let plain = Set { to: 0, number: 0 };
    let cases: [(&[Instruction], u64, &str); 13] = [
        (&[atomic_to(0), End], 0, "distance 0"),
        (&[End], 0, "no open entry"),
        (&[if_to(1), End], 1, "an IF's END without ELSE"),
        (&[atomic_to(1), else_to(1), End], 1, "wrong kind"),
        (&[atomic_to(2), End, End], 1, "elsewhere than named"),
        (&[atomic_to(1), plain], 1, "a plain one there"),
        (&[atomic_to(1), atomic_to(1), End], 1, "an opener there"),
        (&[while_to(1), again(2)], 1, "AGAIN's n differs"),
        (&[while_to(1), again(0)], 1, "AGAIN's n is 0"),
        (&[if_to(1), else_to(0), End], 1, "ELSE's n is 0"),
        (&[atomic_to(9)], 1, "open at the code's end"),
        // Names that cross: the block's END never comes, or the first closer doesn't fit.
        (&[atomic_to(2), if_to(1), else_to(1), End], 4, "crossing"),
        (&[atomic_to(2), if_to(2), End, End], 2, "crossing"),
    ];
    for (code, place, why) in cases {
        let file = file(0, &[], &[code]);
        assert_eq!(judge_in(20, &file), refused(8, 7 + 4 * place), "{why}");
    }
}

#[test]
fn the_file_comes_before_the_writer_and_threads_in_order() {
    let take = Take { lock: 0 };
    let held_at_end = file(1, &[], &[&[take], &[take, take]]);
    assert_eq!(
        judge_in(20, &held_at_end),
        refused(12, 11),
        "at the section's end"
    );
    let taken_twice = file(1, &[], &[&[], &[take, take]]);
    assert_eq!(judge_in(20, &taken_twice), refused(10, 13));
    let given_back = file(1, &[], &[&[take, Give { lock: 0 }, Give { lock: 0 }]]);
    assert_eq!(judge_in(20, &given_back), refused(11, 15));
    let left_over = [taken_twice, vec![0]].concat();
    assert_eq!(judge_in(20, &left_over), refused(5, 17));
}

#[test]
fn a_false_statement_is_found_at_its_blocks_end_after_13() {
    let (take, give) = (Take { lock: 0 }, Give { lock: 0 });
    let judged = |code: &[&[_]]| judge_in(20, &file(1, &[], code));
    let overstated = [stating(4, 1), End];
    assert_eq!(judged(&[&overstated]), refused(18, 11), "at the END");
    let torn = [stating(4, 5), take, give, take, give, End];
    assert_eq!(judged(&[&torn]), refused(13, 27), "13 before 18");
    let both = [&overstated[..], &torn];
    assert_eq!(judged(&both), refused(18, 11), "threads in order");
    let kept = [stating(4, 2), take, End];
    assert_eq!(judged(&[&kept]), refused(18, 15), "18 before 12 at the end");
    let not_held = [stating(4, 2), give, End];
    assert_eq!(judged(&[&not_held]), refused(11, 11), "places in order");
    let inner = [stating(4, 4), stating(4, 2), take, End, End, give];
    assert_eq!(judged(&[&inner]), refused(18, 19), "the inner END first");
}

#[test]
fn a_field_above_4_is_an_instruction_that_is_wrong() {
    let judged = |atomic| judge_in(20, &file(0, &[], &[&[atomic, End]]));
    for field in 5..=255 {
        assert_eq!(judged(stating(field, 1)), refused(7, 7));
        assert_eq!(judged(stating(field, 0)), refused(7, 7), "7 before 8");
    }
    assert_eq!(judged(stating(4, 0)), refused(8, 7), "8 before 18");
    let overstated = [stating(4, 1), End];
    let left_over = [file(0, &[], &[&overstated]), vec![0]].concat();
    assert_eq!(judge_in(20, &left_over), refused(5, 15), "5 before 18");
    let next_thread = file(0, &[], &[&overstated, &[End]]);
    assert_eq!(judge_in(20, &next_thread), refused(8, 17), "8 before 18");
}

#[test]
fn a_loops_sets_are_compared_at_again() {
    let code = [
        While {
            test: 0,
            distance: 2,
        },
        Take { lock: 0 },
        Again { distance: 2 },
    ];
    assert_eq!(judge_in(20, &file(1, &[], &[&code])), refused(12, 15));
}

const READ: Instruction = Read { to: 0, variable: 0 };
const WRITE: Instruction = Write {
    from: 0,
    variable: 0,
};

#[test]
fn the_discipline_of_each_kind() {
    let own_to_1 = [1, 1, 0, 0, 0, 0];
    let fixed = [2, 0, 0, 0, 0, 0];
    let judged = |variable, code: &[&[_]]| judge_in(20, &file(1, &[variable], code));
    assert_eq!(
        judged(own_to_1, &[&[], &[READ, WRITE]]),
        Ok(vec![1, 1, 1, 1])
    );
    assert_eq!(judged(own_to_1, &[&[READ], &[]]), refused(9, 13));
    assert_eq!(judged(fixed, &[&[READ], &[READ]]), Ok(vec![1, 1, 1, 1]));
    assert_eq!(judged(fixed, &[&[WRITE]]), refused(9, 13));
}

// "A WRITE counts wherever it stands in the other thread's code, reached or not; a thread's own
// WRITEs do not count."

/// The report byte of a READ of an open variable, the first instruction of a thread, in a program
/// of such code.
fn read_is(thread: usize, code: &[&[Instruction]]) -> u8 {
    let open = [3, 0, 0, 0, 0, 0];
    let report = judge_in(100, &file(1, &[open], code)).expect("an accepted file");
    let before: usize = code[..thread].iter().map(|code| code.len() + 1).sum();
    assert_eq!(code[thread][0], READ);
    report[before]
}

#[test]
fn what_nobody_writes_is_read_as_a_both_mover() {
    assert_eq!(read_is(0, &[&[READ]]), 1);
    assert_eq!(read_is(0, &[&[READ], &[READ]]), 1);
    assert_eq!(read_is(1, &[&[READ], &[READ]]), 1);
}

#[test]
fn a_threads_own_writes_do_not_count() {
    assert_eq!(read_is(0, &[&[READ, WRITE]]), 1);
    assert_eq!(read_is(0, &[&[READ, WRITE], &[READ]]), 1);
    assert_eq!(read_is(1, &[&[READ, WRITE], &[READ]]), 4, "the other's do");
    let both = [&[READ, WRITE][..], &[READ, WRITE]];
    assert_eq!([read_is(0, &both), read_is(1, &both)], [4, 4]);
}

#[test]
fn an_earlier_threads_write_counts_and_a_later_ones() {
    let third_writes = [&[READ][..], &[READ], &[READ, WRITE], &[READ]];
    let bytes: Vec<u8> = (0..4)
        .map(|thread| read_is(thread, &third_writes))
        .collect();
    assert_eq!(bytes, [4, 4, 1, 4]);
}

#[test]
fn a_write_counts_reached_or_not() {
    let set = Set { to: 0, number: 1 };
    let codes: [&[Instruction]; 6] = [
        &[WRITE],
        &[atomic_to(2), WRITE, End],
        // No run comes to these.
        &[if_to(2), WRITE, else_to(1), End],
        &[set, if_to(1), else_to(2), WRITE, End],
        &[while_to(2), WRITE, again(2)],
        &[set, while_to(1), again(1), WRITE],
    ];
    for other in codes {
        assert_eq!(read_is(0, &[&[READ], other]), 4, "{other:?}");
        assert_eq!(read_is(1, &[other, &[READ]]), 4, "{other:?}");
    }
}

/// READs alone are B and compose to B, so that a block may have any number of them, in loops too.
/// WRITE stays A.
#[test]
fn the_one_writers_block_may_read_often_and_write_once() {
    let open = [3, 0, 0, 0, 0, 0];
    let judged = |code: &[Instruction]| judge_in(30, &file(1, &[open], &[code, &[READ]]));
    let (take, give) = (Take { lock: 0 }, Give { lock: 0 });
    let block = [atomic_to(8), READ, take, READ, READ, WRITE, READ, give, End];
    let with_write = vec![4, 1, 3, 1, 1, 4, 1, 2, 0, 4, 4, 4];
    assert_eq!(judged(&block), Ok(with_write));
    let loop_of_reads = [atomic_to(4), while_to(2), READ, again(2), End, WRITE];
    assert_eq!(judged(&loop_of_reads), Ok(vec![1, 1, 1, 0, 0, 4, 4, 4, 4]));
    let two_writes = [atomic_to(4), READ, WRITE, WRITE, End];
    assert_eq!(judged(&two_writes), refused(13, 29));
}

#[test]
fn run_tests_the_lists_length_then_its_numbers_then_the_buffer() {
    let file = file(0, &[], &[&[], &[]]);
    let mut list = vec![0; 65_537];
    list[3] = 2;
    assert_eq!(run_in(0, &file, &list, 0), refused(14, 65_536));
    list.truncate(65_536);
    list[9] = 255;
    assert_eq!(run_in(0, &file, &list, 0), refused(15, 3));
    assert_eq!(run_in(67, &file, &[1, 0], 0), refused(16, 68));
    assert!(run_in(68, &file, &[1, 0], 68).is_ok());
}

#[test]
fn line_tests_its_number_then_the_buffer() {
    let file = file(0, &[], &[&[]]);
    assert_eq!(line_in(47, &file, 6), refused(17, 6));
    assert_eq!(line_in(47, &file, u64::MAX), refused(17, 6));
    assert_eq!(
        line_in(47, &file, 5),
        refused(16, 48),
        "48 whatever the line"
    );
    assert_eq!(line_in(48, &file, 5), Ok(b"thread 0 B\n".to_vec()));
}

#[test]
fn the_callers_refusals_come_last() {
    assert_eq!(run_in(0, &hex("01 00 09"), &[9], 0), refused(3, 2));
    let given = file(1, &[], &[&[Give { lock: 0 }]]);
    let overstated = file(0, &[], &[&[stating(4, 1), End]]);
    for (file, number, detail) in [(given, 11, 7), (overstated, 18, 11)] {
        assert_eq!(run_in(0, &file, &[9], 0), refused(number, detail));
        assert_eq!(line_in(0, &file, 99), refused(number, detail));
        assert_eq!(judge_in(0, &file), refused(number, detail));
    }
}
