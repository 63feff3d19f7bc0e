//! Thousands of generated files and lists: that every refusal is reached, and that the calls
//! agree with each other.

mod common;

use std::collections::BTreeMap;

use common::{judge_in, line_in, named, run_in, stepped, written};
use hogunlas_reference::generate::{self, Rng};
use hogunlas_reference::instruction::Instruction::{self, *};
use hogunlas_reference::machine::{Outcome, State};
use hogunlas_reference::reader::{Kind, Program, MAX_THREADS};
use hogunlas_reference::{bench, judge, line_count, report_length, state_length, Counts, Refusal};

const FILES: u64 = 20_000;

/// How often each refusal number was met; 0 stands for answers.
#[derive(Default)]
struct Tally(BTreeMap<u32, u32>);

impl Tally {
    fn add<T>(&mut self, answer: &Result<T, Refusal>) {
        let number = answer.as_ref().map_or_else(|refusal| refusal.number, |_| 0);
        *self.0.entry(number).or_default() += 1;
    }

    fn assert_met(&self, numbers: impl IntoIterator<Item = u32>) {
        for number in numbers {
            let met = self.0.get(&number).copied().unwrap_or(0);
            assert!(met >= 20, "refusal {number} met {met} times: {:?}", self.0);
        }
    }
}

/// A buffer length: mostly enough, sometimes just enough, sometimes short by some bytes.
fn buffer_length(rng: &mut Rng, needed: usize) -> usize {
    match rng.below(4) {
        0 => needed,
        1 => needed.saturating_sub(rng.between(1, 9)),
        _ => needed + rng.below(9),
    }
}

#[test]
fn judge_meets_every_refusal_and_keeps_its_buffer() {
    let mut tally = Tally::default();
    for seed in 0..FILES {
        let rng = &mut Rng::new(seed);
        let file = generate::file(rng);
        let needed = report_length(&file);
        let length = buffer_length(rng, needed.unwrap_or(8));
        let answer = judge_in(length, &file);
        match (&answer, needed) {
            (Ok(report), Ok(needed)) => assert_eq!(report.len(), needed),
            (Err(refusal), Ok(needed)) => {
                assert!(length < needed);
                assert_eq!((refusal.number, refusal.detail), (16, needed as u64));
            }
            (Err(refusal), Err(first)) => assert_eq!(*refusal, first),
            (Ok(_), Err(refusal)) => panic!("{refusal:?} was answered, seed {seed}"),
        }
        tally.add(&answer);
    }
    tally.assert_met((0..=13).chain([16, 18]));
}

/// Reading alone looks at no other thread's code, and judging does so first: the sender's refusals
/// must be the same.
#[test]
fn judging_refuses_what_reading_refuses_and_alike() {
    let mut tally = Tally::default();
    for seed in 0..5 * FILES {
        let file = generate::file(&mut Rng::new(seed));
        if let Err(refusal) = Program::read(&file).map(|_| ()) {
            let answer = judge(&file, &mut [0; 8200]);
            assert_eq!(answer, Err(refusal), "seed {seed}");
            tally.add(&answer);
        }
    }
    tally.assert_met(1..=8);
}

/// What stands where a refusal was found: numbers that are found at several kinds of places.
fn site(file: &[u8], refusal: &Refusal) -> Option<&'static str> {
    let at = refusal.detail as usize;
    let found = match (refusal.number, file.get(at)) {
        (Refusal::COUNT, Some(0)) => "no thread",
        (Refusal::COUNT, _) if at == 1 => "too many locks",
        (Refusal::COUNT, _) => "too many threads",
        (Refusal::SECTION_LENGTH, _) if at == 3 => "variables' length",
        (Refusal::SECTION_LENGTH, _) => "code's length",
        (Refusal::INSTRUCTION, Some(0x34)) => "no statement",
        (Refusal::INSTRUCTION, _) => "another instruction",
        (Refusal::NESTING, _) if is_section_end(file, at) => "entry open at the code's end",
        (Refusal::NESTING, Some(0x30..=0x35)) => "nesting at an opener or closer",
        (Refusal::NESTING, _) => "nesting at another instruction",
        (Refusal::SETS_DIFFER, _) if is_section_end(file, at) => "sets at the code's end",
        (Refusal::SETS_DIFFER, Some(0x33)) => "sets at AGAIN",
        (Refusal::SETS_DIFFER, _) => "sets at END",
        _ => return None,
    };
    Some(found)
}

/// Whether a code section of a file whose lengths are right ends there.
fn is_section_end(file: &[u8], at: usize) -> bool {
    let length = |field: usize| usize::from(file[field]) * 256 + usize::from(file[field + 1]);
    let mut field = 5 + length(3);
    while field < at {
        field += 2 + length(field);
    }
    field == at
}

#[test]
fn refusals_are_met_wherever_they_can_be_found() {
    let mut sites = BTreeMap::<&str, u32>::new();
    for seed in 0..FILES {
        let file = generate::file(&mut Rng::new(seed));
        if let Err(refusal) = judge(&file, &mut [0; 8200]) {
            if let Some(site) = site(&file, &refusal) {
                *sites.entry(site).or_default() += 1;
            }
        }
    }
    assert_eq!(sites.len(), 13, "{sites:?}");
    assert!(sites.values().all(|&met| met >= 3), "{sites:?}");
}

#[test]
fn a_refusals_offset_lies_within_the_file() {
    for seed in 0..FILES {
        let file = generate::file(&mut Rng::new(seed));
        if let Err(refusal) = judge(&file, &mut [0; 8200]) {
            assert!(refusal.detail <= file.len() as u64, "seed {seed}");
        }
    }
}

#[test]
fn run_meets_every_refusal_and_its_counts_add_up() {
    let mut tally = Tally::default();
    let mut total = Counts::default();
    for seed in 0..FILES {
        let rng = &mut Rng::new(seed);
        let file = generate::file(rng);
        let list = list_for(rng, &file);
        let needed = state_length(&file).unwrap_or(40);
        let answer = run_in(buffer_length(rng, needed), &file, &list, needed);
        tally.add(&answer);
        if let Ok((counts, state)) = answer {
            let entries = counts.map(|counts| counts.entries());
            assert_eq!(entries, named(&list), "seed {seed}");
            let sum: Counts = counts.iter().sum();
            assert_eq!(sum.entries(), list.len() as u64, "seed {seed}");
            let by_halves = stepped_by_halves(&file, &list);
            assert_eq!((counts, state), by_halves, "seed {seed}");
            total = total + sum;
        }
    }
    tally.assert_met((0..=16).chain([18]));
    let kinds = [total.moved, total.waiting, total.idle];
    assert!(kinds.iter().all(|&kind| kind > 10_000), "{total:?}");
}

/// A list of any kind for the number of threads that a file states.
fn list_for(rng: &mut Rng, file: &[u8]) -> Vec<u8> {
    let threads = file.get(2).map_or(1, |&n| usize::from(n).clamp(1, 8));
    generate::list(rng, threads)
}

/// The counts and the end state of the list run in two parts, the second from what the first left.
fn stepped_by_halves(file: &[u8], list: &[u8]) -> ([Counts; MAX_THREADS], Vec<u8>) {
    let program = Program::read(file).unwrap();
    let mut state = State::start(&program);
    let (first, second) = list.split_at(list.len() / 2);
    let mut counts = state.run(&program, first);
    for (counts, more) in counts.iter_mut().zip(state.run(&program, second)) {
        *counts = *counts + more;
    }
    (counts, written(&program, &state))
}

/// Shows accepted files, each with a list of its threads.
fn each_run(mut show: impl FnMut(&[u8], &[u8], u64)) {
    for seed in 0..FILES {
        let rng = &mut Rng::new(seed);
        let file = match rng.below(4) {
            0 => generate::small_accepted_file(rng),
            _ => generate::accepted_file(rng),
        };
        let longest = if rng.chance(10) { 5_000 } else { 500 };
        let length = rng.between(0, longest);
        let list = generate::good_list(rng, usize::from(file[2]), length);
        show(&file, &list, seed);
    }
}

/// Each thread's counts are those of one step after the other. The three sum to how often the list
/// names the thread, and all together to the list's length; those of absent threads are 0.
#[test]
fn each_threads_counts_are_those_of_its_steps() {
    each_run(|file, list, seed| {
        let needed = state_length(file).unwrap();
        let ran = run_in(needed, file, list, needed).unwrap();
        assert_eq!(ran, stepped(file, list), "seed {seed}");
        let (counts, _) = ran;
        let entries = counts.map(|counts| counts.entries());
        assert_eq!(entries, named(list), "seed {seed}");
        let sum: u64 = entries.iter().sum();
        assert_eq!(sum, list.len() as u64, "seed {seed}");
        let absent = &counts[usize::from(file[2])..];
        let none = Counts::default();
        assert!(absent.iter().all(|&counts| counts == none), "seed {seed}");
    });
}

/// The runs reach what they must so that a count of the wrong thread, or of all threads together,
/// shows.
#[test]
fn the_counts_of_threads_differ_in_every_way() {
    let mut seen: BTreeMap<&str, u32> = BTreeMap::new();
    each_run(|file, list, _| {
        for (what, is_so) in facts(file, list) {
            *seen.entry(what).or_default() += u32::from(is_so);
        }
    });
    assert!(seen.values().all(|&count| count > 100), "{seen:?}");
}

/// What can be so of a run.
fn facts(file: &[u8], list: &[u8]) -> [(&'static str, bool); 7] {
    let (counts, _) = stepped(file, list);
    let threads = usize::from(file[2]);
    let waiting = counts.iter().filter(|counts| counts.waiting > 0).count();
    let moved = counts.iter().filter(|counts| counts.moved > 0).count();
    let all_kinds = |c: &Counts| c.moved > 0 && c.waiting > 0 && c.idle > 0;
    [
        ("two threads wait", waiting >= 2),
        ("one of several threads waits", waiting == 1 && moved >= 2),
        (
            "one moves, another is at its end",
            moves_after_idle(file, list),
        ),
        ("one moves, waits and is idle", counts.iter().any(all_kinds)),
        ("a thread is absent", threads < MAX_THREADS),
        ("no thread is absent", threads == MAX_THREADS),
        ("a thread is not named", is_unnamed(file, list)),
    ]
}

/// Whether there is a move after an idle entry. It is of another thread: an idle one stays at its
/// end.
fn moves_after_idle(file: &[u8], list: &[u8]) -> bool {
    let program = Program::read(file).unwrap();
    let mut state = State::start(&program);
    let mut was_idle = false;
    list.iter().any(|&entry| {
        let outcome = state.step(&program, entry);
        was_idle |= outcome == Outcome::Idle;
        was_idle && outcome == Outcome::Moved
    })
}

/// Whether a list that is not empty names some thread of the file nowhere.
fn is_unnamed(file: &[u8], list: &[u8]) -> bool {
    let named = named(list);
    let present = &named[..usize::from(file[2])];
    !list.is_empty() && present.contains(&0)
}

#[test]
fn line_meets_every_refusal_and_bench_prints_all_lines() {
    let mut tally = Tally::default();
    for seed in 0..FILES {
        let rng = &mut Rng::new(seed);
        let file = generate::file(rng);
        let count = line_count(&file);
        let i = rng.below(count.unwrap_or(9) as usize + 3) as u64;
        let answer = line_in(buffer_length(rng, 48), &file, i);
        tally.add(&answer);
        let printed = bench(&file);
        match count {
            Ok(count) => check_printout(&file, count, &printed),
            Err(Refusal { number, detail }) => {
                assert_eq!(
                    printed,
                    format!("refused {number} at {detail}\n").into_bytes()
                );
                assert_eq!(answer.unwrap_err(), Refusal { number, detail });
            }
        }
    }
    tally.assert_met((0..=13).chain([16, 17, 18]));
}

/// The printout is its lines joined. Each line is judged anew, so of long ones only some are
/// asked for.
fn check_printout(file: &[u8], count: u64, printed: &[u8]) {
    let lines: Vec<&[u8]> = printed.split_inclusive(|&byte| byte == b'\n').collect();
    assert_eq!(lines.len() as u64, count);
    let stride = 1 + lines.len() / 300;
    for (i, text) in lines.iter().enumerate().step_by(stride) {
        assert!(text.len() <= 42);
        assert_eq!(line_in(48, file, i as u64).unwrap(), *text);
    }
}

#[test]
fn sound_files_are_sound() {
    for seed in 0..5_000 {
        let file = generate::sound_file(&mut Rng::new(seed));
        assert_eq!(Program::read(&file).err(), None, "seed {seed}");
    }
}

#[test]
fn accepted_files_are_accepted() {
    for seed in 0..5_000 {
        let file = generate::accepted_file(&mut Rng::new(seed));
        assert_eq!(judge(&file, &mut [0; 8200]).err(), None, "seed {seed}");
        let file = generate::small_accepted_file(&mut Rng::new(seed));
        assert_eq!(judge(&file, &mut [0; 8200]).err(), None, "seed {seed}");
    }
    for seed in 0..100 {
        let file = generate::largest_file(&mut Rng::new(seed));
        assert_eq!(file.len(), 33_173);
        assert_eq!(judge(&file, &mut [0; 8200]), Ok(8200), "seed {seed}");
    }
}

/// By the statement.
const STATED: [&str; 5] = ["not stated", "stated B", "stated L", "stated R", "stated A"];

#[test]
fn accepted_files_are_rich() {
    let mut seen: BTreeMap<&str, u32> = BTreeMap::new();
    let mut note = |what| *seen.entry(what).or_default() += 1;
    for seed in 0..2_000 {
        let file = generate::accepted_file(&mut Rng::new(seed));
        let program = Program::read(&file).unwrap();
        let mut report = [0; 8200];
        judge(&file, &mut report).unwrap();
        let mut at = 0;
        for thread in 0..program.thread_count() {
            for instruction in program.code(thread) {
                note(describe(&program, instruction));
                if let Atomic { statement, .. } = instruction {
                    note(["", "block B", "block L", "block R", "block A"][usize::from(report[at])]);
                    note(STATED[usize::from(statement)]);
                }
                at += 1;
            }
            at += 1;
        }
    }
    assert_eq!(seen.len(), 26, "{seen:?}");
    assert!(seen.values().all(|&count| count > 100), "{seen:?}");
}

/// The kinds of instructions that a rich program has.
fn describe(program: &Program, instruction: Instruction) -> &'static str {
    let kind = |variable: u8| program.variables()[usize::from(variable)].kind;
    match instruction {
        Take { .. } => "TAKE",
        Give { .. } => "GIVE",
        If { .. } => "IF",
        While { .. } => "WHILE",
        Atomic { .. } => "ATOMIC",
        Else { .. } | Again { .. } | End => "closer",
        Read { variable, .. } => match kind(variable) {
            Kind::Guarded { .. } => "READ guarded",
            Kind::Own { .. } => "READ own",
            Kind::Fixed => "READ fixed",
            Kind::Open => "READ open",
        },
        Write { variable, .. } => match kind(variable) {
            Kind::Guarded { .. } => "WRITE guarded",
            Kind::Own { .. } => "WRITE own",
            Kind::Fixed => "WRITE fixed",
            Kind::Open => "WRITE open",
        },
        Set { .. } => "SET",
        Mulh { .. } => "MULH",
        Lesss { .. } => "LESSS",
        _ => "calculation",
    }
}

#[test]
fn the_empty_the_longest_and_a_longer_list_are_made() {
    let rng = &mut Rng::new(1);
    let lengths: Vec<usize> = (0..2_000).map(|_| generate::list(rng, 3).len()).collect();
    for length in [0, 65_536, 65_537] {
        assert!(lengths.contains(&length), "a list of {length} entries");
    }
}
