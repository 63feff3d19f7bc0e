//! Demand 3, tried out: for an accepted program and a list after which no thread stands inside a
//! block, there is an uninterrupted list with the same end state and the same number of moves of
//! each thread.
//!
//! The uninterrupted list is searched for, with nothing used of how the judge works: each thread
//! keeps its own moves, cut into units (an outermost block, or one move outside blocks), and the
//! units are put into some order that ends in the same state. What is found is then checked
//! against the standard's wording.

mod common;
#[path = "common/plain_judge.rs"]
#[allow(dead_code)] // some of the rules are for another test
mod plain_judge;

use std::collections::HashSet;

use hogunlas_reference::generate::{self, without_statements, Rng};
use hogunlas_reference::instruction::Instruction::{self, *};
use hogunlas_reference::machine::{Outcome, State, Thread};
use hogunlas_reference::reader::{Program, MAX_THREADS};
use hogunlas_reference::{judge, Refusal};
use plain_judge::{judged_with, Rule, EVERY_READ_IS_A, ONLY_REACHED, TOO_LENIENT};

const PROGRAMS: u64 = 50_000;

/// The end state of a list that is uninterrupted, or nothing if it is not.
fn run_uninterrupted(program: &Program, list: &[u8]) -> Option<State> {
    let mut state = State::start(program);
    for &entry in list {
        if someone_else_inside(program, &state, entry) {
            return None;
        }
        if state.step(program, entry) != Outcome::Moved {
            return None;
        }
    }
    Some(state)
}

/// Each thread's moved count for a list.
fn moved_counts(program: &Program, list: &[u8]) -> [u64; MAX_THREADS] {
    let counts = State::start(program).run(program, list);
    counts.map(|counts| counts.moved)
}

fn someone_else_inside(program: &Program, state: &State, thread: u8) -> bool {
    let threads = 0..program.thread_count() as u8;
    let mut others = threads.filter(|&other| other != thread);
    others.any(|other| state.stands_inside(program, other))
}

fn nobody_inside(program: &Program, state: &State) -> bool {
    let mut threads = 0..program.thread_count() as u8;
    threads.all(|thread| !state.stands_inside(program, thread))
}

/// Moves of one thread that belong together, and the thread after them.
struct Unit {
    moves: usize,
    after: Thread,
    /// The index of the last of them among all moves, a hint for the search.
    last: usize,
}

/// A list, its moves, its end state, and each thread's units.
struct Trial {
    list: Vec<u8>,
    moves: Vec<u8>,
    end: State,
    units: Vec<Vec<Unit>>,
}

/// A random list as a trial: some entries of any threads, then entries of threads that stand
/// inside a block, cut after the last entry that leaves nobody inside one.
fn trial(program: &Program, rng: &mut Rng) -> Trial {
    let length = rng.between(10, 80);
    let mut list = generate::good_list(rng, program.thread_count(), length);
    let mut state = State::start(program);
    let mut usable = 0;
    for index in 0..length + 60 {
        if index >= length {
            let threads = 0..program.thread_count() as u8;
            let inside = threads.filter(|&thread| state.stands_inside(program, thread));
            match rng.pick(&inside.collect::<Vec<u8>>()) {
                Some(thread) => list.push(thread),
                None => break,
            }
        }
        state.step(program, list[index]);
        if nobody_inside(program, &state) {
            usable = index + 1;
        }
    }
    cut_into_units(program, &list[..usable])
}

fn cut_into_units(program: &Program, list: &[u8]) -> Trial {
    let threads = program.thread_count();
    let mut state = State::start(program);
    let mut moves = Vec::new();
    let mut units: Vec<Vec<Unit>> = (0..threads).map(|_| Vec::new()).collect();
    let mut begun = vec![0; threads];
    for &entry in list {
        if state.step(program, entry) != Outcome::Moved {
            continue;
        }
        let thread = usize::from(entry);
        begun[thread] += 1;
        if !state.stands_inside(program, entry) {
            units[thread].push(Unit {
                moves: begun[thread],
                after: state.threads[thread],
                last: moves.len(),
            });
            begun[thread] = 0;
        }
        moves.push(entry);
    }
    Trial {
        list: list.to_vec(),
        moves,
        end: state,
        units,
    }
}

/// A search for an order of the units, depth first, dead ends remembered.
struct Search<'t> {
    program: &'t Program<'t>,
    trial: &'t Trial,
    dead: HashSet<(State, Vec<usize>)>,
    list: Vec<u8>,
}

impl Search<'_> {
    /// An uninterrupted list made of the trial's units that ends as the trial does.
    fn find(program: &Program, trial: &Trial) -> Option<Vec<u8>> {
        let mut search = Search {
            program,
            trial,
            dead: HashSet::new(),
            list: Vec::new(),
        };
        let mut next = vec![0; program.thread_count()];
        let found = search.extend(&State::start(program), &mut next);
        found.then_some(search.list)
    }

    /// Extends the list from this state, with `next` telling each thread's next unit.
    fn extend(&mut self, state: &State, next: &mut Vec<usize>) -> bool {
        if self.list.len() == self.trial.moves.len() {
            return *state == self.trial.end;
        }
        if self.dead.contains(&(state.clone(), next.clone())) {
            return false;
        }
        for thread in self.candidates(next) {
            let Some(after) = self.after_unit(state, thread, next[thread]) else {
                continue;
            };
            let length = self.list.len();
            let moves = self.trial.units[thread][next[thread]].moves;
            self.list.resize(length + moves, thread as u8);
            next[thread] += 1;
            if self.extend(&after, next) {
                return true;
            }
            next[thread] -= 1;
            self.list.truncate(length);
        }
        self.dead.insert((state.clone(), next.clone()));
        false
    }

    /// Threads that have a unit left, the one that ended first in the trial first.
    fn candidates(&self, next: &[usize]) -> Vec<usize> {
        let units = &self.trial.units;
        let mut threads: Vec<usize> = (0..units.len())
            .filter(|&thread| next[thread] < units[thread].len())
            .collect();
        threads.sort_by_key(|&thread| units[thread][next[thread]].last);
        threads
    }

    /// The state after a whole unit, if all of it moves and leaves its thread as in the trial.
    fn after_unit(&self, state: &State, thread: usize, index: usize) -> Option<State> {
        let unit = &self.trial.units[thread][index];
        let mut state = state.clone();
        for _ in 0..unit.moves {
            if state.step(self.program, thread as u8) != Outcome::Moved {
                return None;
            }
        }
        (state.threads[thread] == unit.after).then_some(state)
    }
}

/// How many lists were tried, how many of them interrupted a block, and in how many of these the
/// program is accepted only because READs of open variables are B.
#[derive(Default)]
struct Tried {
    lists: u64,
    interrupted: u64,
    by_reads: u64,
    moves: usize,
}

impl Tried {
    /// Tries one list of an accepted file.
    fn add(&mut self, file: &[u8], rng: &mut Rng, seed: u64) {
        let program = Program::read(file).unwrap();
        let trial = trial(&program, rng);
        let found = Search::find(&program, &trial);
        let list = found.unwrap_or_else(|| panic!("no uninterrupted list, seed {seed}"));
        let end = run_uninterrupted(&program, &list);
        assert_eq!(end.as_ref(), Some(&trial.end), "seed {seed}");
        let moved = moved_counts(&program, &list);
        assert_eq!(moved, moved_counts(&program, &trial.list), "seed {seed}");
        assert_eq!(list.len(), trial.moves.len(), "seed {seed}");
        self.lists += 1;
        self.moves += trial.moves.len();
        if run_uninterrupted(&program, &trial.moves).is_none() {
            self.interrupted += 1;
            self.by_reads += u64::from(judged_with(EVERY_READ_IS_A, &program).is_err());
        }
    }
}

#[test]
fn every_list_has_an_uninterrupted_one_with_the_same_end() {
    let mut tried = Tried::default();
    for seed in 0..PROGRAMS {
        let rng = &mut Rng::new(seed);
        let file = generate::small_accepted_file(rng);
        judge(&file, &mut [0; 8200]).unwrap();
        tried.add(&file, rng, seed);
    }
    assert!(tried.interrupted > PROGRAMS / 2, "{}", tried.interrupted);
    assert!(tried.by_reads > PROGRAMS / 10, "{}", tried.by_reads);
    assert!(tried.moves as u64 > 10 * PROGRAMS, "{}", tried.moves);
}

/// The same for programs that keep the lock discipline and have blocks of any atomicity, as far as
/// the judge accepts them: here it is the judge that is tried, and not the generator's care.
#[test]
fn whatever_the_judge_accepts_has_uninterrupted_lists() {
    let mut tried = Tried::default();
    for seed in 0..4 * PROGRAMS {
        let rng = &mut Rng::new(seed);
        let file = generate::small_disciplined_file(rng);
        if judge(&file, &mut [0; 8200]).is_ok() {
            tried.add(&file, rng, seed);
        }
    }
    assert!(tried.lists > PROGRAMS / 2, "{}", tried.lists);
    assert!(tried.interrupted > tried.lists / 3, "{}", tried.interrupted);
    assert!(tried.by_reads > tried.lists / 10, "{}", tried.by_reads);
}

/// The search can fail: of the programs that the judge refuses by 13, some have lists that no order
/// of the units explains.
#[test]
fn without_the_judge_some_lists_have_no_uninterrupted_one() {
    let (mut refused, mut unexplained) = (0, 0);
    for seed in 0..PROGRAMS {
        let rng = &mut Rng::new(seed);
        let file = generate::small_disciplined_file(rng);
        if let Err(refusal) = judge(&file, &mut [0; 8200]) {
            assert_eq!(refusal.number, Refusal::BLOCK_IS_T, "seed {seed}");
            let program = Program::read(&file).unwrap();
            let trial = trial(&program, rng);
            refused += 1;
            unexplained += u64::from(Search::find(&program, &trial).is_none());
        }
    }
    assert!(
        refused > 500 && unexplained > 20,
        "{unexplained} of {refused}"
    );
}

/// Whether a rule accepts some program for which a list has no uninterrupted one. Statements, which
/// are true by the right rule, are taken out.
fn has_counterexample(rule: Rule) -> bool {
    (0..4 * PROGRAMS).any(|seed| {
        let rng = &mut Rng::new(seed);
        let file = without_statements(&generate::small_disciplined_file(rng));
        let program = Program::read(&file).unwrap();
        if judge(&file, &mut [0; 8200]).is_ok() || judged_with(rule, &program).is_err() {
            return false;
        }
        let trial = trial(&program, rng);
        Search::find(&program, &trial).is_none()
    })
}

/// But for WRITEs that no run comes to, the rule for open variables is not stricter than need be:
/// what a more lenient one accepts can have lists without an uninterrupted one. Those do no harm;
/// since they count, the judge need not know what is reached.
#[test]
fn more_lenient_rules_are_unsound() {
    for rule in TOO_LENIENT {
        assert!(has_counterexample(rule), "{}", rule.name);
    }
    assert!(!has_counterexample(ONLY_REACHED));
}

const OPEN: [u8; 6] = [3, 0, 0, 0, 0, 0];
const GUARDED_BY_K0: [u8; 6] = [0, 0, 0, 0, 0, 0];

fn read(to: u8, variable: u8) -> Instruction {
    Read { to, variable }
}

fn write(from: u8, variable: u8) -> Instruction {
    Write { from, variable }
}

fn set(to: u8, number: u16) -> Instruction {
    Set { to, number }
}

/// A program that is refused by 13 at a place of its first thread, and rightly: this list has no
/// uninterrupted one. Answers the list's end state.
fn refused_and_real(
    variables: &[[u8; 6]],
    code: &[&[Instruction]],
    place: usize,
    list: &[u8],
) -> State {
    let file = common::file(1, variables, code);
    let detail = (5 + 6 * variables.len() + 2 + 4 * place) as u64;
    let refusal = common::refused(13, detail);
    assert_eq!(common::judge_in(99, &file), refusal);
    let program = Program::read(&file).unwrap();
    let trial = cut_into_units(&program, list);
    assert_eq!(trial.moves, list, "every entry moves");
    assert_eq!(Search::find(&program, &trial), None);
    trial.end
}

/// The one writer's block writes twice, and a reader sees what stands between: WRITE is A although
/// no other thread writes.
#[test]
fn a_value_of_the_one_writer_that_never_stood_outside_its_block_is_seen() {
    let writer = [
        common::atomic_to(5),
        set(0, 1),
        write(0, 0),
        set(0, 2),
        write(0, 0),
        End,
    ];
    let list = [0, 0, 0, 1, 0, 0, 0];
    let end = refused_and_real(&[OPEN], &[&writer, &[read(3, 0)]], 5, &list);
    assert_eq!(end.threads[1].registers[3], 1);
    assert_eq!(end.variables[0], 2);
}

/// A block of READ open, TAKE, READ guarded, GIVE sees v0 before the other thread's WRITE and v1
/// after its critical section, which comes later.
#[test]
fn a_read_of_what_another_thread_writes_does_not_move_behind_it() {
    let block = [
        common::atomic_to(5),
        read(2, 0),
        Take { lock: 0 },
        read(3, 1),
        Give { lock: 0 },
        End,
    ];
    let other = [
        set(0, 1),
        write(0, 0),
        Take { lock: 0 },
        write(0, 1),
        Give { lock: 0 },
    ];
    let variables = [OPEN, GUARDED_BY_K0];
    let list = [0, 0, 1, 1, 1, 1, 1, 0, 0, 0, 0];
    let end = refused_and_real(&variables, &[&block, &other], 5, &list);
    assert_eq!(end.threads[0].registers[2..4], [0, 1]);
    // Where nobody else writes v0, the block is A, and this list has an uninterrupted one.
    let other = [set(0, 1), Take { lock: 0 }, write(0, 1), Give { lock: 0 }];
    let file = common::file(1, &variables, &[&block, &other]);
    assert!(common::judge_in(99, &file).is_ok());
    let program = Program::read(&file).unwrap();
    let trial = cut_into_units(&program, &[0, 0, 1, 1, 1, 1, 0, 0, 0, 0]);
    assert_eq!(trial.end.threads[0].registers[2..4], [0, 1]);
    let found = Search::find(&program, &trial).unwrap();
    assert_eq!(found, [1, 1, 1, 1, 0, 0, 0, 0, 0, 0]);
    assert_eq!(moved_counts(&program, &found), [6, 4, 0, 0, 0, 0, 0, 0]);
}

/// That each thread's moved count is the same says more than that their sum is: where two threads
/// go round in loops, one thread's round can stand for the other's and the end is the same.
#[test]
fn the_sum_of_moves_does_not_give_each_threads() {
    let rounds = [
        set(0, 1),
        While {
            test: 0,
            distance: 1,
        },
        Again { distance: 1 },
    ];
    let file = common::file(0, &[], &[&rounds, &rounds]);
    let program = Program::read_accepted(&file).unwrap();
    let (given, other) = ([0, 1, 0, 0, 1, 1, 0, 0], [0, 0, 0, 1, 1, 1, 1, 1]);
    let ends = [&given, &other].map(|list| run_uninterrupted(&program, list).unwrap());
    assert_eq!(ends[0], ends[1]);
    let sums = [&given, &other].map(|list| moved_counts(&program, list).iter().sum::<u64>());
    assert_eq!(sums[0], sums[1]);
    assert_eq!(moved_counts(&program, &given)[..2], [5, 3]);
    assert_eq!(moved_counts(&program, &other)[..2], [3, 5]);
    let trial = cut_into_units(&program, &given);
    let found = Search::find(&program, &trial).unwrap();
    assert_eq!(moved_counts(&program, &found)[..2], [5, 3]);
}

/// Two threads each add 1 to an open variable in a block: the judge refuses it (13), and rightly,
/// since one addition can be lost. If one thread alone does so, it is accepted.
#[test]
fn a_lost_update_is_refused_and_real() {
    let add = Add {
        to: 0,
        left: 0,
        right: 1,
    };
    let block = [
        common::atomic_to(5),
        read(0, 0),
        set(1, 1),
        add,
        write(0, 0),
        End,
    ];
    let list = [0, 1, 0, 1, 0, 1, 0, 1, 0, 1, 0, 1];
    let end = refused_and_real(&[OPEN], &[&block, &block], 5, &list);
    assert_eq!(end.variables[0], 1, "one addition is lost");
    let file = common::file(1, &[OPEN], &[&block, &block]);
    let program = Program::read(&file).unwrap();
    for list in [
        [0, 0, 0, 0, 0, 0, 1, 1, 1, 1, 1, 1],
        [1, 1, 1, 1, 1, 1, 0, 0, 0, 0, 0, 0],
    ] {
        let end = run_uninterrupted(&program, &list).unwrap();
        assert_eq!(end.variables[0], 2);
    }
    let one_adds = common::file(1, &[OPEN], &[&block, &[read(0, 0), read(1, 0)]]);
    let report = common::judge_in(99, &one_adds);
    assert_eq!(report, Ok(vec![4, 1, 1, 1, 4, 0, 4, 4, 4, 5]));
}
