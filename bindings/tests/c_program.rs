//! The header and the archive from C: `c/example.c` compiles without a warning, links, and prints
//! what the standard says of its files. A program that was compiled for an older standard's run
//! does not link.

mod c_compiler;

use std::process::Output;

use c_compiler::{assert_compiled, built, cc, compile, link, printed};

const REPORT: &str = "judge: report 3 1 2 4\n";

const COUNTS: &str = "\
run:
thread  moved  waiting  idle
     0      2        0     0
     1      1        1     0
";

const PRINTOUT: &str = "\
01 version 1
01 locks 1
01 threads 1
0006 variables 1
00 00 00000005 v0 guarded k0 5
000C thread 0 code 3
20 00 00 00 0 TAKE k0 R
10 02 00 00 1 READ r2 v0 B
21 00 00 00 2 GIVE k0 L
thread 0 A
";

#[test]
fn the_c_program_prints_the_example() {
    let program = built("example");
    let mut cc = cc("-std=c99");
    cc.args(["-O2", "c/example.c", env!("HOGUNLAS_ARCHIVE"), "-o"]);
    cc.arg(&program);
    assert_compiled(&cc.output().expect("cc starts"));
    assert_eq!(printed(&program), [REPORT, COUNTS, PRINTOUT].concat());
}

/// The header alone, as a program includes it that calls nothing.
#[test]
fn the_header_stands_alone() {
    for standard in ["-std=c99", "-std=c17"] {
        let mut cc = cc(standard);
        cc.args(["-x", "c", "-fsyntax-only", "../include/hogunlas.h"]);
        assert_compiled(&cc.output().expect("cc starts"));
    }
}

// ---- programs that were compiled for an older standard

/// What the header of standards 1.0 and 1.1 declared for run.
const OLD_DECLARATION: &str = "
#include <stddef.h>
#include <stdint.h>
typedef struct {
    uint32_t refusal;
    uint64_t detail;
    uint64_t moved;
    uint64_t waiting;
    uint64_t idle;
} hogunlas_ran;
hogunlas_ran hogunlas_run(const uint8_t *file, size_t file_length,
                          const uint8_t *list, size_t list_length,
                          uint8_t *state, size_t state_length);
#define RUN hogunlas_run
";

const NEW_DECLARATION: &str = "
#include \"hogunlas.h\"
#define RUN hogunlas_run_by_thread
";

/// Runs a file of one thread without code; ends with 0 if there is an answer.
const CALLER: &str = "
int main(void)
{
    static const uint8_t file[] = {1, 0, 1, 0, 0, 0, 0};
    uint8_t state[544];
    hogunlas_ran ran = RUN(file, sizeof file, file, 0, state, sizeof state);
    return ran.refusal != 0;
}
";

/// The names that the linker says are undefined; they end its lines.
fn undefined(linked: &Output) -> Vec<String> {
    let said = String::from_utf8_lossy(&linked.stderr);
    let lines = said.lines().filter(|line| line.contains("undefined"));
    let in_name = |letter: char| letter.is_ascii_alphanumeric() || letter == '_';
    let last_name = |line: &str| {
        let mut names = line.rsplit(|letter| !in_name(letter));
        names.find(|name| !name.is_empty()).map(str::to_string)
    };
    lines.filter_map(last_name).collect()
}

/// It compiles as before, but the archive has no `hogunlas_run`: whoever builds it is told, and it
/// never runs with its shorter struct.
#[test]
fn a_program_for_an_older_standard_does_not_link() {
    let old = [OLD_DECLARATION, CALLER].concat();
    assert_compiled(&compile(&old, &["-fsyntax-only"]));
    let linked = link(&old, &built("for_older_standard"));
    let said = String::from_utf8_lossy(&linked.stderr);
    assert!(!linked.status.success(), "it links");
    assert_eq!(undefined(&linked), ["hogunlas_run"], "{said}");
}

/// So the test above fails for the declaration alone.
#[test]
fn the_same_program_links_with_the_header() {
    let program = built("for_this_standard");
    assert_compiled(&link(&[NEW_DECLARATION, CALLER].concat(), &program));
    assert_eq!(printed(&program), "");
}
