//! What the tests of statements share, here and in `bindings/`.

use hogunlas_reference::generate::{self, atomics, Rng};
use hogunlas_reference::reader::Program;

/// The number of a sound file's ATOMICs that state something.
pub fn statement_count(file: &[u8]) -> usize {
    let sites = atomics(file).into_iter();
    sites.filter(|site| file[site.field()] != 0).count()
}

/// Whether "field a of each ATOMIC is 0 or its report byte".
pub fn statements_are_true(file: &[u8], report: &[u8]) -> bool {
    atomics(file).into_iter().all(|site| {
        let stated = file[site.field()];
        stated == 0 || stated == report[site.report_index]
    })
}

/// An accepted file of any kind, and a list of its threads.
pub fn accepted_file_and_list(rng: &mut Rng) -> (Vec<u8>, Vec<u8>) {
    let file = match rng.below(100) {
        0 => generate::largest_file(rng),
        1..=5 => generate::deep_file(rng, 16),
        6..=40 => generate::small_accepted_file(rng),
        _ => generate::accepted_file(rng),
    };
    let length = rng.between(0, 400);
    let list = generate::good_list(rng, usize::from(file[2]), length);
    (file, list)
}

/// A sound file of any kind, if the seed makes one with statements. Those of the generator are
/// mostly true, so in half of the files some blocks state anything.
pub fn sound_file_with_statements(seed: u64) -> Option<Vec<u8>> {
    let rng = &mut Rng::new(seed);
    let mut file = generate::file(rng);
    Program::read(&file).ok()?;
    if rng.chance(50) {
        state_anything(rng, &mut file);
    }
    (statement_count(&file) > 0).then_some(file)
}

fn state_anything(rng: &mut Rng, file: &mut [u8]) {
    for site in atomics(file) {
        if rng.chance(50) {
            file[site.field()] = rng.below(5) as u8;
        }
    }
}

/// The printout of an accepted file, made of the one that it has without its statements: "An ATOMIC
/// shows the letter that it states after the distance, and nothing for 0."
pub fn with_statements_shown(file: &[u8], without: &str) -> String {
    let mut fields = atomics(file).into_iter().map(|site| file[site.field()]);
    let lines = without.lines().map(|line| {
        let words: Vec<&str> = line.split(' ').collect();
        let ["34", "00", high, low, place, "ATOMIC", n, whole] = words[..] else {
            return format!("{line}\n");
        };
        let field = fields.next().expect("a block");
        let letter = ["", " B", " L", " R", " A"][usize::from(field)];
        format!("34 {field:02X} {high} {low} {place} ATOMIC {n}{letter} {whole}\n")
    });
    let shown = lines.collect();
    assert_eq!(fields.next(), None, "a line for each block");
    shown
}
