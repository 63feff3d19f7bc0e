//! The station programs of `examples/` and `examples/cases/`, each with its printout.

use std::collections::BTreeSet;
use std::fs;
use std::path::{Path, PathBuf};

use hogunlas_reference::{bench, report_length};

fn station_programs(folder: &str) -> Vec<PathBuf> {
    let folder = Path::new(env!("CARGO_MANIFEST_DIR")).join(folder);
    let mut files: Vec<PathBuf> = fs::read_dir(folder)
        .expect("the examples folder")
        .map(|entry| entry.expect("an entry of the examples folder").path())
        .filter(|path| path.extension().is_some_and(|ending| ending == "bin"))
        .collect();
    files.sort();
    files
}

/// All programs of a folder, of which there are so many at least, have their printouts.
fn have_their_printouts(folder: &str, least: usize) {
    let programs = station_programs(folder);
    assert!(programs.len() >= least, "only {} files", programs.len());
    for program in programs {
        let file = fs::read(&program).expect("a station program");
        let printout = fs::read(program.with_extension("txt")).expect("its printout");
        assert_eq!(bench(&file), printout, "{}", program.display());
    }
}

#[test]
fn every_station_program_has_its_printout() {
    have_their_printouts("../examples", 11);
}

#[test]
fn every_case_has_its_printout() {
    have_their_printouts("../examples/cases", 46);
}

/// 0 stands for an accepted file.
#[test]
fn the_cases_show_every_refusal_of_a_file() {
    let numbers: BTreeSet<u32> = station_programs("../examples/cases")
        .iter()
        .map(|path| fs::read(path).expect("a station program"))
        .map(|file| report_length(&file).map_or_else(|refusal| refusal.number, |_| 0))
        .collect();
    assert_eq!(numbers, (0..=13).chain([18]).collect());
}
