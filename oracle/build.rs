//! Finds the source under test and includes it by its path; makes a hook type of each line of settings.txt.
use std::collections::BTreeSet;
use std::path::PathBuf;
use std::{env, fs};

const SOURCE: &str = "rs-matter-dm--src--clusters--app--level_control.rs.txt";

fn main() {
    let here = PathBuf::from(env::var("CARGO_MANIFEST_DIR").unwrap());
    let out = PathBuf::from(env::var("OUT_DIR").unwrap());

    println!("cargo:rerun-if-env-changed=RS_MATTER_SRC");
    let mut source = env::var("RS_MATTER_SRC")
        .map_or_else(|_| here.join("../../shared/docs/src"), PathBuf::from);
    if source.is_dir() {
        source.push(SOURCE);
    }
    let source = source
        .canonicalize()
        .unwrap_or_else(|e| panic!("{}: {e}", source.display()));
    println!("cargo:rerun-if-changed={}", source.display());
    fs::write(
        out.join("source.rs"),
        format!("#[path = {source:?}]\npub mod level_control;\n"),
    )
    .unwrap();

    let list = here.join("settings.txt");
    println!("cargo:rerun-if-changed={}", list.display());
    let rows: BTreeSet<[u8; 20]> = fs::read_to_string(&list)
        .unwrap()
        .lines()
        .map(|line| line.split('#').next().unwrap().trim())
        .filter(|line| !line.is_empty())
        .map(record)
        .collect();
    let rows = Vec::from_iter(rows);
    let run_play: Vec<String> = (0..rows.len())
        .map(|row| format!("crate::lamp::run_play::<{row}>"))
        .collect();
    let table = format!(
        "/// Sorted, for the search.\n\
         pub const SETTINGS: [[u8; 20]; {n}] = {rows:?};\n\
         pub const RUN_PLAY: [fn() -> Ending; {n}] = [{run_play}];\n",
        n = rows.len(),
        run_play = run_play.join(", "),
    );
    fs::write(out.join("settings.rs"), table).unwrap();
}

/// The settings record of a line: its columns in the record's order, `-` for a missing value.
fn record(line: &str) -> [u8; 20] {
    let columns: Vec<Option<u16>> = line
        .split_whitespace()
        .map(|word| {
            (word != "-").then(|| {
                word.parse()
                    .unwrap_or_else(|_| panic!("settings.txt: {line}"))
            })
        })
        .collect();
    let [min, max, coupled, options, fastest, level, on_level, start_up, rate, common, on_time, off_time, lighting] =
        columns[..]
    else {
        panic!("settings.txt: {line}");
    };
    let byte = |value: Option<u16>| u8::try_from(value.unwrap_or(0)).unwrap();
    let mut record = [0; 20];
    record[..2].copy_from_slice(b"LG");
    for (at, value) in [
        min, max, coupled, options, fastest, level, on_level, start_up, rate,
    ]
    .into_iter()
    .enumerate()
    {
        record[2 + at] = byte(value);
    }
    for (bit, value) in [level, on_level, start_up, rate, on_time, off_time]
        .into_iter()
        .enumerate()
    {
        record[11] |= (value.is_some() as u8) << bit;
    }
    for (at, value) in [common, on_time, off_time].into_iter().enumerate() {
        record[12 + 2 * at..14 + 2 * at].copy_from_slice(&value.unwrap_or(0).to_le_bytes());
    }
    record[18] = byte(lighting);
    record
}
