//! The records of docs/RULES.md, played on the unchanged `level_control.rs` of rs-matter. `main.rs` prints the sheets; `../bench` measures
//! the time that a play takes without them.
#[macro_use]
#[allow(dead_code, unused_imports)] // the source names more than a play reaches
mod stand_ins;
mod lamp;
mod play;
mod refusals;
mod scenes;
mod stops;

use lamp::Ending;
use play::{Keep, Record};
use stand_ins::{dm, error, persist, tlv, utils};
pub(crate) use with;

pub use play::Tally;
pub use stops::{caught, keep_panics, Stop};

include!(concat!(env!("OUT_DIR"), "/settings.rs"));

/// What is played: the records, and the pairs of the scenes among them (README.md, "A list of plays").
#[derive(Clone, Copy)]
pub struct Play<'a> {
    pub records: &'a [u8],
    pub pairs: &'a [u8],
}

/// Records alone: each scene has the one pair that its record names, or none.
impl<'a> From<&'a [u8]> for Play<'a> {
    fn from(records: &'a [u8]) -> Self {
        let pairs = &[];
        Self { records, pairs }
    }
}

/// The plays of a list; the sheets and states in it are passed over.
pub fn plays(list: &[u8]) -> Vec<Play<'_>> {
    let mut rest = list;
    let mut take = |count: usize| {
        let (taken, left) = rest.split_at_checked(count).expect("a whole list of plays");
        rest = left;
        taken
    };
    let word = |bytes: &[u8]| u32::from_le_bytes(bytes.try_into().unwrap());
    assert!(take(8) == b"LCPLAYS2", "not a list of plays");
    let (count, sum) = (word(take(4)), word(take(4)));
    let plays = (0..count)
        .map(|_| {
            let [records, sheet, states, pairs] = [(); 4].map(|()| word(take(4)) as usize);
            let records = take(records);
            take(sheet);
            take(states);
            let pairs = take(pairs);
            Play { records, pairs }
        })
        .collect();
    let summed = list[16..]
        .iter()
        .fold(0, |sum: u32, &byte| sum.wrapping_add(byte.into()));
    assert!(rest.is_empty() && summed == sum, "a damaged list of plays");
    plays
}

/// The sheet of a play, with the whole state after each line if asked.
pub fn sheet<'a>(play: impl Into<Play<'a>>, print_state: bool) -> String {
    let keep = if print_state {
        Keep::LinesAndState
    } else {
        Keep::Lines
    };
    match run_play(play.into(), keep) {
        Ending::Refused(number) => format!("0 {number}\n"),
        Ending::Played => play::take().sheet,
        Ending::Cut(line) => {
            play::take().sheet
                + &format!("! not compared from line {line}: stored options read under a borrow\n")
        }
    }
}

/// A play without its text, or bare: nothing is read that the handler does not read itself.
pub fn tally(records: &[u8], bare: bool) -> Tally {
    let keep = if bare { Keep::BareTally } else { Keep::Tally };
    run_play(records.into(), keep);
    play::take().tally
}

/// Runs a play; what it leaves behind is then to be taken.
fn run_play(Play { records, pairs }: Play, keep: Keep) -> Ending {
    if !(20..=5120).contains(&records.len()) || records.len() % 20 != 0 {
        return Ending::Refused(1);
    }
    let mut records = records
        .chunks(20)
        .map(|record| Record::try_from(record).unwrap());
    let settings = records.next().unwrap();
    if let Some(number) = refusals::of_settings(&settings) {
        return Ending::Refused(number);
    }
    let row = SETTINGS
        .binary_search(&without_missing(settings))
        .unwrap_or_else(|_| panic!("settings.txt has no line for {settings:02X?}"));
    play::start(records.collect(), scenes::read_pairs(pairs), keep);
    RUN_PLAY[row]()
}

/// A value marked missing is ignored: 0 in its place, as in the table.
fn without_missing(mut settings: Record) -> Record {
    for (bit, bytes) in [7..8, 8..9, 9..10, 10..11, 14..16, 16..18]
        .into_iter()
        .enumerate()
    {
        if settings[11] >> bit & 1 == 0 {
            settings[bytes].fill(0);
        }
    }
    settings
}
