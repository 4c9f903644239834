//! Our entry beside (a) the unchanged Rust handler, without its printing, and (b) the same entry in plain Rust: checked against
//! each other, then timed in turns. `bench/run` builds and calls it; docs/PERFORMANCE.md says what the figures mean.
//!
//!     bench LIST        a list of plays (../oracle/README.md)
mod check;
mod made;
mod plain;
mod stack;

use std::hint::black_box;
use std::process::ExitCode;
use std::time::Instant;

use check::{checked, Play};
use oracle::Stop;
use stack::Stack;

/// The C entry of include/level_control.h.
pub type Entry = unsafe extern "C" fn(*const u8, usize, *mut u8, usize) -> i32;

extern "C" {
    fn level_control_play(
        records: *const u8,
        records_length: usize,
        out: *mut u8,
        out_length: usize,
    ) -> i32;
}

pub const OURS: Entry = level_control_play;
pub const PLAIN: Entry = plain::level_control_play;

/// Room for every sheet.
pub const ROOM: usize = 48_195;

const ROUNDS: usize = 31;
/// A play is played so often before the next: the unchanged Rust has code of its own for each settings record, which would
/// otherwise be cold at every play.
const IN_A_ROW: usize = 8;
/// Each turn takes at least so many lines.
const LINES_IN_A_TURN: usize = 40_000;

pub fn call(entry: Entry, records: &[u8], out: &mut [u8]) -> i32 {
    unsafe { entry(records.as_ptr(), records.len(), out.as_mut_ptr(), out.len()) }
}

/// One way to play: the play, and the lent output.
type Side = fn(&Play, &mut [u8]);

fn ours(play: &Play, out: &mut [u8]) {
    black_box(call(OURS, play.records, out));
}

/// With room for the text alone: it is measured first.
fn ours_exact(play: &Play, out: &mut [u8]) {
    black_box(call(OURS, play.records, &mut out[..play.text]));
}

fn plain_exact(play: &Play, out: &mut [u8]) {
    black_box(call(PLAIN, play.records, &mut out[..play.text]));
}

/// With one byte less: it is refused.
fn ours_refused(play: &Play, out: &mut [u8]) {
    black_box(call(OURS, play.records, &mut out[..play.text - 1]));
}

fn plain_refused(play: &Play, out: &mut [u8]) {
    black_box(call(PLAIN, play.records, &mut out[..play.text - 1]));
}

fn plain(play: &Play, out: &mut [u8]) {
    black_box(call(PLAIN, play.records, out));
}

fn handler(play: &Play, _: &mut [u8]) {
    black_box(oracle::tally(play.records, false));
}

fn bare_handler(play: &Play, _: &mut [u8]) {
    black_box(oracle::tally(play.records, true));
}

fn main() -> ExitCode {
    oracle::keep_panics();
    match oracle::caught(run) {
        Ok(()) => ExitCode::SUCCESS,
        Err(Stop::Panic(message)) => {
            eprintln!("bench: {message}");
            ExitCode::from(2)
        }
        Err(stop) => unreachable!("{stop:?} outside a play"),
    }
}

fn run() {
    let path = std::env::args().nth(1).expect("a list of plays");
    let list = std::fs::read(&path).unwrap_or_else(|e| panic!("{path}: {e}"));
    let made = made::plays();
    let latest_times = made::latest_times();
    let mut stacks = [Stack::new(), Stack::new()];
    let mut played = |name: &str, records| match oracle::caught(|| checked(records, &mut stacks)) {
        Err(Stop::Panic(message)) => panic!("{name}: {message}"),
        checked => checked.unwrap(),
    };

    let recorded = oracle::plays(&list);
    let all: Vec<Play> = (1..)
        .zip(&recorded)
        .filter_map(|(number, play)| played(&format!("recorded play {number}"), play.records))
        .collect();
    let made: Vec<(&str, Play)> = made
        .iter()
        .map(|(name, records)| (*name, played(name, records).unwrap()))
        .collect();
    played("the latest times", &latest_times);
    println!(
        "checked: {} recorded plays and {} made ones. Ours and the plain Rust (b) return the same and write the same bytes, with room\n\
         for all, for the text alone, and for less; the unchanged Rust (a) gives the same sheets.",
        recorded.len(),
        made.len() + 1
    );

    let mut out = vec![0; ROOM];
    compare(&all, &made, &mut out);
    growth(&made[0], &mut out);
    little_room(&all, &made, &mut out);
    let [our_stack, plain_stack] = stacks.map(|stack| stack.deepest());
    println!(
        "\nstack: ours {our_stack} bytes, (b) {plain_stack}: the deepest of all plays checked"
    );
}

fn compare(all: &[Play], made: &[(&str, Play)], out: &mut [u8]) {
    let no_unwinding: Vec<&Play> = all.iter().filter(|play| !play.unwinds).collect();
    let mut rows = vec![
        ("recorded", all.iter().collect()),
        ("recorded, no unwinding", no_unwinding),
    ];
    rows.extend(made.iter().map(|(name, play)| (*name, vec![play])));

    println!(
        "\nns a line, and millions of events a second: medians of {ROUNDS} rounds in turns, each play {IN_A_ROW} times in a row.\n\
         At the right how many times as fast ours is: medians of the rounds' ratios."
    );
    println!(
        "{:22} {:>5} {:>6} {:>14} {:>14} {:>14} {:>14} {:>6} {:>8} {:>5}",
        "", "plays", "lines", "ours", "(b)", "(a)", "(a) bare", "(a)", "(a) bare", "(b)"
    );
    let sides: [Side; 4] = [ours, plain, handler, bare_handler];
    let mut ratios = vec![];
    for (name, plays) in rows {
        let times = rounds(&sides, &plays, out);
        print!("{name:22} {:>5} {:>6}", plays.len(), lines(&plays));
        for side in 0..sides.len() {
            let ns = median(times.iter().map(|round| round[side]));
            print!(" {ns:8.1} {:5.1}", 1000.0 / ns);
        }
        let ratio = |side: usize| median(times.iter().map(|round| round[side] / round[0]));
        println!(" {:6.2} {:8.2} {:5.2}", ratio(2), ratio(3), ratio(1));
        ratios.push(ratio(1));
    }
    bar(&ratios);
}

/// In no row slower than (b).
fn bar(ratios: &[f64]) {
    let lowest = ratios
        .iter()
        .fold(f64::INFINITY, |least, ratio| least.min(*ratio));
    let highest = ratios.iter().fold(0.0_f64, |most, ratio| most.max(*ratio));
    let met = if lowest >= 1.0 { "met" } else { "not met" };
    println!("not slower than (b): {met}, {lowest:.2} to {highest:.2}");
}

/// The first events of a long play.
fn growth((name, play): &(&str, Play), out: &mut [u8]) {
    println!("\nfrom 1 to 255 events: the first events of \"{name}\", ns a play (ns an event), the fastest of {ROUNDS} rounds");
    println!("{:>6} {:>20} {:>20}", "events", "ours", "(b)");
    let mut ours_took = vec![];
    for events in [1, 2, 4, 8, 16, 32, 64, 128, 255] {
        let first = Play {
            records: &play.records[..20 * (1 + events)],
            lines: events,
            ..*play
        };
        let times = rounds(&[ours, plain], &[&first], out);
        let [ours, plain] = [0, 1].map(|side| fastest(times.iter().map(|round| round[side])));
        let whole = |ns: f64| ns * events as f64;
        println!(
            "{events:6} {:10.0} ({ours:7.1}) {:10.0} ({plain:7.1})",
            whole(ours),
            whole(plain)
        );
        ours_took.push(whole(ours));
    }
    let slope = (ours_took[ours_took.len() - 1] - ours_took[0]) / 254.0;
    println!("ours: {slope:.1} ns for each event after the first");
}

/// Where the longest lines have no room, the text is measured first.
fn little_room(all: &[Play], made: &[(&str, Play)], out: &mut [u8]) {
    println!(
        "\nwith little room, so that the text is measured first: ns a line of ours (times one pass) and of (b), and how many times as fast ours is"
    );
    println!(
        "{:22} {:>33} {:>33}",
        "", "room for the text alone", "one byte less: refused"
    );
    let sides: [Side; 5] = [ours, ours_exact, plain_exact, ours_refused, plain_refused];
    let mut row = |name: &str, plays: &[&Play]| {
        let times = rounds(&sides, plays, out);
        let ns = |side: usize| median(times.iter().map(|round| round[side]));
        let ratio = |a: usize, b: usize| median(times.iter().map(|round| round[a] / round[b]));
        print!("{name:22}");
        for (ours, plain) in [(1, 2), (3, 4)] {
            print!(
                " {:10.1} ({:4.2}) {:8.1} {:6.2}",
                ns(ours),
                ratio(ours, 0),
                ns(plain),
                ratio(plain, ours)
            );
        }
        println!();
    };
    row("recorded", &all.iter().collect::<Vec<_>>());
    for (name, play) in made {
        row(name, &[play]);
    }
}

fn lines(plays: &[&Play]) -> usize {
    plays.iter().map(|play| play.lines).sum()
}

/// For each round the ns a line of each side. The sides take turns, and another begins each round.
fn rounds(sides: &[Side], plays: &[&Play], out: &mut [u8]) -> Vec<Vec<f64>> {
    let times = LINES_IN_A_TURN.div_ceil(IN_A_ROW * lines(plays));
    let mut turn = |side: Side| {
        let start = Instant::now();
        for _ in 0..times {
            for play in plays {
                for _ in 0..IN_A_ROW {
                    side(black_box(play), out);
                }
            }
        }
        start.elapsed().as_nanos() as f64 / (times * IN_A_ROW * lines(plays)) as f64
    };
    for &side in sides {
        turn(side); // warm
    }
    (0..ROUNDS)
        .map(|round| {
            let mut taken = vec![0.0; sides.len()];
            for n in 0..sides.len() {
                let side = (round + n) % sides.len();
                taken[side] = turn(sides[side]);
            }
            taken
        })
        .collect()
}

fn median(values: impl Iterator<Item = f64>) -> f64 {
    let mut values: Vec<f64> = values.collect();
    values.sort_by(f64::total_cmp);
    values[values.len() / 2]
}

fn fastest(values: impl Iterator<Item = f64>) -> f64 {
    values.fold(f64::INFINITY, f64::min)
}
