//! Before anything is timed: the three give the same, on every play.
use crate::stack::Stack;
use crate::{call, Entry, OURS, PLAIN, ROOM};

/// A play that has a text.
pub struct Play<'a> {
    pub records: &'a [u8],
    pub lines: usize,
    /// The length of its text.
    pub text: usize,
    /// The bench of the unchanged Rust has to unwind: number 12 is a panic there, and so is the end of the records while
    /// the device is asked.
    pub unwinds: bool,
}

/// The play, if it has a text. `stacks`: ours, and that of the plain Rust.
pub fn checked<'a>(records: &'a [u8], stacks: &mut [Stack; 2]) -> Option<Play<'a>> {
    let mut text = vec![0xA5; ROOM];
    let length = same(records, &mut text, stacks);
    let Ok(length) = usize::try_from(length) else {
        let rust = oracle::sheet(records, false);
        assert_eq!(rust, format!("0 {}\n", -length), "the Rust differs");
        return None;
    };
    // Too little room for one pass, just enough for the text, and one byte less: -16.
    for room in [length, length.saturating_sub(1), 0] {
        let mut out = vec![0xA5; room];
        let wanted = if room < length { -16 } else { length as i32 };
        assert_eq!(same(records, &mut out, stacks), wanted, "room {room}");
    }
    text.truncate(length);
    let text = String::from_utf8(text).unwrap();
    assert_eq!(text, oracle::sheet(records, false), "the Rust differs");
    let unwinds = check_tallies(records, &text);
    (length > 0).then_some(Play {
        records,
        lines: text.lines().count(),
        text: length,
        unwinds,
    })
}

/// Ours and the plain Rust return the same and leave the same bytes, in the room and behind it.
fn same(records: &[u8], out: &mut [u8], stacks: &mut [Stack; 2]) -> i32 {
    let before = [&*out, &[0xA5; 64]].concat();
    let played = |entry: Entry, stack: &mut Stack| {
        let mut bytes = before.clone();
        let result = call(entry, records, &mut bytes[..out.len()]);
        let again = stack.call(entry, records, &mut bytes[..out.len()]);
        assert_eq!(result, again, "played twice");
        let kept = usize::try_from(result).unwrap_or(0);
        assert!(bytes[kept..] == before[kept..], "a byte past the text");
        (result, bytes)
    };
    let [our_stack, plain_stack] = stacks;
    let ours = played(OURS, our_stack);
    let plain = played(PLAIN, plain_stack);
    assert!(
        ours == plain,
        "ours and the plain Rust differ; they returned {} and {}",
        ours.0,
        plain.0
    );
    out.copy_from_slice(&ours.1[..out.len()]);
    ours.0
}

/// What is timed of the unchanged Rust has done what its sheet shows. True if it had to unwind.
fn check_tallies(records: &[u8], text: &str) -> bool {
    let (mut wanted, mut asked, mut overflow) = (oracle::Tally::default(), false, false);
    for line in text.lines() {
        let words: Vec<&str> = line.split(' ').collect();
        let [_, number, level, tenths, actions @ ..] = &words[..] else {
            panic!("the line {line}");
        };
        wanted.lines += 1;
        wanted.numbers += number.parse::<usize>().unwrap();
        wanted.levels += level.parse::<usize>().unwrap_or(0);
        wanted.tenths += tenths.parse::<usize>().unwrap();
        wanted.actions += actions.len();
        if *number == "0" {
            asked = actions.iter().any(|action| action.starts_with('D'));
        }
        overflow |= *number == "12";
    }
    assert_eq!(oracle::tally(records, false), wanted);
    let bare = oracle::Tally {
        levels: 0,
        tenths: 0,
        ..wanted
    };
    assert_eq!(oracle::tally(records, true), bare);
    asked || overflow
}
