//! Long plays, made for the measurements: 255 events each. None ends with a request open, where the bench of the unchanged Rust
//! would have to unwind, and none has number 12, which is a panic there.

const EVENTS: usize = 255;
const RECORD: usize = 20;

/// Their settings are lines of ../oracle/settings.txt.
const UNCOUPLED: [u8; RECORD] = settings(0, 10, 0);
const COUPLED: [u8; RECORD] = settings(1, 3, 2);

/// MIN 1, MAX 254, fastest rate 50, and a level.
const fn settings(coupled: u8, level: u8, common_time: u8) -> [u8; RECORD] {
    let mut record = [0; RECORD];
    record[0] = b'L';
    record[1] = b'G';
    record[2] = 1;
    record[3] = 254;
    record[4] = coupled;
    record[6] = 50;
    record[7] = level;
    record[11] = 1;
    record[12] = common_time;
    record
}

pub fn plays() -> [(&'static str, Vec<u8>); 4] {
    [
        ("fades", fades()),
        ("moves", moves()),
        ("refused", refused()),
        ("mixed", mixed()),
    ]
}

/// A fade with the latest clock times there are: the longest numbers that a line can show.
pub fn latest_times() -> Vec<u8> {
    let mut play = Play::new(COUPLED);
    play.now = (1 << 62) - 1 - 3_000_000;
    play.fade(3, 23);
    play.records
}

struct Play {
    records: Vec<u8>,
    now: u64,
    on: u8,
}

impl Play {
    fn new(settings: [u8; RECORD]) -> Self {
        Self {
            records: settings.to_vec(),
            now: 2_000_000,
            on: 0,
        }
    }

    fn event(&mut self, kind: u8, bytes: &[u8]) {
        let mut record = [0; RECORD];
        record[..4].copy_from_slice(&[b'L', b'E', kind, self.on]);
        record[4..12].copy_from_slice(&self.now.to_le_bytes());
        record[12..12 + bytes.len()].copy_from_slice(bytes);
        self.records.extend(record);
    }

    fn later(&mut self, micros: u64, kind: u8, bytes: &[u8]) {
        self.now += micros;
        self.event(kind, bytes);
    }

    fn answer(&mut self, level: u8) {
        self.later(3_000, 5, &[0, level]);
    }

    /// The wake after an answer, a period after the request.
    fn wake(&mut self, period: u64) {
        self.later(period - 3_000, 6, &[]);
    }

    /// A whole fade at ten levels a second: two events for each level.
    fn fade(&mut self, from: u8, to: u8) {
        self.event(1, &[0, to, 1, to.abs_diff(from), 0]);
        let mut level = from;
        loop {
            level = if level < to { level + 1 } else { level - 1 };
            self.answer(level);
            if level == to {
                break;
            }
            self.wake(100_000);
        }
    }

    fn finished(self) -> Vec<u8> {
        assert_eq!(self.records.len(), RECORD * (1 + EVENTS));
        self.records
    }
}

fn fades() -> Vec<u8> {
    let mut play = Play::new(UNCOUPLED);
    for _ in 0..3 {
        play.fade(10, 30);
        play.fade(30, 10);
    }
    play.fade(10, 17);
    play.later(1_000, 4, &[]);
    play.finished()
}

/// Five moves over 25 levels, each stopped before it comes to its end.
fn moves() -> Vec<u8> {
    let mut play = Play::new(UNCOUPLED);
    let mut level = 10;
    for down in [0, 1, 0, 1, 0] {
        play.later(1_000, 2, &[0, down, 1, 20]);
        for n in 0..25 {
            if n > 0 {
                play.wake(50_000);
            }
            level = if down == 1 { level - 1 } else { level + 1 };
            play.answer(level);
        }
        play.later(1_000, 4, &[]);
    }
    play.finished()
}

fn refused() -> Vec<u8> {
    let mut play = Play::new(UNCOUPLED);
    for n in 0..EVENTS {
        match n % 7 {
            0 => play.later(1_000, 15, &[]), // no such kind: 1
            1 => {
                let now = std::mem::replace(&mut play.now, 1 << 62);
                play.event(10, &[]); // too late: 5
                play.now = now;
            }
            2 => play.event(5, &[0, 20]),   // an answer to nothing: 7
            3 => play.event(6, &[]),        // a wake from nothing: 8
            4 => play.event(3, &[0, 0, 0]), // a step of size 0: 10
            5 => play.event(11, &[1, 255]), // an on level above MAX: 13
            _ => play.event(12, &[1, 0]),   // a default rate of 0: 14
        }
    }
    play.finished()
}

/// Steps, stops, scenes, reactions, updates and a setter, coupled, with refusals between.
fn mixed() -> Vec<u8> {
    let mut play = Play::new(COUPLED);
    let mut level = 3;
    for _ in 0..13 {
        play.later(1_000, 3, &[1, 0, 5, 1, 5, 0]); // a step up by 5 in 5 tenths
        play.answer(level + 1);
        play.event(6, &[]); // early: 8
        play.wake(100_000);
        play.event(4, &[1]); // while an answer is open: 6
        play.on = 1;
        play.answer(level + 2);
        play.later(1_000, 4, &[1]); // stop
        play.event(8, &[1, level + 4, 0x2C, 1, 0, 0]); // a scene in 300 ms
        play.answer(level + 3);
        play.event(11, &[1, 50]);
        play.event(11, &[1, 0]); // below MIN: 13
        play.event(9, &[60]); // the device's own change
        play.event(7, &[0]); // off
        play.later(3_000, 5, &[2]); // the device fails
        play.later(1_000, 7, &[1]); // on
        play.answer(1);
        play.later(3_000, 5, &[1]); // a missing answer
        level = 10;
        play.event(9, &[level]);
        play.event(14, &[0, 0, 1]); // an unnamed byte: 1
        play.on = 0;
    }
    for _ in 0..8 {
        play.event(10, &[]);
    }
    play.finished()
}
