// Calls the archive from Rust, with rustc alone, and tries what play.c tries.
const RECORD: usize = 20;
const MOST: usize = 5120;
const ROOM: usize = 48195;
const CANARY: usize = 64;

extern "C" {
    // A lent slice is a pointer and a length.
    fn level_control_play(records: *const u8, records_length: usize, out: *mut u8, out_length: usize) -> i32;
}

/// Calls it with the first `room` bytes of `out`, and looks at every byte there and behind it.
fn call(records: &[u8], out: &mut [u8], room: usize) -> i32 {
    let seen = room + CANARY;
    let before = out[..seen].to_vec();
    let n = unsafe { level_control_play(records.as_ptr(), records.len(), out.as_mut_ptr(), room) };
    let kept = if n < 0 { 0 } else { n as usize };
    assert!(kept <= room && out[kept..seen] == before[kept..], "a byte past the text has changed, room {room}");
    n
}

fn event(kind: u8, k: u64, bytes: &[u8]) -> [u8; RECORD] {
    let mut record = [0; RECORD];
    record[..4].copy_from_slice(&[0x4C, 0x45, kind, 0]);
    record[4..12].copy_from_slice(&(2_000_000 + 50_000 * k).to_le_bytes());
    record[12..12 + bytes.len()].copy_from_slice(bytes);
    record
}

/// Settings, and 257 events that are accepted and refused in turn.
fn play() -> Vec<u8> {
    let mut records = vec![0x4C, 0x47, 1, 254, 0, 0, 50, 10, 0, 0, 0, 1];
    records.resize(RECORD, 0);
    for k in 1..258u64 {
        records.extend(match k % 4 {
            0 => event(1, k, &[0, (k % 255) as u8, 1, 3]),
            2 => event(6, k, &[]),
            _ => event(5, k, &[0, (k % 200) as u8]),
        });
    }
    records
}

fn main() {
    let plays: u64 = std::env::args().nth(1).map_or(1000, |n| n.parse().expect("a number of plays"));
    let records = play();
    let mut out = vec![0xA5; ROOM + CANARY];

    for length in 0..=5141 {
        let n = call(&records[..length], &mut out, ROOM);
        let right = (RECORD..=MOST).contains(&length) && length % RECORD == 0;
        assert!(if right { n >= 0 } else { n == -1 }, "length {length} gives {n}");
        assert!(length != RECORD || n == 0, "settings alone write something");
    }

    let whole = call(&records[..MOST], &mut out, ROOM);
    assert!(whole > 0, "the whole play is refused: {whole}");
    for room in 0..=whole as usize {
        out.fill(0xA5);
        let n = call(&records[..MOST], &mut out, room);
        assert_eq!(n, if room < whole as usize { -16 } else { whole }, "room {room}");
    }

    let mut random = 1u64;
    let mut next = || {
        random = random.wrapping_mul(6364136223846793005).wrapping_add(1442695040888963407);
        random >> 25
    };
    for i in 0..plays {
        let mut damaged = records[..13 * RECORD].to_vec();
        for _ in 0..4 {
            let r = next();
            damaged[(r >> 8) as usize % (13 * RECORD)] = r as u8;
        }
        let length = RECORD * (1 + (next() >> 8) as usize % 13);
        let n = call(&damaged[..length], &mut out, 12 * 189);
        assert!(n >= -4, "damaged play {i} gives {n}");
        assert!(n <= 0 || out[n as usize - 1] == b'\n', "damaged play {i}: no line feed");
    }
    println!("play.rs: ok, the text of 255 events has {whole} bytes; {plays} damaged plays");
}
