//! The numbers that the Rust has no test for: 1, 3 and 5 to 9, by docs/RULES.md (Causes). They are the bench's own
//! and no evidence about the Rust.
use crate::play::Record;

/// What the test of an event looks at.
pub struct Pending {
    pub last_accepted: u64,
    pub any_accepted: bool,
    pub request_open: bool,
    pub wait_until: Option<u64>,
}

pub fn time(event: &Record) -> u64 {
    u64::from_le_bytes(event[4..12].try_into().unwrap())
}

pub fn of_settings(settings: &Record) -> Option<u8> {
    let well_formed = settings.starts_with(b"LG")
        && settings[4] <= 1
        && settings[11] < 0x40
        && settings[18] <= 1
        && settings[19] == 0;
    if !well_formed {
        Some(1)
    } else if settings[2] > settings[3] {
        Some(3)
    } else {
        None
    }
}

pub fn of_event(event: &Record, pending: &Pending) -> Option<u8> {
    let (kind, at) = (event[2], time(event));
    if !well_formed(event) {
        Some(1)
    } else if at < pending.last_accepted || at > (1 << 62) - 1 {
        Some(5)
    } else if pending.request_open && kind != 5 {
        Some(6)
    } else if !pending.request_open && kind == 5 {
        Some(7)
    } else if kind == 6 && pending.wait_until.is_none_or(|until| at < until) {
        Some(8)
    } else if kind == 0 && pending.any_accepted {
        Some(9)
    } else {
        None
    }
}

pub fn well_formed(event: &Record) -> bool {
    let flags = |places: &[usize]| places.iter().all(|&at| event[at] <= 1);
    let zero_from = |at: usize| event[at..].iter().all(|&byte| byte == 0);
    event.starts_with(b"LE")
        && flags(&[3])
        && match event[2] {
            0 | 6 | 10 | 14 => zero_from(12),
            1 => flags(&[12, 14]) && zero_from(19),
            2 => flags(&[12, 13, 14]) && zero_from(18),
            3 => flags(&[12, 13, 15]),
            4 => flags(&[12]) && zero_from(15),
            5 => event[12] <= 2 && zero_from(14),
            7 => flags(&[12]) && zero_from(13),
            8 => flags(&[12]) && zero_from(18),
            9 => zero_from(13),
            11..=13 => flags(&[12]) && zero_from(14),
            _ => false,
        }
}
