//! The C entry once more, in plain Rust by docs/RULES.md, to be measured beside ours: the state changes in place, and the text goes
//! straight into the lent output. Nothing in it is tuned, and nothing is slower than one would write it anyway.

const RECORD: usize = 20;
const LONGEST_LINE: usize = 189;
const SECOND: u64 = 1_000_000;
const LAST_TIME: u64 = (1 << 62) - 1;

type Record = [u8; RECORD];

/// # Safety
///
/// The two pointers are valid for their lengths, and the slices do not overlap.
pub unsafe extern "C" fn level_control_play(
    records: *const u8,
    records_length: usize,
    out: *mut u8,
    out_length: usize,
) -> i32 {
    let records = std::slice::from_raw_parts(records, records_length);
    let out = std::slice::from_raw_parts_mut(out, out_length);
    match play(records, out) {
        Ok(written) => written as i32,
        Err(number) => -i32::from(number),
    }
}

fn play(records: &[u8], out: &mut [u8]) -> Result<usize, u8> {
    if !(RECORD..=256 * RECORD).contains(&records.len()) || records.len() % RECORD != 0 {
        return Err(1);
    }
    let (settings, events) = records.split_at(RECORD);
    let lamp = Lamp::new(settings.try_into().unwrap())?;
    let room_for_all = out.len() >= LONGEST_LINE * (events.len() / RECORD);
    if !room_for_all && out.len() < write_sheet(lamp.clone(), events, &mut []) {
        return Err(16);
    }
    Ok(write_sheet(lamp, events, out))
}

/// Writes as much as there is room for, and returns the length of the whole text.
fn write_sheet(mut lamp: Lamp, events: &[u8], out: &mut [u8]) -> usize {
    let mut text = Text { out, length: 0 };
    for (index, record) in (1..).zip(events.chunks_exact(RECORD)) {
        let number = match lamp.event(record.try_into().unwrap()) {
            Ok(()) => 0,
            Err(number) => number,
        };
        text.line(index, number, &lamp);
    }
    text.length
}

// ---- Text

struct Text<'a> {
    out: &'a mut [u8],
    length: usize,
}

impl Text<'_> {
    fn byte(&mut self, byte: u8) {
        if let Some(place) = self.out.get_mut(self.length) {
            *place = byte;
        }
        self.length += 1;
    }

    fn decimal(&mut self, mut value: u64) {
        let mut digits = [0; 20];
        let mut first = digits.len();
        loop {
            first -= 1;
            digits[first] = b'0' + (value % 10) as u8;
            value /= 10;
            if value == 0 {
                break;
            }
        }
        for &digit in &digits[first..] {
            self.byte(digit);
        }
    }

    fn line(&mut self, index: u64, number: u8, lamp: &Lamp) {
        self.decimal(index);
        self.byte(b' ');
        self.decimal(number.into());
        self.byte(b' ');
        match lamp.level {
            Some(level) => self.decimal(level.into()),
            None => self.byte(b'-'),
        }
        self.byte(b' ');
        self.decimal(lamp.remaining.into());
        for &action in lamp.actions.all() {
            self.byte(b' ');
            self.action(action);
        }
        self.byte(b'\n');
    }

    fn action(&mut self, action: Action) {
        let (letter, value) = match action {
            Action::D(level) => (b'D', Some(level.into())),
            Action::P => (b'P', None),
            Action::S => (b'S', None),
            Action::C(on) => (b'C', Some(on.into())),
            Action::L => (b'L', None),
            Action::R => (b'R', None),
            Action::W(until) => (b'W', Some(until)),
            Action::E(number) => (b'E', Some(number.into())),
            Action::K => (b'K', None),
            Action::X => (b'X', None),
        };
        self.byte(letter);
        if let Some(value) = value {
            self.decimal(value);
        }
    }
}

#[derive(Clone, Copy)]
enum Action {
    D(u8),
    P,
    S,
    C(bool),
    L,
    R,
    W(u64),
    E(u8),
    K,
    X,
}

#[derive(Clone)]
struct Actions {
    list: [Action; 7],
    count: usize,
}

impl Actions {
    fn all(&self) -> &[Action] {
        &self.list[..self.count]
    }

    fn push(&mut self, action: Action) {
        self.list[self.count] = action;
        self.count += 1;
    }
}

// ---- Records

fn word(record: &Record, at: usize) -> u16 {
    u16::from_le_bytes([record[at], record[at + 1]])
}

fn flag(byte: u8) -> Option<bool> {
    match byte {
        0 => Some(false),
        1 => Some(true),
        _ => None,
    }
}

fn zeros(bytes: &[u8]) -> Option<()> {
    bytes.iter().all(|&byte| byte == 0).then_some(())
}

#[derive(Clone, Copy)]
struct Options {
    mask: u8,
    replacement: u8,
}

impl Options {
    fn read(record: &Record, at: usize) -> Self {
        Self {
            mask: record[at],
            replacement: record[at + 1],
        }
    }

    const STORED: Self = Self {
        mask: 0,
        replacement: 0,
    };
}

#[derive(Clone, Copy)]
enum Answer {
    Level(Option<u8>),
    Failed,
}

struct Event {
    at: u64,
    on: bool,
    kind: Kind,
}

enum Kind {
    StartUp,
    MoveToLevel {
        with_on_off: bool,
        level: u8,
        time: Option<u16>,
        options: Options,
    },
    Move {
        with_on_off: bool,
        down: bool,
        rate: Option<u8>,
        options: Options,
    },
    Step {
        with_on_off: bool,
        down: bool,
        size: u8,
        time: Option<u16>,
        options: Options,
    },
    Stop {
        with_on_off: bool,
        options: Options,
    },
    Answer(Answer),
    Wake,
    OnOffChanged(bool),
    Scene {
        level: Option<u8>,
        millis: u32,
    },
    DeviceUpdate(u8),
    DeviceStop,
    SetOnLevel(Option<u8>),
    SetDefaultRate(Option<u8>),
    SetStartUpLevel(Option<u8>),
    Reset,
}

impl Event {
    /// None where a byte of the record is wrong.
    fn read(record: &Record) -> Option<Self> {
        if !record.starts_with(b"LE") {
            return None;
        }
        Some(Self {
            at: u64::from_le_bytes(record[4..12].try_into().unwrap()),
            on: flag(record[3])?,
            kind: Kind::read(record)?,
        })
    }
}

impl Kind {
    fn read(record: &Record) -> Option<Self> {
        let known_byte = |at: usize| Some(flag(record[at])?.then_some(record[at + 1]));
        let known_word = |at: usize| Some(flag(record[at])?.then_some(word(record, at + 1)));
        let (kind, unnamed) = match record[2] {
            0 => (Kind::StartUp, 12),
            1 => {
                let kind = Kind::MoveToLevel {
                    with_on_off: flag(record[12])?,
                    level: record[13],
                    time: known_word(14)?,
                    options: Options::read(record, 17),
                };
                (kind, 19)
            }
            2 => {
                let kind = Kind::Move {
                    with_on_off: flag(record[12])?,
                    down: flag(record[13])?,
                    rate: known_byte(14)?,
                    options: Options::read(record, 16),
                };
                (kind, 18)
            }
            3 => {
                let kind = Kind::Step {
                    with_on_off: flag(record[12])?,
                    down: flag(record[13])?,
                    size: record[14],
                    time: known_word(15)?,
                    options: Options::read(record, 18),
                };
                (kind, 20)
            }
            4 => {
                let kind = Kind::Stop {
                    with_on_off: flag(record[12])?,
                    options: Options::read(record, 13),
                };
                (kind, 15)
            }
            5 => {
                let answer = match record[12] {
                    0 => Answer::Level(Some(record[13])),
                    1 => Answer::Level(None),
                    2 => Answer::Failed,
                    _ => return None,
                };
                (Kind::Answer(answer), 14)
            }
            6 => (Kind::Wake, 12),
            7 => (Kind::OnOffChanged(flag(record[12])?), 13),
            8 => {
                let kind = Kind::Scene {
                    level: known_byte(12)?,
                    millis: u32::from_le_bytes(record[14..18].try_into().unwrap()),
                };
                (kind, 18)
            }
            9 => (Kind::DeviceUpdate(record[12]), 13),
            10 => (Kind::DeviceStop, 12),
            11 => (Kind::SetOnLevel(known_byte(12)?), 14),
            12 => (Kind::SetDefaultRate(known_byte(12)?), 14),
            13 => (Kind::SetStartUpLevel(known_byte(12)?), 14),
            14 => (Kind::Reset, 12),
            _ => return None,
        };
        zeros(&record[unnamed..])?;
        Some(kind)
    }
}

// ---- The lamp

#[derive(Clone, Copy)]
struct Attributes {
    options: u8,
    on_level: Option<u8>,
    start_up: Option<u8>,
    default_rate: Option<u8>,
    common_time: u16,
    on_time: Option<u16>,
    off_time: Option<u16>,
}

#[derive(Clone, Copy)]
struct Fade {
    with_on_off: bool,
    scene: bool,
    target: u8,
    /// The level asked for last.
    counter: u8,
    tenths: u16,
    millis_left: u32,
    period: u32,
    /// The level to put back at the end of an off fade.
    put_back: Option<u8>,
}

#[derive(Clone, Copy)]
struct Move {
    with_on_off: bool,
    down: bool,
    /// In µs.
    period: u64,
    asked: u8,
}

#[derive(Clone, Copy)]
enum Task {
    Rest,
    StartUp,
    Fade(Fade),
    Move(Move),
    On { before: Option<u8> },
}

#[derive(Clone, Copy)]
enum Pending {
    Nothing,
    Answer { since: u64 },
    Wake { until: u64 },
}

#[derive(Clone)]
struct Lamp {
    min: u8,
    max: u8,
    coupled: bool,
    fastest_rate: u8,
    configured: Attributes,
    attributes: Attributes,
    level: Option<u8>,
    remaining: u16,
    last_report: u64,
    last_accepted: u64,
    any_accepted: bool,
    task: Task,
    pending: Pending,
    /// Time, on/off value and actions of the event in hand.
    now: u64,
    on: bool,
    actions: Actions,
}

impl Lamp {
    fn new(record: &Record) -> Result<Self, u8> {
        let known = |bit: u8| record[11] >> bit & 1 == 1;
        let known_byte = |bit: u8, at: usize| known(bit).then_some(record[at]);
        let known_word = |bit: u8, at: usize| known(bit).then_some(word(record, at));
        let (Some(coupled), Some(lighting)) = (flag(record[4]), flag(record[18])) else {
            return Err(1);
        };
        let (min, max) = (record[2], record[3]);
        if !record.starts_with(b"LG") || record[11] > 63 || record[19] != 0 {
            return Err(1);
        }
        if max > 254 {
            return Err(2);
        }
        if min > max {
            return Err(3);
        }
        if lighting && min == 0 {
            return Err(4);
        }
        let configured = Attributes {
            options: record[5],
            on_level: known_byte(1, 8),
            start_up: known_byte(2, 9),
            default_rate: known_byte(3, 10),
            common_time: word(record, 12),
            on_time: known_word(4, 14),
            off_time: known_word(5, 16),
        };
        Ok(Self {
            min,
            max,
            coupled,
            fastest_rate: record[6],
            configured,
            attributes: configured,
            level: known_byte(0, 7),
            remaining: 0,
            last_report: 0,
            last_accepted: 0,
            any_accepted: false,
            task: Task::Rest,
            pending: Pending::Nothing,
            now: 0,
            on: false,
            actions: Actions {
                list: [Action::X; 7],
                count: 0,
            },
        })
    }

    /// Plays an event, or gives the number that refuses it.
    fn event(&mut self, record: &Record) -> Result<(), u8> {
        self.actions.count = 0;
        let event = Event::read(record).ok_or(1)?;
        self.take_turn(&event)?;
        self.now = event.at;
        self.on = event.on;
        self.run(event.kind)?;
        self.last_accepted = event.at;
        self.any_accepted = true;
        Ok(())
    }

    /// Numbers 5 to 9.
    fn take_turn(&self, event: &Event) -> Result<(), u8> {
        if event.at < self.last_accepted || event.at > LAST_TIME {
            return Err(5);
        }
        match (&event.kind, self.pending) {
            (Kind::Answer(_), Pending::Answer { .. }) => Ok(()),
            (_, Pending::Answer { .. }) => Err(6),
            (Kind::Answer(_), _) => Err(7),
            (Kind::Wake, Pending::Wake { until }) if event.at >= until => Ok(()),
            (Kind::Wake, _) => Err(8),
            (Kind::StartUp, _) if self.any_accepted => Err(9),
            _ => Ok(()),
        }
    }

    fn run(&mut self, kind: Kind) -> Result<(), u8> {
        match kind {
            Kind::StartUp => self.start_up(),
            Kind::MoveToLevel {
                with_on_off,
                level,
                time,
                options,
            } => {
                if level > 254 || self.should_continue(with_on_off, options) {
                    self.move_to_level(level, time.unwrap_or(0), with_on_off, false, None);
                }
            }
            Kind::Move {
                with_on_off,
                down,
                rate,
                options,
            } => self.move_command(with_on_off, down, rate, options)?,
            Kind::Step {
                with_on_off,
                down,
                size,
                time,
                options,
            } => self.step(with_on_off, down, size, time.unwrap_or(0), options)?,
            Kind::Stop {
                with_on_off,
                options,
            } => {
                if self.should_continue(with_on_off, options) {
                    self.stop();
                }
            }
            Kind::Answer(answer) => self.answered(answer),
            Kind::Wake => self.woken(),
            Kind::OnOffChanged(true) => {
                self.task = Task::On { before: self.level };
                self.ask(self.min);
            }
            Kind::OnOffChanged(false) => {
                let time = self
                    .attributes
                    .off_time
                    .unwrap_or(self.attributes.common_time);
                self.move_to_level(self.min, time, true, false, self.level);
            }
            Kind::Scene { level, millis } => {
                if let Some(level) = level {
                    if level > 254 || self.should_continue(false, Options::STORED) {
                        let time = u16::try_from(millis / 100).unwrap_or(u16::MAX);
                        self.move_to_level(level, time, false, true, None);
                    }
                }
            }
            Kind::DeviceUpdate(level) => {
                self.rest();
                self.set_level(Some(level), true, false);
                self.actions.push(Action::L);
                self.write_remaining_time(0, false);
            }
            Kind::DeviceStop => self.stop(),
            Kind::SetOnLevel(level) => {
                self.check_bounds(level)?;
                self.attributes.on_level = level;
                self.actions.push(Action::K);
            }
            Kind::SetDefaultRate(rate) => {
                if rate == Some(0) {
                    return Err(14);
                }
                self.attributes.default_rate = rate;
                self.actions.push(Action::K);
            }
            Kind::SetStartUpLevel(level) => {
                self.check_bounds(level)?;
                self.attributes.start_up = level;
                self.actions.push(Action::K);
            }
            Kind::Reset => {
                self.rest();
                self.attributes = self.configured;
                self.remaining = 0;
                self.last_report = 0;
                self.actions.push(Action::X);
            }
        }
        Ok(())
    }

    // ---- Remaining time, Options, Level reports, Coupling

    /// With R if a report is due.
    fn write_remaining_time(&mut self, millis: u32, start: bool) {
        let new = millis.div_ceil(100) as u16;
        let old = std::mem::replace(&mut self.remaining, new);
        if old != 0 && new == 0 || old == 0 && new > 10 || start && new.abs_diff(old) > 10 {
            self.actions.push(Action::R);
        }
    }

    fn should_continue(&self, with_on_off: bool, options: Options) -> bool {
        let bits = if options.mask & 1 == 1 {
            options.replacement
        } else {
            self.attributes.options
        };
        with_on_off || !self.coupled || self.on || bits & 1 == 1
    }

    fn store_level(&mut self, level: Option<u8>) {
        if level != self.level {
            self.actions.push(Action::P);
            self.level = level;
        }
    }

    /// True if a level report is due.
    fn set_level(&mut self, level: Option<u8>, end: bool, scene: bool) -> bool {
        let before = self.level;
        self.store_level(level);
        if !scene {
            self.actions.push(Action::S);
        }
        let due =
            self.now - self.last_report >= SECOND || end || before.is_none() || level.is_none();
        if due {
            self.last_report = self.now;
        }
        due
    }

    fn couple(&mut self, level: u8, with_on_off: bool) {
        let wanted = level > self.min;
        if with_on_off && self.coupled && wanted != self.on {
            self.actions.push(Action::C(wanted));
        }
    }

    // ---- Tasks

    fn ask(&mut self, level: u8) {
        self.actions.push(Action::D(level));
        self.pending = Pending::Answer { since: self.now };
    }

    fn wait(&mut self, until: u64) {
        self.actions.push(Action::W(until));
        self.pending = Pending::Wake { until };
    }

    fn rest(&mut self) {
        self.task = Task::Rest;
        self.pending = Pending::Nothing;
    }

    fn fail(&mut self, number: u8) {
        self.actions.push(Action::E(number));
        self.rest();
    }

    fn answered(&mut self, answer: Answer) {
        let Pending::Answer { since } = self.pending else {
            return;
        };
        self.pending = Pending::Nothing;
        match (self.task, answer) {
            (Task::Rest, _) => {}
            (Task::StartUp, Answer::Level(level)) => {
                self.store_level(level);
                self.rest();
            }
            (Task::StartUp, Answer::Failed) => self.rest(),
            (_, Answer::Failed) => self.fail(15),
            (Task::Fade(fade), Answer::Level(level)) => self.fade_answered(fade, since, level),
            (Task::Move(moving), Answer::Level(level)) => self.move_answered(moving, since, level),
            (Task::On { before }, Answer::Level(level)) => self.on_answered(before, level),
        }
    }

    fn woken(&mut self) {
        self.pending = Pending::Nothing;
        match self.task {
            Task::Fade(fade) => self.ask_fade(fade),
            Task::Move(moving) => self.ask_move(moving),
            Task::Rest | Task::StartUp | Task::On { .. } => {}
        }
    }

    fn start_up(&mut self) {
        let level = match self.attributes.start_up {
            Some(level) => Some(level.clamp(self.min, self.max)),
            None => self.level,
        };
        if let Some(level) = level {
            self.task = Task::StartUp;
            self.ask(level);
        }
    }

    fn stop(&mut self) {
        self.rest();
        self.write_remaining_time(0, false);
    }

    fn check_bounds(&self, level: Option<u8>) -> Result<(), u8> {
        match level {
            Some(level) if level < self.min || level > self.max => Err(13),
            _ => Ok(()),
        }
    }

    // ---- Fades

    fn step(
        &mut self,
        with_on_off: bool,
        down: bool,
        size: u8,
        mut tenths: u16,
        options: Options,
    ) -> Result<(), u8> {
        if size == 0 {
            return Err(10);
        }
        if !self.should_continue(with_on_off, options) {
            return Ok(());
        }
        let level = self.level.ok_or(11)?;
        let target = if down {
            level.saturating_sub(size).max(self.min)
        } else {
            level.saturating_add(size).min(self.max)
        };
        let actual = level.abs_diff(target);
        if actual != size {
            tenths = tenths.checked_mul(actual.into()).ok_or(12)? / u16::from(size);
        }
        self.move_to_level(target, tenths, with_on_off, false, None);
        Ok(())
    }

    fn move_to_level(
        &mut self,
        target: u8,
        tenths: u16,
        with_on_off: bool,
        scene: bool,
        put_back: Option<u8>,
    ) {
        let target = if target > 254 {
            target
        } else {
            target.clamp(self.min, self.max)
        };
        self.rest();
        let Some(level) = self.level else {
            return self.fail(11);
        };
        if level == target {
            self.couple(target, with_on_off);
            return self.put_level_back(put_back);
        }
        let millis = 100 * u32::from(tenths);
        self.ask_fade(Fade {
            with_on_off,
            scene,
            target,
            counter: level,
            tenths,
            millis_left: millis,
            period: millis / u32::from(target.abs_diff(level)),
            put_back,
        });
    }

    fn ask_fade(&mut self, mut fade: Fade) {
        if fade.tenths == 0 {
            fade.counter = fade.target;
        } else if fade.counter < fade.target {
            fade.counter += 1;
        } else {
            fade.counter -= 1;
        }
        self.task = Task::Fade(fade);
        self.ask(fade.counter);
    }

    fn fade_answered(&mut self, mut fade: Fade, since: u64, level: Option<u8>) {
        let end = fade.counter == fade.target;
        let start = fade.millis_left == 100 * u32::from(fade.tenths);
        let level_due = self.set_level(level, end, fade.scene);
        let Some(level) = level else {
            return self.fail(15);
        };
        if start || end {
            self.couple(level, fade.with_on_off);
        }
        fade.millis_left = if end {
            0
        } else {
            fade.millis_left.saturating_sub(fade.period)
        };
        if level_due {
            self.actions.push(Action::L);
        }
        self.write_remaining_time(fade.millis_left, start);
        if end {
            self.rest();
            return self.put_level_back(fade.put_back);
        }
        let until = since + 1000 * u64::from(fade.period);
        if until >= self.now {
            self.task = Task::Fade(fade);
            self.wait(until);
        } else {
            self.ask_fade(fade);
        }
    }

    /// What follows an off fade that came to its end.
    fn put_level_back(&mut self, before: Option<u8>) {
        if before.is_some() && self.attributes.on_level.is_none() {
            self.store_level(before);
            self.actions.push(Action::L);
        }
    }

    fn on_answered(&mut self, before: Option<u8>, level: Option<u8>) {
        if self.set_level(level, false, false) {
            self.actions.push(Action::L);
        }
        let Attributes {
            on_level,
            on_time,
            common_time,
            ..
        } = self.attributes;
        match (level, on_level.or(before)) {
            (Some(_), Some(target)) => {
                self.move_to_level(target, on_time.unwrap_or(common_time), true, false, None)
            }
            _ => self.fail(15),
        }
    }

    // ---- Moves

    fn move_command(
        &mut self,
        with_on_off: bool,
        down: bool,
        rate: Option<u8>,
        options: Options,
    ) -> Result<(), u8> {
        let rate = rate
            .or(self.attributes.default_rate)
            .unwrap_or(self.fastest_rate);
        if rate == 0 {
            return Err(10);
        }
        let limit = if down { self.min } else { self.max };
        if self.should_continue(with_on_off, options) && self.level != Some(limit) {
            self.rest();
            let rate = u64::from(rate);
            self.ask_move(Move {
                with_on_off,
                down,
                period: (SECOND + rate / 2) / rate,
                asked: 0,
            });
        }
        Ok(())
    }

    fn ask_move(&mut self, mut moving: Move) {
        let Some(level) = self.level else {
            return self.fail(11);
        };
        let asked = if moving.down {
            level.checked_sub(1)
        } else {
            level.checked_add(1)
        };
        let Some(asked) = asked else {
            return self.rest();
        };
        if level == self.min && asked > self.min {
            self.couple(asked, moving.with_on_off);
        }
        moving.asked = asked;
        self.task = Task::Move(moving);
        self.ask(asked);
    }

    fn move_answered(&mut self, moving: Move, since: u64, level: Option<u8>) {
        let end = moving.asked == self.min || moving.asked == self.max;
        if self.set_level(level, end, false) {
            self.actions.push(Action::L);
        }
        let Some(level) = level else {
            return self.fail(15);
        };
        if end {
            self.couple(level, moving.with_on_off);
            return self.rest();
        }
        let until = since + moving.period;
        if until >= self.now {
            self.wait(until);
        } else {
            self.ask_move(moving);
        }
    }
}
