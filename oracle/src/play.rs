//! The play in hand: its events, its clock and its sheet. It lives in the thread, one at a time, because the source calls the
//! stand-ins with nothing that could lead them to it.
use std::cell::RefCell;
use std::fmt::{self, Display, Write};
use std::panic::resume_unwind;
use std::rc::Rc;

use crate::dm::clusters::app::level_control::OutOfBandMessage;
use crate::lamp::Lamp;
use crate::refusals::{self, Pending};
use crate::scenes::{self, Pairs};

pub type Record = [u8; 20];

/// Unwinds through the Rust when the records end while the device is asked.
pub struct EndOfPlay;
/// Unwinds through the Rust when it borrows its state a second time.
pub struct DoubleBorrow;

/// What the handler keeps between tasks, besides the level.
#[derive(Clone, Default, PartialEq)]
pub struct State {
    pub remaining: u16,
    pub on_level: Option<u8>,
    pub options: u8,
    pub common_time: u16,
    pub on_time: Option<u16>,
    pub off_time: Option<u16>,
    pub default_rate: Option<u8>,
    pub start_up: Option<u8>,
    pub last_report: u64,
    pub previous: Option<u8>,
}

/// What a play leaves behind.
#[derive(Clone, Copy, Default, PartialEq)]
pub enum Keep {
    #[default]
    Lines,
    /// With the whole state after each.
    LinesAndState,
    /// No text, but all that the lines are made of is read.
    Tally,
    /// Nor is anything read: the handler runs, and its actions are counted.
    BareTally,
}

impl Keep {
    fn has_text(self) -> bool {
        matches!(self, Keep::Lines | Keep::LinesAndState)
    }
}

/// The sums of a play's lines.
#[derive(Clone, Copy, Debug, Default, PartialEq)]
pub struct Tally {
    pub lines: usize,
    pub numbers: usize,
    pub actions: usize,
    /// Of the known levels.
    pub levels: usize,
    /// Of the remaining times.
    pub tenths: usize,
}

#[derive(Default)]
pub struct Play {
    events: std::vec::IntoIter<Record>,
    /// Of the scenes to come, as far as they are given.
    pairs: std::vec::IntoIter<Pairs>,
    /// Of the scene in hand.
    scene: Pairs,
    keep: Keep,
    lamp: Option<Rc<dyn Lamp>>,
    /// Of the event in hand, counted from 1.
    index: usize,
    clock: u64,
    on_off: bool,
    last_accepted: u64,
    any_accepted: bool,
    wait_until: Option<u64>,
    woken: bool,
    message: Option<OutOfBandMessage>,
    cluster_reported: bool,
    actions: Vec<String>,
    /// How many there are, also where they are not kept.
    action_count: usize,
    looking: bool,
    state: State,
    pub sheet: String,
    pub tally: Tally,
}

thread_local! {
    static PLAY: RefCell<Play> = RefCell::default();
}

fn with<R>(f: impl FnOnce(&mut Play) -> R) -> R {
    PLAY.with_borrow_mut(f)
}

pub fn start(events: Vec<Record>, pairs: Vec<Pairs>, keep: Keep) {
    with(|play| {
        *play = Play {
            events: events.into_iter(),
            pairs: pairs.into_iter(),
            keep,
            // As if a look were under way, so that no other begins.
            looking: keep == Keep::BareTally,
            ..Play::default()
        }
    });
}

/// The lamp that is read for each line.
pub fn set_lamp(lamp: Rc<dyn Lamp>) {
    with(|play| play.lamp = Some(lamp));
}

pub fn take() -> Play {
    with(std::mem::take)
}

pub fn index() -> usize {
    with(|play| play.index)
}

// ---- What the stand-ins ask and tell

pub fn now() -> u64 {
    with(|play| play.clock)
}

pub fn on_off() -> bool {
    with(|play| play.on_off)
}

pub fn act(action: impl Display) {
    with(|play| {
        play.action_count += 1;
        if play.keep.has_text() {
            play.actions.push(action.to_string());
        }
    });
}

pub fn actions() -> usize {
    with(|play| play.action_count)
}

pub fn attribute_reported(attribute: u32) {
    act(match attribute {
        0 => "L",
        1 => "R",
        _ => panic!("report of attribute {attribute}"),
    });
}

pub fn cluster_reported() {
    with(|play| play.cluster_reported = true);
}

/// X is both: the cluster's report, then the stored record's removal.
pub fn record_removed() {
    assert!(
        with(|play| play.cluster_reported),
        "record removed before the cluster was reported"
    );
    act("X");
}

/// A failed task shows in the log alone. Start-up's failed device is logged too, and no action.
pub fn log_error(message: &str) {
    match message {
        "Failed to set the device to the startup level." => {}
        task if task.starts_with("Task::") && task.ends_with("Error(InvalidInState)") => act("E11"),
        task if task.starts_with("Task::") && task.ends_with("Error(Failure)") => act("E15"),
        other => panic!("unknown error: {other}"),
    }
}

pub fn open_wait(until: u64) {
    with(|play| {
        assert!(play.wait_until.is_none(), "two waits at once");
        play.wait_until = Some(until);
        play.woken = false;
    });
    act(format_args!("W{until}"));
}

pub fn wake() {
    with(|play| play.woken = true);
}

pub fn woken() -> bool {
    with(|play| play.woken)
}

pub fn close_wait() {
    with(|play| play.wait_until = None);
}

pub fn post(message: OutOfBandMessage) {
    with(|play| play.message = Some(message));
}

pub fn posted() -> Option<OutOfBandMessage> {
    with(|play| play.message.take())
}

pub fn double_borrow() -> ! {
    resume_unwind(Box::new(DoubleBorrow))
}

/// Reads the whole state. The getters borrow it too, and come here again: such a look within a look is passed over.
pub fn look() {
    let looking = with(|play| std::mem::replace(&mut play.looking, true));
    if looking {
        return;
    }
    if let Some(lamp) = with(|play| play.lamp.clone()) {
        let state = lamp.state();
        with(|play| play.state = state);
    }
    with(|play| play.looking = false);
}

pub fn state() -> State {
    look();
    with(|play| play.state.clone())
}

// ---- The device

/// The hook `set_device_level`. The Rust waits here for the device, with its state borrowed, so the line is closed with what
/// the last look saw, and the events up to the accepted answer are taken here.
pub fn device(level: u8) -> Result<Option<u8>, ()> {
    accept();
    act(format_args!("D{level}"));
    write_line(0);
    while let Some(event) = next_event() {
        if let Some(number) = refusal(&event, true) {
            write_line(number);
            continue;
        }
        begin(&event);
        accept();
        return match event[12] {
            0 => Ok(Some(event[13])),
            1 => Ok(None),
            _ => Err(()),
        };
    }
    resume_unwind(Box::new(EndOfPlay))
}

// ---- Events and lines

/// A scene takes its pairs with it, also where it will be refused.
pub fn next_event() -> Option<Record> {
    with(|play| {
        play.index += 1;
        let event = play.events.next()?;
        if event[2] == 8 && refusals::well_formed(&event) {
            play.scene = play
                .pairs
                .next()
                .unwrap_or_else(|| scenes::named_pairs(&event));
        }
        Some(event)
    })
}

/// The pairs of the scene in hand.
pub fn scene() -> Pairs {
    with(|play| std::mem::take(&mut play.scene))
}

pub fn refusal(event: &Record, request_open: bool) -> Option<u8> {
    with(|play| {
        let &mut Play {
            last_accepted,
            any_accepted,
            wait_until,
            ..
        } = play;
        refusals::of_event(
            event,
            &Pending {
                last_accepted,
                any_accepted,
                request_open,
                wait_until,
            },
        )
    })
}

pub fn begin(event: &Record) {
    with(|play| {
        play.clock = refusals::time(event);
        play.on_off = event[3] == 1;
        play.cluster_reported = false;
    });
}

/// Only an accepted event moves the last accepted time.
pub fn accept() {
    with(|play| (play.last_accepted, play.any_accepted) = (play.clock, true));
}

pub fn write_line(number: u8) {
    let bare = with(|play| {
        let actions = std::mem::take(&mut play.action_count);
        assert!(actions <= 7, "more than seven actions");
        play.tally.lines += 1;
        play.tally.numbers += usize::from(number);
        play.tally.actions += actions;
        play.keep == Keep::BareTally
    });
    if bare {
        return;
    }
    let level = with(|play| play.lamp.clone()).expect("a lamp").level();
    with(|play| {
        play.tally.levels += level.map_or(0, usize::from);
        play.tally.tenths += usize::from(play.state.remaining);
        if !play.keep.has_text() {
            return;
        }
        let actions = std::mem::take(&mut play.actions);
        let coupled = actions
            .iter()
            .filter(|action| action.starts_with('C'))
            .count();
        assert!(
            coupled <= 1,
            "two C in one event: the second would see a stale on/off value"
        );
        write!(
            play.sheet,
            "{} {number} {} {}",
            play.index,
            Known(level),
            play.state.remaining
        )
        .unwrap();
        for action in actions {
            write!(play.sheet, " {action}").unwrap();
        }
        play.sheet.push('\n');
        if play.keep == Keep::LinesAndState {
            writeln!(play.sheet, "  = {}", play.state).unwrap();
        }
    });
}

/// A value, or `-` where it is missing.
struct Known<T>(Option<T>);

impl<T: Display> Display for Known<T> {
    fn fmt(&self, f: &mut fmt::Formatter<'_>) -> fmt::Result {
        match &self.0 {
            Some(value) => value.fmt(f),
            None => f.write_str("-"),
        }
    }
}

impl Display for State {
    fn fmt(&self, f: &mut fmt::Formatter<'_>) -> fmt::Result {
        write!(
            f,
            "{} {} {}",
            Known(self.on_level),
            self.options,
            self.common_time
        )?;
        write!(f, " {} {}", Known(self.on_time), Known(self.off_time))?;
        write!(f, " {} {}", Known(self.default_rate), Known(self.start_up))?;
        write!(f, " {} {}", self.last_report, Known(self.previous))
    }
}
