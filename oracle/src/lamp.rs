//! The handler under test, the hooks it is made with, and how a play runs on it.
use core::future::{poll_fn, Future};
use core::pin::{pin, Pin};
use core::task::{Context, Poll, Waker};
use std::rc::Rc;

use crate::dm::clusters::app::level_control::*;
use crate::dm::clusters::app::on_off::{self, OnOffHandler, OnOffHooks};
use crate::dm::clusters::scenes::{SceneClusterHandler, SceneInvalidator};
use crate::dm::{Cluster, Ctx, Dataver, EndptId, LifecycleOp};
use crate::error::{Error, ErrorCode};
use crate::play::{self, Record, State};
use crate::stops::{caught, Stop};
use crate::tlv::TLVArray;
use crate::utils::timers::Instant;
use crate::SETTINGS;

// ---- The hooks

/// The hooks of row ROW of the settings: the trait wants constants, so each row is a type.
struct Hooks<const ROW: usize>;

const fn known(row: usize, bit: u8) -> bool {
    SETTINGS[row][11] >> bit & 1 == 1
}

const fn byte(row: usize, bit: u8, at: usize) -> Option<u8> {
    if known(row, bit) {
        Some(SETTINGS[row][at])
    } else {
        None
    }
}

const fn word(row: usize, at: usize) -> u16 {
    u16::from_le_bytes([SETTINGS[row][at], SETTINGS[row][at + 1]])
}

const fn time(row: usize, bit: u8, at: usize) -> Option<u16> {
    if known(row, bit) {
        Some(word(row, at))
    } else {
        None
    }
}

impl<const ROW: usize> LevelControlHooks for Hooks<ROW> {
    const MIN_LEVEL: u8 = SETTINGS[ROW][2];
    const MAX_LEVEL: u8 = SETTINGS[ROW][3];
    const FASTEST_RATE: u8 = SETTINGS[ROW][6];
    const CLUSTER: Cluster<'static> = FULL_CLUSTER.with_features(
        SETTINGS[ROW][4] as u32 * Feature::ON_OFF.bits()
            + SETTINGS[ROW][18] as u32 * Feature::LIGHTING.bits(),
    );
    const OPTIONS: OptionsBitmap = OptionsBitmap::from_bits_retain(SETTINGS[ROW][5]);
    const CURRENT_LEVEL: Option<u8> = byte(ROW, 0, 7);
    const ON_LEVEL: Option<u8> = byte(ROW, 1, 8);
    const START_UP_CURRENT_LEVEL: Option<u8> = byte(ROW, 2, 9);
    const DEFAULT_MOVE_RATE: Option<u8> = byte(ROW, 3, 10);
    const ON_OFF_TRANSITION_TIME: u16 = word(ROW, 12);
    const ON_TRANSITION_TIME: Option<u16> = time(ROW, 4, 14);
    const OFF_TRANSITION_TIME: Option<u16> = time(ROW, 5, 16);

    fn set_device_level(&self, level: u8) -> Result<Option<u8>, ()> {
        play::device(level)
    }

    fn run<F: Fn(OutOfBandMessage)>(&self, notify: F) -> impl Future<Output = ()> {
        poll_fn(move |_| {
            play::posted().map(&notify);
            Poll::Pending
        })
    }
}

/// The hooks of the other side, which the stand-in for its handler never calls.
struct Switch;

impl OnOffHooks for Switch {
    const CLUSTER: Cluster<'static> = on_off::FULL_CLUSTER;
    fn set_on_off(&self, _: bool) {
        unreachable!()
    }
    async fn handle_off_with_effect(&self, _: on_off::EffectVariantEnum) {
        unreachable!()
    }
}

struct Scenes;

impl SceneInvalidator for Scenes {
    fn scenable_attribute_changed(&self, _: EndptId) {
        play::act("S");
    }
}

// ---- The handler, the same for all rows

type Handler<const ROW: usize> = LevelControlHandler<'static, Hooks<ROW>, Switch>;

/// The fields of the state that have no getter; implemented from within the source's module by `derive(ToTLV)`.
pub trait Hidden {
    /// The last-report time and the noted previous level.
    fn hidden(&self) -> (Instant, Option<u8>);
}

pub trait Lamp {
    fn level(&self) -> Option<u8>;
    fn state(&self) -> State;
    fn event(&self, event: &Record) -> Result<(), Error>;
}

impl<const ROW: usize> Lamp for Handler<ROW> {
    fn level(&self) -> Option<u8> {
        ClusterHandler::current_level(self, Ctx)
            .unwrap()
            .into_option()
    }

    fn state(&self) -> State {
        let (last_report, previous) = self.hidden();
        State {
            remaining: self.remaining_time(Ctx).unwrap(),
            on_level: self.on_level(Ctx).unwrap().into_option(),
            options: self.options(Ctx).unwrap().bits(),
            common_time: self.on_off_transition_time(Ctx).unwrap(),
            on_time: self.on_transition_time(Ctx).unwrap().into_option(),
            off_time: self.off_transition_time(Ctx).unwrap().into_option(),
            default_rate: self.default_move_rate(Ctx).unwrap().into_option(),
            start_up: self.start_up_current_level(Ctx).unwrap().into_option(),
            last_report: last_report.as_ticks(),
            previous,
        }
    }

    fn event(&self, e: &Record) -> Result<(), Error> {
        let byte = |at: usize| (e[at] == 1).then_some(e[at + 1]);
        let request = || request(e);
        match (e[2], e[12]) {
            (0, _) => self.lifecycle(Ctx, LifecycleOp::Startup)?,
            (1, 0) => self.handle_move_to_level(Ctx, request())?,
            (1, _) => self.handle_move_to_level_with_on_off(Ctx, request())?,
            (2, 0) => self.handle_move(Ctx, request())?,
            (2, _) => self.handle_move_with_on_off(Ctx, request())?,
            (3, 0) => self.handle_step(Ctx, request())?,
            (3, _) => self.handle_step_with_on_off(Ctx, request())?,
            (4, 0) => self.handle_stop(Ctx, request())?,
            (4, _) => self.handle_stop_with_on_off(Ctx, request())?,
            (6, _) => play::wake(),
            (7, on) => self.coupled_on_off_cluster_on_off_state_change(on == 1),
            (8, _) => {
                let millis = u32::from_le_bytes(e[14..18].try_into().unwrap());
                let pairs = play::scene();
                let pairs = TLVArray(&pairs);
                let mut applied = pin!(self.apply(&Ctx, &pairs, millis));
                let Poll::Ready(result) = applied
                    .as_mut()
                    .poll(&mut Context::from_waker(Waker::noop()))
                else {
                    panic!("a scene's apply waits");
                };
                result?
            }
            (9, level) => play::post(OutOfBandMessage::Update(level)),
            (10, _) => play::post(OutOfBandMessage::Stop),
            (11, _) => self.set_on_level(Ctx, byte(12).into())?,
            (12, _) => self.set_default_move_rate(Ctx, byte(12).into())?,
            (13, _) => self.set_start_up_current_level(Ctx, byte(12).into())?,
            (14, _) => self.lifecycle(Ctx, LifecycleOp::FactoryReset)?,
            (kind, _) => unreachable!("kind {kind}"),
        }
        Ok(())
    }
}

/// The command of an event 1 to 4.
fn request(e: &Record) -> Request<'static> {
    let time = |at: usize| (e[at] == 1).then_some(u16::from_le_bytes([e[at + 1], e[at + 2]]));
    let request = Request {
        down: e[13] == 1,
        ..Request::default()
    };
    match e[2] {
        1 => Request {
            level: e[13],
            transition_time: time(14),
            options_mask: e[17],
            options_override: e[18],
            ..request
        },
        2 => Request {
            rate: (e[14] == 1).then_some(e[15]),
            options_mask: e[16],
            options_override: e[17],
            ..request
        },
        3 => Request {
            step_size: e[14],
            transition_time: time(15),
            options_mask: e[18],
            options_override: e[19],
            ..request
        },
        _ => Request {
            options_mask: e[13],
            options_override: e[14],
            ..request
        },
    }
}

// ---- A play

/// How a play came to its end.
pub enum Ending {
    /// The settings were refused.
    Refused(u8),
    Played,
    /// From this line on the Rust cannot be compared: it borrowed its state twice.
    Cut(usize),
}

/// Runs the play in hand on a lamp with the settings of a row.
pub fn run_play<const ROW: usize>() -> Ending {
    let lamp: Rc<Handler<ROW>> =
        Rc::new(LevelControlHandler::new(Dataver, 1, 1, Hooks).with_scene_invalidator(&Scenes));
    let on_off = (SETTINGS[ROW][4] == 1).then_some(const { &OnOffHandler::new() });
    if let Err(stop) = caught(|| lamp.init(on_off)) {
        return Ending::Refused(validate_number(stop));
    }
    play::set_lamp(lamp.clone());
    let run = pin!(lamp.run(Ctx));
    drive(&*lamp, run)
}

/// Numbers 2 and 4 are the panics of the Rust's `validate`.
fn validate_number(stop: Stop) -> u8 {
    match stop {
        Stop::Panic(message) if message.contains("MAX_LEVEL cannot be higher than 254") => 2,
        Stop::Panic(message)
            if message.contains("MIN_LEVEL cannot be 0 when the LIGHTING feature") =>
        {
            4
        }
        stop => panic!("validate: {stop:?}"),
    }
}

fn drive(lamp: &dyn Lamp, mut run: Pin<&mut dyn Future<Output = Result<(), Error>>>) -> Ending {
    settle(run.as_mut());
    while let Some(event) = play::next_event() {
        let before = play::state();
        if let Some(number) = play::refusal(&event, false) {
            play::write_line(number);
            continue;
        }
        play::begin(&event);
        let result = caught(|| {
            let result = lamp.event(&event);
            if result.is_ok() {
                play::accept();
            }
            settle(run.as_mut());
            result
        });
        let number = match result {
            Ok(Ok(())) => 0,
            Ok(Err(error)) => error_number(error),
            Err(Stop::EndOfPlay) => return Ending::Played,
            Err(Stop::DoubleBorrow) => return Ending::Cut(play::index()),
            Err(Stop::Panic(message))
                if event[2] == 3 && message.contains("attempt to multiply with overflow") =>
            {
                12
            }
            Err(stop) => panic!("line {}: {stop:?}", play::index()),
        };
        if number != 0 {
            assert!(
                play::actions() == 0 && play::state() == before,
                "line {}: refused, but changed",
                play::index()
            );
        }
        play::look();
        play::write_line(number);
    }
    Ending::Played
}

fn error_number(error: Error) -> u8 {
    match error.code() {
        ErrorCode::InvalidCommand => 10,
        ErrorCode::InvalidInState => 11,
        ErrorCode::ConstraintError => 13,
        ErrorCode::InvalidData => 14,
        ErrorCode::Failure => panic!("line {}: Failure returned by a command", play::index()),
    }
}

/// Polls until a poll does nothing: no line is written and no action taken.
fn settle(mut run: Pin<&mut dyn Future<Output = Result<(), Error>>>) {
    loop {
        let before = (play::index(), play::actions());
        let polled = run.as_mut().poll(&mut Context::from_waker(Waker::noop()));
        assert!(polled.is_pending(), "run returned");
        if before == (play::index(), play::actions()) {
            return;
        }
    }
}
