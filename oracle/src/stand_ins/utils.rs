//! The clock, timers, cells, the signal and the selects.

pub mod cell {
    use crate::play;
    use core::cell::{RefCell as Inner, RefMut};

    /// `core::cell::RefCell`, but the play reads the whole state before each borrow, since it cannot while the device is
    /// asked under one; and a second borrow ends the comparison.
    pub struct RefCell<T>(Inner<T>);

    impl<T> RefCell<T> {
        pub fn new(value: T) -> Self {
            Self(Inner::new(value))
        }
        pub fn borrow_mut(&self) -> RefMut<'_, T> {
            if self.0.try_borrow_mut().is_err() {
                play::double_borrow();
            }
            play::look();
            self.0.borrow_mut()
        }
    }
}

pub mod futures {
    use core::future::{poll_fn, Future};
    use core::pin::pin;
    use core::task::Poll;

    /// Polled in the order of the arguments; the first that is ready wins.
    macro_rules! select {
        ($select:ident, $either:ident, $($future:ident $branch:ident),+) => {
            pub enum $either<$($branch),+> {
                $($branch($branch)),+
            }
            pub async fn $select<$($branch: Future),+>($($future: $branch),+) -> $either<$($branch::Output),+> {
                $(let mut $future = pin!($future);)+
                poll_fn(|cx| {
                    $(if let Poll::Ready(output) = $future.as_mut().poll(cx) {
                        return Poll::Ready($either::$branch(output));
                    })+
                    Poll::Pending
                })
                .await
            }
        };
    }
    select!(select3, Either3, a First, b Second, c Third);
    select!(select4, Either4, a First, b Second, c Third, d Fourth);
}

pub mod sync {
    use core::cell::RefCell;
    use core::future::poll_fn;
    use core::task::Poll;

    pub trait MaybeSend {}
    impl<T: ?Sized> MaybeSend for T {}
    pub trait MaybeSendSync {}
    impl<T: ?Sized> MaybeSendSync for T {}

    pub mod blocking {
        /// One thread: nothing to wait for.
        pub struct Mutex<T>(T);

        impl<T> Mutex<T> {
            pub fn new(value: T) -> Self {
                Self(value)
            }
            pub fn lock<R>(&self, f: impl FnOnce(&T) -> R) -> R {
                f(&self.0)
            }
        }
    }

    /// One slot: a new signal replaces one that nobody took.
    pub struct Signal<S>(RefCell<S>);

    impl<T> Signal<Option<T>> {
        pub fn new(value: Option<T>) -> Self {
            Self(RefCell::new(value))
        }
        pub fn signal(&self, value: T) {
            self.0.replace(Some(value));
        }
        pub async fn wait_signalled(&self) -> T {
            poll_fn(|_| self.0.take().map_or(Poll::Pending, Poll::Ready)).await
        }
    }
}

/// embassy-time's names and roundings, with a clock of 1,000,000 ticks a second that stands at the event in hand.
pub mod timers {
    use crate::play;
    use core::future::Future;
    use core::ops::{Add, Sub, SubAssign};
    use core::pin::Pin;
    use core::task::{Context, Poll};

    const TICK_HZ: u64 = 1_000_000;
    const TICKS_PER_MILLI: u64 = TICK_HZ / 1000;

    #[derive(Clone, Copy, PartialEq, PartialOrd)]
    pub struct Duration(u64);

    impl Duration {
        pub fn from_secs(secs: u64) -> Self {
            Self(secs * TICK_HZ)
        }
        pub fn from_millis(millis: u64) -> Self {
            Self(millis * TICKS_PER_MILLI)
        }
        pub fn from_millis_floor(millis: u64) -> Self {
            Self(millis * TICKS_PER_MILLI)
        }
        /// To the nearest tick.
        pub fn from_hz(hz: u64) -> Self {
            Self((TICK_HZ + hz / 2) / hz)
        }
        pub fn as_millis(&self) -> u64 {
            self.0 / TICKS_PER_MILLI
        }
        pub fn checked_sub(self, other: Self) -> Option<Self> {
            self.0.checked_sub(other.0).map(Self)
        }
    }

    impl Add for Duration {
        type Output = Self;
        fn add(self, other: Self) -> Self {
            Self(self.0 + other.0)
        }
    }

    impl SubAssign for Duration {
        fn sub_assign(&mut self, other: Self) {
            self.0 -= other.0;
        }
    }

    #[derive(Clone, Copy)]
    pub struct Instant(u64);

    impl Instant {
        pub fn now() -> Self {
            Self(play::now())
        }
        pub fn from_millis(millis: u64) -> Self {
            Self(millis * TICKS_PER_MILLI)
        }
        pub fn as_ticks(&self) -> u64 {
            self.0
        }
    }

    impl Sub for Instant {
        type Output = Duration;
        fn sub(self, earlier: Self) -> Duration {
            Duration(self.0 - earlier.0)
        }
    }

    /// Ends only at an accepted wake; a task that is replaced drops it, and with it the wait.
    pub struct Timer;

    impl Timer {
        pub fn after(duration: Duration) -> Self {
            play::open_wait(play::now() + duration.0);
            Self
        }
    }

    impl Future for Timer {
        type Output = ();
        fn poll(self: Pin<&mut Self>, _: &mut Context<'_>) -> Poll<()> {
            if play::woken() {
                Poll::Ready(())
            } else {
                Poll::Pending
            }
        }
    }

    impl Drop for Timer {
        fn drop(&mut self) {
            play::close_wait();
        }
    }
}
