use crate::ffi;
use std::time::{Duration, Instant};

/// Microseconds since a start that the host chooses, see [`Clock`]. The calls refuse one above [`Moment::MAX`] as malformed.
#[derive(Clone, Copy, PartialEq, Eq)]
pub struct Moment(pub(crate) ffi::Moment);

/// Microseconds between two moments.
///
/// ```
/// use std::time::Duration;
/// use vignorasc::Span;
///
/// assert_eq!(Span::from(Duration::from_millis(25)), Span::from_micros(25_000));
/// assert_eq!(Duration::from(Span::from_micros(25_000)), Duration::from_millis(25));
/// ```
#[derive(Clone, Copy, PartialEq, Eq)]
pub struct Span(pub(crate) ffi::Span);

impl Moment {
    /// The latest moment: 2^63 - 1 microseconds.
    pub const MAX: Moment = Moment::from_micros((1 << 63) - 1);

    /// So many microseconds after the start.
    #[must_use]
    pub const fn from_micros(us: u64) -> Moment {
        Moment(ffi::Moment { us })
    }

    /// Microseconds since the start.
    #[must_use]
    pub const fn as_micros(self) -> u64 {
        self.0.us
    }

    /// Moment + span, or none if that is above [`Moment::MAX`].
    #[must_use]
    pub fn checked_add(self, span: Span) -> Option<Moment> {
        let us = self.as_micros().checked_add(span.as_micros())?;
        (us <= Moment::MAX.as_micros()).then_some(Moment::from_micros(us))
    }

    /// Moment - moment, or 0 where the other is later.
    #[must_use]
    pub fn saturating_since(self, earlier: Moment) -> Span {
        Span::from_micros(self.as_micros().saturating_sub(earlier.as_micros()))
    }
}

impl Span {
    /// So many microseconds.
    #[must_use]
    pub const fn from_micros(us: u64) -> Span {
        Span(ffi::Span { us })
    }

    /// Its microseconds.
    #[must_use]
    pub const fn as_micros(self) -> u64 {
        self.0.us
    }
}

/// Cut to whole microseconds; a longer one than a span holds becomes the longest.
impl From<Duration> for Span {
    fn from(d: Duration) -> Span {
        Span::from_micros(u64::try_from(d.as_micros()).unwrap_or(u64::MAX))
    }
}

impl From<Span> for Duration {
    fn from(s: Span) -> Duration {
        Duration::from_micros(s.as_micros())
    }
}

// By their numbers: ffi's structs have no order.
impl Ord for Moment {
    fn cmp(&self, other: &Moment) -> std::cmp::Ordering {
        self.as_micros().cmp(&other.as_micros())
    }
}

impl PartialOrd for Moment {
    fn partial_cmp(&self, other: &Moment) -> Option<std::cmp::Ordering> {
        Some(self.cmp(other))
    }
}

impl Ord for Span {
    fn cmp(&self, other: &Span) -> std::cmp::Ordering {
        self.as_micros().cmp(&other.as_micros())
    }
}

impl PartialOrd for Span {
    fn partial_cmp(&self, other: &Span) -> Option<std::cmp::Ordering> {
        Some(self.cmp(other))
    }
}

impl std::fmt::Debug for Moment {
    fn fmt(&self, f: &mut std::fmt::Formatter<'_>) -> std::fmt::Result {
        write!(f, "Moment({} us)", self.as_micros())
    }
}

impl std::fmt::Debug for Span {
    fn fmt(&self, f: &mut std::fmt::Formatter<'_>) -> std::fmt::Result {
        write!(f, "Span({} us)", self.as_micros())
    }
}

/// Between the standard library's instants and the core's moments. One for each connection, or one for all; moments of two clocks aren't comparable.
///
/// ```
/// use std::time::Duration;
/// use vignorasc::{Clock, Moment};
///
/// let clock = Clock::new();
/// let later = clock.start + Duration::from_millis(25);
/// assert_eq!(clock.moment(later), Moment::from_micros(25_000));
/// assert_eq!(clock.instant(Moment::from_micros(25_000)), Some(later));
/// ```
#[derive(Clone, Copy, Debug)]
pub struct Clock {
    /// The instant of moment 0.
    pub start: Instant,
}

impl Clock {
    /// A clock that starts now.
    #[allow(clippy::new_without_default)] // two defaults would differ
    #[must_use]
    pub fn new() -> Clock {
        Clock { start: Instant::now() }
    }

    /// The moment of this instant.
    #[must_use]
    pub fn now(&self) -> Moment {
        self.moment(Instant::now())
    }

    /// Cut to whole microseconds, so whoever wakes at the instant of a deadline finds it expired. An instant before the start is moment 0.
    #[must_use]
    pub fn moment(&self, at: Instant) -> Moment {
        let since = Span::from(at.saturating_duration_since(self.start));
        Moment::from_micros(since.as_micros().min(Moment::MAX.as_micros()))
    }

    /// The instant of the moment; none if the machine's clock can't name it.
    #[must_use]
    pub fn instant(&self, at: Moment) -> Option<Instant> {
        self.start.checked_add(Duration::from_micros(at.as_micros()))
    }
}
