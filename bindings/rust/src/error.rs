//! Why a call did not do what it was asked for.

use std::fmt;

/// Why a call did not do what it was asked for.
#[derive(Clone, Copy, PartialEq, Eq, Debug)]
pub enum Error {
    /// The linked library is none for this crate.
    WrongLibrary,
    /// The room is too small: the next packet has so many bytes.
    TooSmall(usize),
    /// The handle has no sender.
    NotOpen,
    /// The handle has a sender already.
    AlreadyOpen,
    /// Memory ran out; the call has changed nothing.
    NoMemory,
    /// One more call could pass a limit of the sender; it has changed nothing.
    Exhausted,
    /// There is no such class.
    BadClass,
    /// There are more than 65,535 bytes, streams or ids.
    BadSize,
    /// The moment is above 2^50.
    Moment,
    /// As many packets wait as may.
    QueueFull,
    /// From this place on, counted from 0, no packet of RTCP stands; nothing has changed.
    Compound(u32),
    /// There is no such setting.
    BadMask,
    /// The control begins at no such rate.
    BadControl,
    /// The packet fails this check.
    Packet(u32),
    /// The report fails this check.
    Report(u32),
    /// The settings fail this check.
    Settings(u32),
    /// A number that this crate doesn't know.
    Unknown(i32),
}

impl Error {
    pub(crate) fn of(code: i32, place: u32) -> Result<(), Error> {
        if code == 0 {
            return Ok(());
        }
        Err(Error::from_code(code, place))
    }

    pub(crate) fn from_code(code: i32, place: u32) -> Error {
        match code {
            -1 => Error::NotOpen,
            -2 => Error::AlreadyOpen,
            -3 => Error::NoMemory,
            -4 => Error::Exhausted,
            -5 => Error::BadClass,
            -6 => Error::BadSize,
            -7 => Error::Moment,
            -8 => Error::QueueFull,
            -9 => Error::Compound(place),
            -10 => Error::BadMask,
            -11 => Error::BadControl,
            -199..=-101 => Error::Packet((-100 - code) as u32),
            -299..=-201 => Error::Report((-200 - code) as u32),
            -399..=-301 => Error::Settings((-300 - code) as u32),
            _ => Error::Unknown(code),
        }
    }
}

impl fmt::Display for Error {
    fn fmt(&self, f: &mut fmt::Formatter<'_>) -> fmt::Result {
        match self {
            Error::WrongLibrary => write!(f, "the linked library is none for this crate"),
            Error::TooSmall(size) => write!(f, "the room is too small: the next packet has {size} bytes"),
            Error::NotOpen => write!(f, "the handle has no sender"),
            Error::AlreadyOpen => write!(f, "the handle has a sender already"),
            Error::NoMemory => write!(f, "no memory"),
            Error::Exhausted => write!(f, "a limit of the sender is near"),
            Error::BadClass => write!(f, "no such class"),
            Error::BadSize => write!(f, "more than a call takes"),
            Error::Moment => write!(f, "the moment is too large"),
            Error::QueueFull => write!(f, "the queue is full"),
            Error::Compound(place) => write!(f, "no packet of RTCP stands at byte {place}"),
            Error::BadMask => write!(f, "no such setting"),
            Error::BadControl => write!(f, "the control begins at no such rate"),
            Error::Packet(check) => write!(f, "the packet fails check {check}"),
            Error::Report(check) => write!(f, "the report fails check {check}"),
            Error::Settings(check) => write!(f, "the settings fail check {check}"),
            Error::Unknown(code) => write!(f, "unknown result {code}"),
        }
    }
}

impl std::error::Error for Error {}
