//! Why something was not done.
use crate::raw;
use std::ffi::CStr;
use std::fmt;

/// What a call answers where it is neither BG_OK nor BG_NO_ROOM, in the order of the numbers, from 2.
#[derive(Clone, Copy, Debug, PartialEq, Eq)]
#[repr(u32)]
pub enum Status {
    Memory = 2,
    BadArgument,
    NotOpen,
    WrongParty,
    NotAPacket,
    NotAnAction,
    Damaged,
    WrongMatch,
    WrongSave,
    SavesSpent,
    NotYourTurn,
    AlreadyClaimed,
    Illegal,
    NotDue,
    WordRefused,
    NotToMove,
    Refused,
    NotEmpty,
    NothingSaved,
    NotASave,
    Busy,
    Closed,
    Copied,
    OtherSender,
    NoXgid,
}

use Status::*;

impl Status {
    /// Every status, in the order of the numbers.
    pub const ALL: [Status; 25] = [
        Memory,
        BadArgument,
        NotOpen,
        WrongParty,
        NotAPacket,
        NotAnAction,
        Damaged,
        WrongMatch,
        WrongSave,
        SavesSpent,
        NotYourTurn,
        AlreadyClaimed,
        Illegal,
        NotDue,
        WordRefused,
        NotToMove,
        Refused,
        NotEmpty,
        NothingSaved,
        NotASave,
        Busy,
        Closed,
        Copied,
        OtherSender,
        NoXgid,
    ];

    /// Returns its name, such as "BG_MEMORY".
    pub fn name(self) -> String {
        // SAFETY: the call hands out a constant text, which a zero byte ends.
        unsafe { CStr::from_ptr(raw::bg_status_name(self as u32)) }.to_string_lossy().into_owned()
    }

    /// Returns what it says, in English.
    pub fn text(self) -> String {
        // SAFETY: the buffer has the length that goes with it.
        text(|out, room, needed| unsafe { raw::bg_status_text(self as u32, out, room, needed) }).unwrap_or_default()
    }
}

/// Why an action does not follow: BG_WHY_.., such as 3 where the phase is another one.
#[derive(Clone, Copy, Debug, PartialEq, Eq)]
pub struct Why(pub u32);

/// Why something was not done.
#[derive(Clone, Copy, Debug, PartialEq, Eq)]
#[non_exhaustive]
pub enum Error {
    /// A call answered so.
    Refused(Status),
    /// The action does not follow the record.
    Illegal(Why),
    /// The line of a match file that is refused.
    Line(u32),
    /// A slot has a saved text that belongs into the other one: whoever goes on writes over the only save.
    Misplaced,
    /// The referee holds entries that are not saved yet, and nobody may see what they say.
    Untold,
    /// A newer library answered a status that this package does not know.
    Unknown(u32),
}

impl fmt::Display for Error {
    fn fmt(&self, f: &mut fmt::Formatter<'_>) -> fmt::Result {
        match self {
            Error::Refused(status) => write!(f, "{}: {}", status.name(), status.text()),
            Error::Illegal(Why(why)) => write!(f, "{}: {} ({why})", Illegal.name(), Illegal.text()),
            Error::Line(line) => write!(f, "{}: line {line}", Refused.name()),
            Error::Misplaced => f.write_str("a saved text is in the wrong slot"),
            Error::Untold => f.write_str("the referee holds entries that are not saved yet"),
            Error::Unknown(status) => write!(f, "status {status}"),
        }
    }
}

impl std::error::Error for Error {}

pub(crate) const OK: u32 = 0;
const NO_ROOM: u32 = 1;

/// Says what a number means: `Ok` where it is BG_OK.
pub(crate) fn done(status: u32) -> Result<(), Error> {
    match Status::ALL.iter().find(|it| **it as u32 == status) {
        None if status == OK => Ok(()),
        Some(status) => Err(Error::Refused(*status)),
        None => Err(Error::Unknown(status)),
    }
}

/// Returns the bytes that a call writes, which is made again where the room is too small.
pub(crate) fn bytes(mut call: impl FnMut(*mut u8, usize, *mut usize) -> u32) -> Result<Vec<u8>, Error> {
    let mut out = vec![0; 1024];
    let mut needed = 0;
    loop {
        let status = call(out.as_mut_ptr(), out.len(), &mut needed);
        if status != NO_ROOM {
            done(status)?;
            out.truncate(needed);
            return Ok(out);
        }
        out.resize(needed, 0);
    }
}

/// Returns the text that a call writes: ASCII, or the UTF-8 that it was handed.
pub(crate) fn text(call: impl FnMut(*mut u8, usize, *mut usize) -> u32) -> Result<String, Error> {
    Ok(String::from_utf8_lossy(&bytes(call)?).into_owned())
}
