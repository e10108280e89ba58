//! Opening the parties that save, and saving them.
use crate::errors::{bytes, done, Error, Status};
use crate::party::role::Saves;
use crate::party::{Party, Referee, Seat};
use crate::raw;
use crate::texts::is_known;
use crate::values::{Match, Saved, Slots};

/// How a party is to be opened.
#[derive(Clone, Copy, Debug, PartialEq, Eq)]
pub enum Open {
    /// Of a new match: both slots must be empty.
    Begin,
    /// Of a match that goes on: the slots must have a save.
    Resume,
    /// The one or the other, where no save was ever marked: a first save may have been cut short.
    Either,
}

/// A save that is under way: its text goes whole to its slot. It has the party within, so nothing is handed to it and
/// nothing of it is sent. Dropping this is the same as `failed`.
///
/// ```compile_fail,E0382
/// fn tells_too_early(referee: bg_relay::Referee) {
///     let save = referee.save();
///     referee.tick();
/// }
/// ```
#[derive(Debug)]
#[must_use = "a save is to be told what became of its write"]
pub struct Save<R: Saves> {
    party: Party<R>,
    slot: u32,
    number: u32,
    text: Vec<u8>,
}

impl<R: Saves> Save<R> {
    /// Returns the slot that the text goes to, 0 or 1.
    pub fn slot(&self) -> usize {
        self.slot as usize
    }

    /// Returns the number of the save, which a fence asks for.
    pub fn number(&self) -> u32 {
        self.number
    }

    pub fn text(&self) -> &[u8] {
        &self.text
    }

    /// Says that the slot has the text, and keeps it. Tick the party then.
    pub fn written(self) -> Result<Party<R>, Error> {
        // SAFETY: the handle is open, and stays where it is.
        done(unsafe { raw::bg_party_mark_saved(self.party.at(), self.number) })?;
        Ok(self.party)
    }

    /// Says that the text was not written, or that nobody knows. The party is closed: open it again from its slots.
    pub fn failed(self) {}
}

// SAFETY of the calls below: the handle is one that is initialised, and stays where it is; each pointer is that of a
// buffer of the length beside it, or of an object that is initialised, and none of them overlap.
impl<R: Saves> Party<R> {
    /// Begins the next save. Where there is none, as memory lacks, the party comes back.
    pub fn save(self) -> Result<Save<R>, (Party<R>, Error)> {
        let (mut slot, mut number) = (0, 0);
        let text = bytes(|out, room, needed| unsafe {
            raw::bg_party_to_save(self.at(), &mut slot, &mut number, out, room, needed)
        });
        match text {
            Ok(text) => Ok(Save { party: self, slot, number, text }),
            Err(error) => Err((self, error)),
        }
    }

    fn begin_with(number: u32, of: Match, [zero, one]: Slots) -> Result<(Party<R>, Saved), Error> {
        let party = Party::fresh();
        done(unsafe {
            raw::bg_party_begin(
                party.at(),
                number,
                of.id,
                of.length,
                of.rules,
                zero.as_ptr(),
                zero.len(),
                one.as_ptr(),
                one.len(),
            )
        })?;
        Ok((party, Saved::default()))
    }

    fn resume_with(number: u32, of: Match, [zero, one]: Slots) -> Result<(Party<R>, Saved), Error> {
        let (party, mut saved) = (Party::fresh(), raw::Saved::default());
        done(unsafe {
            raw::bg_party_resume(
                party.at(),
                number,
                of.id,
                of.length,
                of.rules,
                zero.as_ptr(),
                zero.len(),
                one.as_ptr(),
                one.len(),
                &mut saved,
            )
        })?;
        if saved.misplaced != 0 {
            return Err(Error::Misplaced);
        }
        Ok((party, Saved::of(saved)))
    }

    fn open_as(how: Open, number: u32, of: Match, slots: Slots) -> Result<(Party<R>, Saved), Error> {
        assert!(is_known(), "the library is another version");
        match how {
            Open::Begin => Party::begin_with(number, of, slots),
            Open::Resume => Party::resume_with(number, of, slots),
            Open::Either if slots == [b"", b""] => Party::begin_with(number, of, slots),
            Open::Either => match Party::resume_with(number, of, slots) {
                Err(Error::Refused(Status::NothingSaved)) => Party::begin_with(number, of, [b"", b""]),
                opened => opened,
            },
        }
    }
}

impl Referee {
    /// Opens the referee, and says what its slots had.
    pub fn open(how: Open, of: Match, slots: Slots) -> Result<(Referee, Saved), Error> {
        Party::open_as(how, 0, of, slots)
    }
}

impl Seat {
    /// Opens the seat of X (1) or O (2), and says what its slots had.
    pub fn open(how: Open, number: u32, of: Match, slots: Slots) -> Result<(Seat, Saved), Error> {
        if !(1..=2).contains(&number) {
            return Err(Error::Refused(Status::BadArgument));
        }
        Party::open_as(how, number, of, slots)
    }
}
