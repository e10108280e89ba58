//! What the referee, a seat and a watcher do each.
use crate::errors::{done, text, Error, Status};
use crate::party::role::{Follows, Saves};
use crate::party::{action_of, Party, Referee, Seat, Watcher};
use crate::raw;
use crate::values::{Claim, Match, Taken, Took};
use std::ptr::null;

// SAFETY of the calls below: the handle is one that is initialised, and stays where it is; each pointer is that of a
// buffer of the length beside it, or of an object that is initialised, and none of them overlap.
impl<R: Saves> Party<R> {
    /// Returns how many entries the referee has saved; 0 of a seat.
    pub fn saved(&self) -> Result<u32, Error> {
        self.number(raw::bg_party_saved)
    }
}

/// Each random word that `words` gives is a new one.
impl Referee {
    /// Adds what is the referee's to add, and returns its number; nothing where nothing is due. Save after a number.
    pub fn due(&mut self, mut words: impl FnMut() -> u32) -> Result<Option<u32>, Error> {
        let mut number = 0;
        loop {
            match done(unsafe { raw::bg_referee_due(self.at(), words(), &mut number) }) {
                Err(Error::Refused(Status::WordRefused)) => {}
                Err(Error::Refused(Status::NotDue)) => return Ok(None),
                status => return status.map(|()| Some(number)),
            }
        }
    }

    /// Takes a packet of an authenticated sender; one that says another sender is refused, with `OtherSender`.
    pub fn take_from(&mut self, sender: u32, packet: &[u8], mut words: impl FnMut() -> u32) -> Result<Taken, Error> {
        let (at, bytes, length) = (self.at(), packet.as_ptr(), packet.len());
        loop {
            let word = words();
            let taken = self.take_by(|outcome, answer| unsafe {
                raw::bg_party_take_from(at, sender, bytes, length, word, outcome, answer)
            })?;
            if taken.kind != Took::WordRefused {
                return Ok(taken);
            }
        }
    }

    /// Takes a packet, and believes what it says of its sender.
    pub fn take(&mut self, packet: &[u8], mut words: impl FnMut() -> u32) -> Result<Taken, Error> {
        let (at, bytes, length) = (self.at(), packet.as_ptr(), packet.len());
        loop {
            let word = words();
            let taken = self
                .take_by(|outcome, answer| unsafe { raw::bg_party_take(at, bytes, length, word, outcome, answer) })?;
            if taken.kind != Took::WordRefused {
                return Ok(taken);
            }
        }
    }

    /// Hears that a peer is there and holds so many entries, as by a packet that asks for the next ones.
    pub fn heard(&mut self, peer: u32, held: u32) -> Result<Taken, Error> {
        let at = self.at();
        self.take_by(|outcome, answer| unsafe { raw::bg_referee_heard(at, peer, held, outcome, answer) })
    }
}

impl<R: Follows> Party<R> {
    /// Takes a packet of the referee's.
    pub fn take(&mut self, packet: &[u8]) -> Result<Taken, Error> {
        let at = self.at();
        self.take_by(|outcome, answer| unsafe {
            raw::bg_party_take(at, packet.as_ptr(), packet.len(), 0, outcome, answer)
        })
    }

    /// Takes a packet of an authenticated sender, which has to be 0, the referee.
    pub fn take_from(&mut self, sender: u32, packet: &[u8]) -> Result<Taken, Error> {
        let at = self.at();
        self.take_by(|outcome, answer| unsafe {
            raw::bg_party_take_from(at, sender, packet.as_ptr(), packet.len(), 0, outcome, answer)
        })
    }
}

impl Seat {
    /// Claims an action, and returns the number of the entry that answers it. Save then: a claim is sent once it is
    /// saved.
    pub fn choose(&mut self, action: &str) -> Result<u32, Error> {
        action_of(|number, why| unsafe { raw::bg_seat_choose(self.at(), action.as_ptr(), action.len(), number, why) })
    }

    /// Returns the last claim. It is answered once the record has so many entries.
    pub fn claim(&self) -> Result<Option<Claim>, Error> {
        let mut number = 0;
        let action =
            text(|out, room, needed| unsafe { raw::bg_party_claim(self.at(), &mut number, out, room, needed) })?;
        Ok((number != 0).then_some(Claim { number, action }))
    }
}

impl Watcher {
    /// Opens a watcher.
    pub fn open(number: u32, of: Match) -> Result<Watcher, Error> {
        let party = Party::fresh();
        if number < 3 {
            return Err(Error::Refused(Status::BadArgument));
        }
        done(unsafe { raw::bg_party_begin(party.at(), number, of.id, of.length, of.rules, null(), 0, null(), 0) })?;
        Ok(party)
    }
}
