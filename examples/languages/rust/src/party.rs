//! The parties of a match, and what they have in common.
use crate::errors::{done, text, Error, Status, OK};
use crate::raw;
use crate::texts::turns_of;
use crate::values::{Datagram, Shown, Standing, Taken, NOTHING};
use crate::Why;
use role::Role;
use std::cell::UnsafeCell;
use std::marker::PhantomData;
use std::ptr::null_mut;

/// What a party is: the referee, a seat, or a watcher.
pub mod role {
    /// The referee, a seat or a watcher.
    pub trait Role {}
    /// A party that saves: the referee or a seat.
    pub trait Saves: Role {}
    /// A party that follows the referee: a seat or a watcher.
    pub trait Follows: Role {}
    #[derive(Debug)]
    pub enum Referee {}
    #[derive(Debug)]
    pub enum Seat {}
    #[derive(Debug)]
    pub enum Watcher {}
    impl Role for Referee {}
    impl Role for Seat {}
    impl Role for Watcher {}
    impl Saves for Referee {}
    impl Saves for Seat {}
    impl Follows for Seat {}
    impl Follows for Watcher {}
}

/// The referee of a match.
pub type Referee = Party<role::Referee>;
/// The seat of X (1) or O (2).
pub type Seat = Party<role::Seat>;
/// Whoever watches (3 to 255). It saves nothing, and begins anew each time.
pub type Watcher = Party<role::Watcher>;

/// A party of a match. It may pass to another thread, and one thread at a time has it. Its handle stands in a box, since
/// it must not move.
#[derive(Debug)]
pub struct Party<R: Role> {
    handle: Box<UnsafeCell<raw::Party>>,
    role: PhantomData<R>,
}

// SAFETY: the library has no state of a thread, and says that a party may pass from thread to thread.
unsafe impl<R: Role> Send for Party<R> {}

impl<R: Role> Drop for Party<R> {
    fn drop(&mut self) {
        // SAFETY: the handle is not used again.
        unsafe { raw::bg_party_close(self.at()) };
    }
}

// SAFETY of the calls below: the handle is one that is initialised, and stays where it is; each pointer is that of a
// buffer of the length beside it, or of an object that is initialised, and none of them overlap.
impl<R: Role> Party<R> {
    /// Makes a party whose handle is not open yet.
    pub(crate) fn fresh() -> Party<R> {
        let handle = raw::Party { inner: null_mut(), place: 0, state: 0, reserved: [0; 3] };
        Party { handle: Box::new(UnsafeCell::new(handle)), role: PhantomData }
    }

    pub(crate) fn at(&self) -> *mut raw::Party {
        self.handle.get()
    }

    pub(crate) fn number(&self, call: unsafe extern "C" fn(*const raw::Party, *mut u32) -> u32) -> Result<u32, Error> {
        let mut number = 0;
        done(unsafe { call(self.at(), &mut number) })?;
        Ok(number)
    }

    /// Returns how many entries the record has.
    pub fn held(&self) -> Result<u32, Error> {
        self.number(raw::bg_party_entries)
    }

    /// Returns how many of them may be shown.
    pub fn told(&self) -> Result<u32, Error> {
        self.number(raw::bg_party_told)
    }

    /// Tells what may be shown, in one call.
    pub fn shown(&self) -> Result<Shown, Error> {
        let mut shown = raw::Shown::default();
        let transcript =
            text(|out, room, needed| unsafe { raw::bg_party_shown(self.at(), &mut shown, out, room, needed) })?;
        let raw::Shown { entries, held, claim, standing, .. } = shown;
        Ok(Shown { entries, held, claim, standing: Standing::of(&standing), transcript })
    }

    /// Returns at most so many entries from the number `first` on, of those that may be shown.
    pub fn lines(&self, first: u32, count: u32) -> Result<Vec<String>, Error> {
        let count = count.min((self.told()? + 1).saturating_sub(first));
        let text = text(|out, room, needed| unsafe {
            raw::bg_party_entries_text(self.at(), first, count, out, room, needed)
        })?;
        Ok(text.lines().map(str::to_owned).collect())
    }

    /// Refuses to tell of a record that has entries which are not saved. The calls below count all entries.
    fn all_told(&self) -> Result<(), Error> {
        if self.told()? == self.held()? {
            Ok(())
        } else {
            Err(Error::Untold)
        }
    }

    pub fn board(&self) -> Result<String, Error> {
        self.all_told()?;
        text(|out, room, needed| unsafe { raw::bg_party_board(self.at(), out, room, needed) })
    }

    pub fn transcript(&self) -> Result<String, Error> {
        self.all_told()?;
        text(|out, room, needed| unsafe { raw::bg_party_transcript(self.at(), out, room, needed) })
    }

    /// Returns each legal turn, such as "move 8-5 6-5"; none where no player is to move.
    pub fn turns(&self) -> Result<Vec<String>, Error> {
        self.all_told()?;
        turns_of(text(|out, room, needed| unsafe { raw::bg_party_turns(self.at(), out, room, needed) }))
    }

    /// Says who acts: 0 the referee, 1 X, 2 O, 3 nobody, as the match is over.
    pub fn actor(&self) -> Result<u32, Error> {
        self.all_told()?;
        self.number(raw::bg_party_actor)
    }

    /// Says what the player who acts may claim, as bits of `options`.
    pub fn options(&self) -> Result<u32, Error> {
        self.all_told()?;
        self.number(raw::bg_party_options)
    }

    pub fn standing(&self) -> Result<Standing, Error> {
        self.all_told()?;
        let mut standing = raw::Standing::default();
        done(unsafe { raw::bg_party_standing(self.at(), &mut standing) })?;
        Ok(Standing::of(&standing))
    }

    /// Returns the number of the entry that would answer an action of a player (1 X, 2 O); nothing is claimed.
    pub fn try_action(&self, player: u32, action: &str) -> Result<u32, Error> {
        self.all_told()?;
        action_of(|number, why| unsafe {
            raw::bg_party_try(self.at(), player, action.as_ptr(), action.len(), number, why)
        })
    }

    pub(crate) fn take_by(
        &mut self, call: impl Fn(*mut raw::Outcome, *mut raw::Datagram) -> u32,
    ) -> Result<Taken, Error> {
        let (mut outcome, mut answer) = (raw::Outcome::default(), NOTHING);
        done(call(&mut outcome, &mut answer))?;
        Ok(Taken::of(outcome, &answer))
    }

    /// Says what is to be sent now: ask about once a second, and at once after a save.
    pub fn tick(&mut self) -> Result<Vec<Datagram>, Error> {
        let (mut first, mut second) = (NOTHING, NOTHING);
        done(unsafe { raw::bg_party_tick(self.at(), &mut first, &mut second) })?;
        Ok([&first, &second].into_iter().filter_map(Datagram::of).collect())
    }
}

/// Makes a call on an action, and returns the number that it sets.
pub(crate) fn action_of(call: impl Fn(*mut u32, *mut u32) -> u32) -> Result<u32, Error> {
    let (mut number, mut why) = (0, 0);
    match done(call(&mut number, &mut why)) {
        Err(Error::Refused(Status::Illegal)) => Err(Error::Illegal(Why(why))),
        status => status.map(|()| number),
    }
}

/// Ticks many parties by one call. Each has a result of its own: a party that refuses is no reason not to tick the
/// others.
pub fn tick_all<R: Role>(parties: &mut [&mut Party<R>]) -> Result<Vec<Result<Vec<Datagram>, Error>>, Error> {
    let handles: Vec<*mut raw::Party> = parties.iter().map(|party| party.at()).collect();
    let none = raw::Ticked { status: OK, count: 0, reserved: [0; 2], packets: [NOTHING; 2] };
    let (mut ticked, mut sending) = (vec![none; handles.len()], 0);
    done(unsafe { raw::bg_parties_tick(handles.as_ptr(), handles.len(), ticked.as_mut_ptr(), &mut sending) })?;
    Ok(ticked
        .iter()
        .map(|one| {
            done(one.status)?;
            Ok(one.packets[..one.count as usize].iter().filter_map(Datagram::of).collect())
        })
        .collect())
}
