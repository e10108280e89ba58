//! A referee, two seats and a watcher at one table, over a network that loses, repeats and reorders packets, and slots
//! whose writes are cut short. All of it goes by a seed.
mod store;

use bg_relay::{options, Datagram, Error, Match, Referee, Seat, Took, Watcher};
use store::{Random, Store};

pub const REFEREE: usize = 0;
pub const WATCHER: usize = 3;

#[derive(Default)]
pub struct Counts {
    pub lost: u32,
    pub cut: u32,
    pub restarts: u32,
}

pub struct Table {
    pub of: Match,
    pub random: Random,
    pub counts: Counts,
    pub stores: [Store; 3],
    pub packets: Vec<Datagram>,
    pub referee: Option<Referee>,
    pub seats: [Option<Seat>; 2],
    pub watcher: Watcher,
}

impl Table {
    pub fn new(seed: u64, of: Match) -> Result<Table, Error> {
        let mut table = Table {
            of,
            random: Random(seed),
            counts: Counts::default(),
            stores: Default::default(),
            packets: Vec::new(),
            referee: None,
            seats: [None, None],
            watcher: Watcher::open(3, of)?,
        };
        for number in 0..3 {
            table.open(number)?;
        }
        Ok(table)
    }

    pub fn referee(&mut self) -> &mut Referee {
        self.referee.as_mut().expect("the referee is open")
    }

    pub fn seat(&mut self, number: usize) -> &mut Seat {
        self.seats[number - 1].as_mut().expect("the seat is open")
    }

    /// Opens a party from its slots. The referee and a seat are saved at once, before they send anything.
    fn open(&mut self, number: usize) -> Result<(), Error> {
        let store = match self.stores.get(number) {
            Some(store) => store,
            None => {
                self.watcher = Watcher::open(3, self.of)?;
                return Ok(());
            }
        };
        let is_new = !store.is_saved();
        if number == REFEREE {
            self.referee = Some(Referee::open(store.how(), self.of, store.read())?.0);
        } else {
            self.seats[number - 1] = Some(Seat::open(store.how(), number as u32, self.of, store.read())?.0);
        }
        if is_new {
            self.save(number)
        } else {
            Ok(())
        }
    }

    fn restart(&mut self, number: usize) -> Result<(), Error> {
        self.counts.restarts += 1;
        self.open(number)?;
        if number == REFEREE && self.random.happens(2) {
            // A server that knows who is connected names its peers.
            for peer in 1..=3 {
                let held = self.held(peer)?;
                let taken = self.referee().heard(peer as u32, held)?;
                self.packets.extend(taken.answer);
            }
        }
        Ok(())
    }

    fn held(&mut self, number: usize) -> Result<u32, Error> {
        match number {
            REFEREE => self.referee().held(),
            WATCHER => self.watcher.held(),
            seat => self.seat(seat).held(),
        }
    }

    fn save(&mut self, number: usize) -> Result<(), Error> {
        let (store, random) = (&mut self.stores[number], &mut self.random);
        let is_kept = if number == REFEREE {
            let party = self.referee.take().expect("the referee is open");
            self.referee = store.save(party, random)?;
            self.referee.is_some()
        } else {
            let party = self.seats[number - 1].take().expect("the seat is open");
            self.seats[number - 1] = store.save(party, random)?;
            self.seats[number - 1].is_some()
        };
        if is_kept {
            return self.tick(number);
        }
        self.counts.cut += 1;
        self.open(number)
    }

    fn tick(&mut self, number: usize) -> Result<(), Error> {
        let sent = match number {
            REFEREE => self.referee().tick()?,
            WATCHER => self.watcher.tick()?,
            seat => self.seat(seat).tick()?,
        };
        self.packets.extend(sent);
        Ok(())
    }

    /// Takes a packet that is under way, whichever: it is lost, or comes, or comes and stays under way.
    fn deliver(&mut self) -> Result<(), Error> {
        let at = self.random.below(self.packets.len());
        let stays = self.random.happens(8);
        let Datagram { to, packet } = if stays { self.packets[at].clone() } else { self.packets.swap_remove(at) };
        if self.random.happens(6) {
            self.counts.lost += 1;
            return Ok(());
        }
        let taken = match to as usize {
            REFEREE => {
                let random = &mut self.random;
                self.referee.as_mut().expect("the referee is open").take(&packet, || random.word())?
            }
            WATCHER => self.watcher.take_from(0, &packet)?,
            seat => self.seat(seat).take_from(0, &packet)?,
        };
        let wrong = [Took::OtherMatch, Took::Conflict, Took::Invalid, Took::Illegal];
        assert!(!wrong.contains(&taken.kind), "{taken:?}");
        self.packets.extend(taken.answer);
        if taken.kind == Took::Accepted {
            self.save(REFEREE)
        } else {
            Ok(())
        }
    }

    /// Claims something that the seat may claim, where it acts and has no claim under way.
    fn act(&mut self, number: usize) -> Result<(), Error> {
        let seat = self.seats[number - 1].as_mut().expect("the seat is open");
        let is_waiting = seat.claim()?.is_some_and(|claim| seat.held().is_ok_and(|held| claim.number > held));
        if seat.actor()? != number as u32 || is_waiting {
            return Ok(());
        }
        let (may, mut actions) = (seat.options()?, Vec::new());
        for (option, action) in [
            (options::ROLL, "roll"),
            (options::ROLL, "roll"),
            (options::DOUBLE, "double"),
            (options::TAKE, "take"),
            (options::DROP, "drop"),
            (options::ACCEPT, "accept"),
            (options::REJECT, "reject"),
        ] {
            if may & option != 0 {
                actions.push(action.to_owned());
            }
        }
        if actions.is_empty() {
            actions = seat.turns()?;
        }
        let mut action = actions[self.random.below(actions.len())].as_str();
        if may & options::RESIGN != 0 && self.random.happens(40) {
            action = "resign normal";
        }
        let number_of_it = seat.try_action(number as u32, action)?;
        assert_eq!(seat.choose(action)?, number_of_it);
        self.save(number)
    }

    pub fn round(&mut self) -> Result<(), Error> {
        let random = &mut self.random;
        if self.referee.as_mut().expect("the referee is open").due(|| random.word())?.is_some() {
            self.save(REFEREE)?;
        }
        for seat in 1..=2 {
            self.act(seat)?;
        }
        for number in 0..4 {
            self.tick(number)?;
        }
        for _ in 0..6 {
            if !self.packets.is_empty() {
                self.deliver()?;
            }
        }
        if self.random.happens(20) {
            let number = self.random.below(4);
            self.restart(number)?;
        }
        Ok(())
    }

    /// Returns the records of all: the referee's, those of both seats, and the watcher's.
    pub fn records(&mut self) -> Result<[Vec<String>; 4], Error> {
        let most = u32::MAX;
        Ok([
            self.referee().lines(1, most)?,
            self.seat(1).lines(1, most)?,
            self.seat(2).lines(1, most)?,
            self.watcher.lines(1, most)?,
        ])
    }

    pub fn is_over(&mut self) -> Result<bool, Error> {
        let all_told = self.referee().told()? == self.referee().held()?;
        Ok(all_told
            && self.referee().actor()? == 3
            && self.seat(1).actor()? == 3
            && self.seat(2).actor()? == 3
            && self.watcher.actor()? == 3)
    }
}
