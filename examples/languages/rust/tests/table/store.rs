//! What a party keeps, and numbers that are as good as random.
use bg_relay::role::Saves;
use bg_relay::{Error, Open, Party};

/// Numbers that are as good as random, and the same on each machine.
pub struct Random(pub u64);

impl Random {
    pub fn word(&mut self) -> u32 {
        self.0 ^= self.0 << 13;
        self.0 ^= self.0 >> 7;
        self.0 ^= self.0 << 17;
        (self.0 >> 32) as u32
    }

    pub fn below(&mut self, limit: usize) -> usize {
        self.word() as usize % limit
    }

    pub fn happens(&mut self, one_in: usize) -> bool {
        self.below(one_in) == 0
    }
}

/// The slots of a party, and whether a save of it was ever marked.
#[derive(Default)]
pub struct Store {
    pub slots: [Vec<u8>; 2],
    is_saved: bool,
}

impl Store {
    pub fn is_saved(&self) -> bool {
        self.is_saved
    }

    pub fn how(&self) -> Open {
        if self.is_saved {
            Open::Resume
        } else {
            Open::Either
        }
    }

    pub fn read(&self) -> [&[u8]; 2] {
        [&self.slots[0], &self.slots[1]]
    }

    /// Saves a party; where the write is cut short there is none any more.
    pub fn save<R: Saves>(&mut self, party: Party<R>, random: &mut Random) -> Result<Option<Party<R>>, Error> {
        let save = party.save().map_err(|(_, error)| error)?;
        if random.happens(12) {
            self.slots[save.slot()] = save.text()[..random.below(save.text().len())].to_vec();
            save.failed();
            return Ok(None);
        }
        self.slots[save.slot()] = save.text().to_vec();
        self.is_saved = true;
        Ok(Some(save.written()?))
    }
}
