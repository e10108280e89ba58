//! What calls tell, as plain values.
use crate::raw;
use crate::Why;

/// A match: its number, the points that it goes to (1 to 99), and its rules (1 or 2).
#[derive(Clone, Copy, Debug, PartialEq, Eq)]
pub struct Match {
    pub id: u64,
    pub length: u32,
    pub rules: u32,
}

/// Both slots of a party, as they were read; an empty one was never written.
pub type Slots<'a> = [&'a [u8]; 2];

/// What is said of a transcript or a file.
#[derive(Clone, Debug, PartialEq, Eq)]
pub enum Judged {
    /// It has so many entries.
    Fine(u32, String),
    /// The first line that is refused, from 1.
    Refused(u32, String),
    TooLong(String),
}

impl Judged {
    pub(crate) fn of(verdict: raw::Verdict, text: String) -> Judged {
        match verdict.kind {
            0 => Judged::Fine(verdict.number, text),
            1 => Judged::Refused(verdict.number, text),
            _ => Judged::TooLong(text),
        }
    }
}

/// Whose packet it is, and of which match: to route it.
#[derive(Clone, Copy, Debug, PartialEq, Eq)]
pub struct Packet {
    pub id: u64,
    pub rules: u32,
    /// 1 a want, 2 a claim, 3 entries.
    pub kind: u32,
    pub sender: u32,
    pub number: u32,
    pub count: u32,
}

/// What a saved text is of.
#[derive(Clone, Copy, Debug, PartialEq, Eq)]
pub struct Peeked {
    pub of: Match,
    pub party: u32,
    pub save: u32,
    pub entries: u32,
    pub claim: u32,
}

/// What two slots restore. `misplaced` has 1 for slot 0 and 2 for slot 1, where a text belongs into the other one.
#[derive(Clone, Copy, Debug, Default, PartialEq, Eq)]
pub struct Saved {
    pub found: bool,
    pub slot: u32,
    pub save: u32,
    pub entries: u32,
    pub claim: u32,
    pub misplaced: u32,
}

impl Saved {
    pub(crate) fn of(saved: raw::Saved) -> Saved {
        let raw::Saved { found, slot, save, entries, claim, misplaced, .. } = saved;
        Saved { found: found == 1, slot, save, entries, claim, misplaced }
    }
}

/// A packet that is to be sent to a party.
#[derive(Clone, Debug, PartialEq, Eq)]
pub struct Datagram {
    pub to: u32,
    pub packet: Vec<u8>,
}

pub(crate) const NOTHING: raw::Datagram = raw::Datagram { to: 0, length: 0, reserved: [0; 2], bytes: [0; 128] };

impl Datagram {
    pub(crate) fn of(sent: &raw::Datagram) -> Option<Datagram> {
        let packet = &sent.bytes[..sent.length as usize];
        (!packet.is_empty()).then(|| Datagram { to: sent.to, packet: packet.to_vec() })
    }
}

/// What a party made of a packet, in the order of the numbers.
#[derive(Clone, Copy, Debug, PartialEq, Eq)]
pub enum Took {
    Nothing,
    OtherMatch,
    Answered,
    Accepted,
    Ahead,
    NotYourTurn,
    Illegal,
    WordRefused,
    Grew,
    Gap,
    Conflict,
    Invalid,
}

const TOOK: [Took; 12] = [
    Took::Nothing,
    Took::OtherMatch,
    Took::Answered,
    Took::Accepted,
    Took::Ahead,
    Took::NotYourTurn,
    Took::Illegal,
    Took::WordRefused,
    Took::Grew,
    Took::Gap,
    Took::Conflict,
    Took::Invalid,
];

/// What a party made of a packet, and what is to be sent. Save after `Took::Accepted`.
#[derive(Clone, Debug, PartialEq, Eq)]
#[must_use]
pub struct Taken {
    pub kind: Took,
    pub number: u32,
    pub why: Why,
    pub answer: Option<Datagram>,
}

impl Taken {
    pub(crate) fn of(outcome: raw::Outcome, answer: &raw::Datagram) -> Taken {
        let kind = TOOK.get(outcome.kind as usize).copied().unwrap_or(Took::Nothing);
        Taken { kind, number: outcome.number, why: Why(outcome.why), answer: Datagram::of(answer) }
    }
}

/// What a seat claimed, and the number of the entry that answers it.
#[derive(Clone, Debug, PartialEq, Eq)]
pub struct Claim {
    pub number: u32,
    pub action: String,
}

/// What is to happen next in a match, in the order of the numbers.
#[derive(Clone, Copy, Debug, PartialEq, Eq)]
pub enum Phase {
    Opening,
    ToAct,
    Doubled,
    ToMove,
    Resigned,
    Over,
}

const PHASES: [Phase; 6] = [Phase::Opening, Phase::ToAct, Phase::Doubled, Phase::ToMove, Phase::Resigned, Phase::Over];

/// Where a match stands. The checkers are numbered as in bg_standing: \[0\] off, \[25\] on the bar.
#[derive(Clone, Copy, Debug, PartialEq, Eq)]
pub struct Standing {
    pub match_length: u32,
    pub rules: u32,
    pub game: u32,
    pub crawford: bool,
    pub x_score: u32,
    pub o_score: u32,
    pub cube: u32,
    /// 1 X, 2 O; 0 where the cube is in the middle.
    pub cube_owner: u32,
    pub phase: Phase,
    pub player: u32,
    pub level: u32,
    pub dice: [u32; 2],
    /// 0 the referee, 1 X, 2 O, 3 nobody.
    pub actor: u32,
    pub x_pips: u32,
    pub o_pips: u32,
    pub x_checkers: [u32; 26],
    pub o_checkers: [u32; 26],
}

impl Standing {
    pub(crate) fn of(it: &raw::Standing) -> Standing {
        Standing {
            match_length: it.match_length,
            rules: it.rules,
            game: it.game,
            crawford: it.crawford == 1,
            x_score: it.x_score,
            o_score: it.o_score,
            cube: it.cube,
            cube_owner: it.cube_owner,
            phase: PHASES.get(it.phase as usize).copied().unwrap_or(Phase::Over),
            player: it.player,
            level: it.level,
            dice: it.dice,
            actor: it.actor,
            x_pips: it.x_pips,
            o_pips: it.o_pips,
            x_checkers: it.x_checkers,
            o_checkers: it.o_checkers,
        }
    }
}

/// What a party may show: so many entries, their transcript, and where the match stands after them. A referee that
/// holds more has to save; a seat's claim waits for its answer while its number is more than what is held.
#[derive(Clone, Debug, PartialEq, Eq)]
pub struct Shown {
    pub entries: u32,
    pub held: u32,
    pub claim: u32,
    pub standing: Standing,
    pub transcript: String,
}

/// In whose numbers a picture has the points.
#[derive(Clone, Copy, Debug, Default, PartialEq, Eq)]
#[repr(u32)]
pub enum Numbering {
    #[default]
    Mover,
    X,
}

/// What the player who acts may claim, as bits.
pub mod options {
    pub const ROLL: u32 = 1;
    pub const DOUBLE: u32 = 2;
    pub const TAKE: u32 = 4;
    pub const DROP: u32 = 8;
    pub const TURN: u32 = 16;
    pub const RESIGN: u32 = 32;
    pub const ACCEPT: u32 = 64;
    pub const REJECT: u32 = 128;
}
