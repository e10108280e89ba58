//! The relay of bg_relay.h, safely: what a referee, a seat and a watcher of a match do, and texts of matches.
//!
//! A party is closed when it is dropped. A save under way is a value that has the party within: until it is told what
//! became of its write, nobody can hand the party anything, or send what it says. A save that failed closes the party,
//! which goes on from its slots.
//!
//! The library opens nothing and waits for nothing: the program carries the packets, and keeps the slots.
//! include/bg_relay.h has all that a call promises, and docs/USING.md the way from here to a server.
mod errors;
mod party;
mod raw;
mod roles;
mod saves;
mod texts;
mod values;

pub use errors::{Error, Status, Why};
pub use party::{role, tick_all, Party, Referee, Seat, Watcher};
pub use saves::{Open, Save};
pub use texts::{
    board, check, judge, mat_export, mat_import, match_id, packet_read, page, picture, position_id, saved_peek,
    slots_read, turns, version, xgid, Page,
};
pub use values::{
    options, Claim, Datagram, Judged, Match, Numbering, Packet, Peeked, Phase, Saved, Shown, Slots, Standing, Taken,
    Took,
};
