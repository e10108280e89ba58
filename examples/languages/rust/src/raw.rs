//! The calls of bg_relay.h, as they are there, and its structs.
use std::ffi::{c_char, c_void};

#[repr(C)]
pub struct Party {
    pub inner: *mut c_void,
    pub place: usize,
    pub state: u32,
    pub reserved: [u32; 3],
}

#[repr(C)]
#[derive(Clone, Copy, Default)]
pub struct Verdict {
    pub kind: u32,
    pub number: u32,
    pub reserved: [u32; 2],
}

#[repr(C)]
#[derive(Clone, Copy, Default)]
pub struct Packet {
    pub id: u64,
    pub rules: u32,
    pub kind: u32,
    pub sender: u32,
    pub number: u32,
    pub count: u32,
    pub reserved: [u32; 3],
}

#[repr(C)]
#[derive(Clone, Copy, Default)]
pub struct Peeked {
    pub id: u64,
    pub party: u32,
    pub match_length: u32,
    pub rules: u32,
    pub save: u32,
    pub entries: u32,
    pub claim: u32,
    pub reserved: [u32; 4],
}

#[repr(C)]
#[derive(Clone, Copy, Default)]
pub struct Saved {
    pub found: u32,
    pub slot: u32,
    pub save: u32,
    pub entries: u32,
    pub claim: u32,
    pub misplaced: u32,
    pub reserved: [u32; 2],
}

#[repr(C)]
#[derive(Clone, Copy, Default)]
pub struct Standing {
    pub match_length: u32,
    pub rules: u32,
    pub game: u32,
    pub crawford: u32,
    pub x_score: u32,
    pub o_score: u32,
    pub cube: u32,
    pub cube_owner: u32,
    pub phase: u32,
    pub player: u32,
    pub level: u32,
    pub dice: [u32; 2],
    pub actor: u32,
    pub x_pips: u32,
    pub o_pips: u32,
    pub x_checkers: [u32; 26],
    pub o_checkers: [u32; 26],
    pub reserved: [u32; 12],
}

#[repr(C)]
#[derive(Clone, Copy, Default)]
pub struct Shown {
    pub entries: u32,
    pub held: u32,
    pub claim: u32,
    pub reserved: [u32; 5],
    pub standing: Standing,
}

#[repr(C)]
#[derive(Clone, Copy)]
pub struct Datagram {
    pub to: u32,
    pub length: u32,
    pub reserved: [u32; 2],
    pub bytes: [u8; 128],
}

#[repr(C)]
#[derive(Clone, Copy, Default)]
pub struct Outcome {
    pub kind: u32,
    pub number: u32,
    pub why: u32,
    pub reserved: [u32; 5],
}

#[repr(C)]
#[derive(Clone, Copy)]
pub struct Ticked {
    pub status: u32,
    pub count: u32,
    pub reserved: [u32; 2],
    pub packets: [Datagram; 2],
}

unsafe extern "C" {
    pub fn bg_status_name(status: u32) -> *const c_char;
    pub fn bg_status_text(status: u32, out: *mut u8, room: usize, needed: *mut usize) -> u32;
    pub fn bg_abi() -> u32;
    pub fn bg_version() -> u32;
    pub fn bg_version_text() -> *const c_char;
    pub fn bg_judge(
        transcript: *const u8, length: usize, verdict: *mut Verdict, out: *mut u8, room: usize, needed: *mut usize,
    ) -> u32;
    pub fn bg_transcript_board(
        transcript: *const u8, length: usize, out: *mut u8, room: usize, needed: *mut usize,
    ) -> u32;
    pub fn bg_transcript_turns(
        transcript: *const u8, length: usize, out: *mut u8, room: usize, needed: *mut usize,
    ) -> u32;
    pub fn bg_mat_import(
        rules: u32, file: *const u8, length: usize, verdict: *mut Verdict, out: *mut u8, room: usize,
        needed: *mut usize,
    ) -> u32;
    pub fn bg_mat_export(transcript: *const u8, length: usize, out: *mut u8, room: usize, needed: *mut usize) -> u32;
    pub fn bg_picture(
        transcript: *const u8, length: usize, numbering: u32, out: *mut u8, room: usize, needed: *mut usize,
    ) -> u32;
    pub fn bg_page(
        transcript: *const u8, length: usize, title: *const u8, title_length: usize, x: *const u8, x_length: usize,
        o: *const u8, o_length: usize, numbering: u32, seconds: u32, out: *mut u8, room: usize, needed: *mut usize,
    ) -> u32;
    pub fn bg_position_id(transcript: *const u8, length: usize, out: *mut u8, room: usize, needed: *mut usize) -> u32;
    pub fn bg_match_id(transcript: *const u8, length: usize, out: *mut u8, room: usize, needed: *mut usize) -> u32;
    pub fn bg_xgid(transcript: *const u8, length: usize, out: *mut u8, room: usize, needed: *mut usize) -> u32;
    pub fn bg_check(
        name: *const u8, name_length: usize, file: *const u8, length: usize, columns: u32, verdict: *mut Verdict,
        out: *mut u8, room: usize, needed: *mut usize,
    ) -> u32;
    pub fn bg_packet_read(bytes: *const u8, length: usize, packet: *mut Packet) -> u32;
    pub fn bg_saved_peek(bytes: *const u8, length: usize, saved: *mut Peeked) -> u32;
    pub fn bg_slots_read(
        party: u32, id: u64, match_length: u32, rules: u32, slot0: *const u8, length0: usize, slot1: *const u8,
        length1: usize, saved: *mut Saved,
    ) -> u32;
    pub fn bg_party_begin(
        party: *mut Party, number: u32, id: u64, match_length: u32, rules: u32, slot0: *const u8, length0: usize,
        slot1: *const u8, length1: usize,
    ) -> u32;
    pub fn bg_party_resume(
        party: *mut Party, number: u32, id: u64, match_length: u32, rules: u32, slot0: *const u8, length0: usize,
        slot1: *const u8, length1: usize, saved: *mut Saved,
    ) -> u32;
    pub fn bg_party_close(party: *mut Party) -> u32;
    pub fn bg_party_entries(party: *const Party, entries: *mut u32) -> u32;
    pub fn bg_party_saved(party: *const Party, saved: *mut u32) -> u32;
    pub fn bg_party_told(party: *const Party, entries: *mut u32) -> u32;
    pub fn bg_party_board(party: *const Party, out: *mut u8, room: usize, needed: *mut usize) -> u32;
    pub fn bg_party_transcript(party: *const Party, out: *mut u8, room: usize, needed: *mut usize) -> u32;
    pub fn bg_party_turns(party: *const Party, out: *mut u8, room: usize, needed: *mut usize) -> u32;
    pub fn bg_party_entries_text(
        party: *const Party, from: u32, count: u32, out: *mut u8, room: usize, needed: *mut usize,
    ) -> u32;
    pub fn bg_party_actor(party: *const Party, actor: *mut u32) -> u32;
    pub fn bg_party_standing(party: *const Party, standing: *mut Standing) -> u32;
    pub fn bg_party_shown(party: *const Party, shown: *mut Shown, out: *mut u8, room: usize, needed: *mut usize)
        -> u32;
    pub fn bg_referee_due(party: *mut Party, word: u32, number: *mut u32) -> u32;
    pub fn bg_party_take(
        party: *mut Party, packet: *const u8, length: usize, word: u32, outcome: *mut Outcome, answer: *mut Datagram,
    ) -> u32;
    pub fn bg_party_take_from(
        party: *mut Party, sender: u32, packet: *const u8, length: usize, word: u32, outcome: *mut Outcome,
        answer: *mut Datagram,
    ) -> u32;
    pub fn bg_referee_heard(
        party: *mut Party, peer: u32, held: u32, outcome: *mut Outcome, answer: *mut Datagram,
    ) -> u32;
    pub fn bg_seat_choose(party: *mut Party, action: *const u8, length: usize, number: *mut u32, why: *mut u32) -> u32;
    pub fn bg_party_options(party: *const Party, options: *mut u32) -> u32;
    pub fn bg_party_claim(party: *const Party, number: *mut u32, out: *mut u8, room: usize, needed: *mut usize) -> u32;
    pub fn bg_party_try(
        party: *const Party, player: u32, action: *const u8, length: usize, number: *mut u32, why: *mut u32,
    ) -> u32;
    pub fn bg_party_tick(party: *mut Party, first: *mut Datagram, second: *mut Datagram) -> u32;
    pub fn bg_parties_tick(parties: *const *mut Party, count: usize, ticked: *mut Ticked, sending: *mut usize) -> u32;
    pub fn bg_party_to_save(
        party: *mut Party, slot: *mut u32, save: *mut u32, out: *mut u8, room: usize, needed: *mut usize,
    ) -> u32;
    pub fn bg_party_mark_saved(party: *mut Party, save: u32) -> u32;
}
