//! The calls that need no party: on transcripts, match files, packets and saved texts.
use crate::errors::{done, text, Error, Status};
use crate::raw;
use crate::values::{Judged, Match, Numbering, Packet, Peeked, Saved, Slots};
use std::ffi::CStr;

// SAFETY of the calls below: each pointer is that of a buffer of the length beside it, or of an object that is
// initialised, and none of them overlap.

/// Returns the version of the library, such as "2.3". BG_ABI is in its name.
pub fn version() -> String {
    unsafe { CStr::from_ptr(raw::bg_version_text()) }.to_string_lossy().into_owned()
}

/// Says whether a program that was built with this package runs with the library.
pub(crate) fn is_known() -> bool {
    unsafe { raw::bg_abi() == 2 && raw::bg_version() >= 203 }
}

/// Judges a transcript: the text has the board after its longest legal part, and the verdict.
pub fn judge(transcript: &[u8]) -> Result<Judged, Error> {
    let mut verdict = raw::Verdict::default();
    let text = text(|out, room, needed| unsafe {
        raw::bg_judge(transcript.as_ptr(), transcript.len(), &mut verdict, out, room, needed)
    })?;
    Ok(Judged::of(verdict, text))
}

/// Returns the line that `bg_relay check` prints of a transcript or a match file. 0 columns are no screen.
pub fn check(name: &str, file: &[u8], columns: u32) -> Result<Judged, Error> {
    let mut verdict = raw::Verdict::default();
    let text = text(|out, room, needed| unsafe {
        raw::bg_check(name.as_ptr(), name.len(), file.as_ptr(), file.len(), columns, &mut verdict, out, room, needed)
    })?;
    Ok(Judged::of(verdict, text))
}

type OfTranscript = unsafe extern "C" fn(*const u8, usize, *mut u8, usize, *mut usize) -> u32;

fn of_transcript(call: OfTranscript, transcript: &[u8]) -> Result<String, Error> {
    text(|out, room, needed| unsafe { call(transcript.as_ptr(), transcript.len(), out, room, needed) })
}

/// Returns the board after a transcript.
pub fn board(transcript: &[u8]) -> Result<String, Error> {
    of_transcript(raw::bg_transcript_board, transcript)
}

/// Splits the lines of turns; there are none where no player is to move.
pub(crate) fn turns_of(text: Result<String, Error>) -> Result<Vec<String>, Error> {
    match text {
        Err(Error::Refused(Status::NotToMove)) => Ok(Vec::new()),
        text => Ok(text?.lines().map(str::to_owned).collect()),
    }
}

/// Returns each legal turn after a transcript, such as "move 8-5 6-5".
pub fn turns(transcript: &[u8]) -> Result<Vec<String>, Error> {
    turns_of(of_transcript(raw::bg_transcript_turns, transcript))
}

/// Returns the transcript of the match that a match file (.mat) tells, whose rules the file does not say.
pub fn mat_import(rules: u32, file: &[u8]) -> Result<String, Error> {
    let mut verdict = raw::Verdict::default();
    let text = text(|out, room, needed| unsafe {
        raw::bg_mat_import(rules, file.as_ptr(), file.len(), &mut verdict, out, room, needed)
    });
    match text {
        Err(Error::Refused(Status::Refused)) => Err(Error::Line(verdict.number)),
        text => text,
    }
}

/// Returns the match file of a transcript.
pub fn mat_export(transcript: &[u8]) -> Result<String, Error> {
    of_transcript(raw::bg_mat_export, transcript)
}

/// Draws the position after a transcript, as SVG.
pub fn picture(transcript: &[u8], numbering: Numbering) -> Result<String, Error> {
    text(|out, room, needed| unsafe {
        raw::bg_picture(transcript.as_ptr(), transcript.len(), numbering as u32, out, room, needed)
    })
}

/// What stands on a page beside the match. A browser asks for it again after so many seconds, unless these are 0.
#[derive(Clone, Copy, Debug, Default)]
pub struct Page<'a> {
    pub title: &'a str,
    pub x: &'a str,
    pub o: &'a str,
    pub numbering: Numbering,
    pub seconds: u32,
}

/// Makes a page of HTML of a whole match.
pub fn page(transcript: &[u8], page: Page) -> Result<String, Error> {
    let Page { title, x, o, numbering, seconds } = page;
    text(|out, room, needed| unsafe {
        raw::bg_page(
            transcript.as_ptr(),
            transcript.len(),
            title.as_ptr(),
            title.len(),
            x.as_ptr(),
            x.len(),
            o.as_ptr(),
            o.len(),
            numbering as u32,
            seconds,
            out,
            room,
            needed,
        )
    })
}

/// Returns the Position ID of GNU Backgammon.
pub fn position_id(transcript: &[u8]) -> Result<String, Error> {
    of_transcript(raw::bg_position_id, transcript)
}

/// Returns the Match ID of GNU Backgammon.
pub fn match_id(transcript: &[u8]) -> Result<String, Error> {
    of_transcript(raw::bg_match_id, transcript)
}

/// Returns the XGID of eXtreme Gammon.
pub fn xgid(transcript: &[u8]) -> Result<String, Error> {
    of_transcript(raw::bg_xgid, transcript)
}

/// Says whose packet it is, and of which match.
pub fn packet_read(packet: &[u8]) -> Result<Packet, Error> {
    let mut read = raw::Packet::default();
    done(unsafe { raw::bg_packet_read(packet.as_ptr(), packet.len(), &mut read) })?;
    let raw::Packet { id, rules, kind, sender, number, count, .. } = read;
    Ok(Packet { id, rules, kind, sender, number, count })
}

/// Says which party and which match a saved text is of.
pub fn saved_peek(saved: &[u8]) -> Result<Peeked, Error> {
    let mut read = raw::Peeked::default();
    done(unsafe { raw::bg_saved_peek(saved.as_ptr(), saved.len(), &mut read) })?;
    let raw::Peeked { id, party, match_length, rules, save, entries, claim, .. } = read;
    Ok(Peeked { of: Match { id, length: match_length, rules }, party, save, entries, claim })
}

/// Says what the two slots of a party restore.
pub fn slots_read(party: u32, of: Match, slots: Slots) -> Result<Saved, Error> {
    let (mut saved, [zero, one]) = (raw::Saved::default(), slots);
    done(unsafe {
        raw::bg_slots_read(
            party,
            of.id,
            of.length,
            of.rules,
            zero.as_ptr(),
            zero.len(),
            one.as_ptr(),
            one.len(),
            &mut saved,
        )
    })?;
    Ok(Saved::of(saved))
}
