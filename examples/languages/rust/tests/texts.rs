//! The calls that need no party, beside what docs/FORMATS.md says of the same texts.
use bg_relay::*;

const SEVEN: &[u8] = b"length 7\nopen 3 1\n";
const MOVED: &str = "length 1\nopen 3 1\nX move 8-5 6-5\n";
const FILE: &[u8] = b" 1 point match\n\n Game 1\n Ada : 0   Zoe : 0\n 1) 31: 8/5 6/5\n";
const SAVED: &[u8] = b"BGS2\0\0\0\0\0\0\0\0\x01\x01\x01\0\0\0\x02\0\0\0\0\x02\x01\x03\x01\x06\x02\x08\x05\x06\x05";

fn refused<T>(result: Result<T, Error>, status: Status) {
    assert_eq!(result.err(), Some(Error::Refused(status)));
}

#[test]
fn statuses() {
    for status in Status::ALL {
        let words: String = format!("{status:?}").to_uppercase();
        assert_eq!(status.name().replace(['_'], ""), format!("BG{words}"));
        assert!(!status.text().is_empty());
    }
    assert_eq!(Error::Misplaced.to_string(), "a saved text is in the wrong slot");
    assert!(Error::Refused(Status::Memory).to_string().starts_with("BG_MEMORY: "));
    assert!(version().starts_with("2."));
}

#[test]
fn transcripts() -> Result<(), Error> {
    let judged = judge(MOVED.as_bytes())?;
    assert!(
        matches!(&judged, Judged::Fine(2, text) if text.starts_with("length 1 game 1 ") && text.ends_with("ok 2\n"))
    );
    assert!(matches!(judge(b"length 1\nopen 3 3\n")?, Judged::Refused(2, _)));
    assert!(board(MOVED.as_bytes())?.contains("O to roll"));
    assert!(turns(SEVEN)?.contains(&"move 8-5 6-5".to_owned()));
    assert!(turns(MOVED.as_bytes())?.is_empty());
    refused(turns(b"length 0\n"), Status::Refused);
    refused(board(b"\xff"), Status::Refused);
    assert_eq!(check("a.txt", MOVED.as_bytes(), 0)?, Judged::Fine(2, "a.txt: ok 2, not over\n".to_owned()));
    assert!(matches!(check("a", b"length 1\nopen 3 3\n", 0)?, Judged::Refused(2, _)));
    Ok(())
}

#[test]
fn match_files() -> Result<(), Error> {
    assert_eq!(mat_import(1, FILE)?, MOVED);
    assert_eq!(mat_import(2, FILE)?, MOVED.replacen('\n', " rules 2\n", 1));
    assert_eq!(mat_import(1, mat_export(MOVED.as_bytes())?.as_bytes())?, MOVED);
    assert_eq!(mat_import(1, b"0 point match\n").err(), Some(Error::Line(1)));
    refused(mat_import(3, FILE), Status::BadArgument);
    Ok(())
}

#[test]
fn drawings() -> Result<(), Error> {
    let drawn = picture(SEVEN, Numbering::X)?;
    assert!(drawn.starts_with("<svg ") && drawn.contains("<title>X to move 3 1</title>"));
    let named = Page { title: "Ada & Zoe", x: "\u{c4}nne", o: "Zoe", ..Page::default() };
    let text = page(MOVED.as_bytes(), named)?;
    assert!(text.contains("<title>Ada &amp; Zoe</title>"));
    let x = text.find("\u{c4}nne").expect("the name of X");
    assert!(text[x..].contains("Zoe"));
    assert_ne!(text, page(MOVED.as_bytes(), Page { x: "Zoe", o: "\u{c4}nne", ..named })?);
    assert_ne!(text, page(MOVED.as_bytes(), Page { seconds: 5, ..named })?);
    refused(page(MOVED.as_bytes(), Page { seconds: 65536, ..named }), Status::BadArgument);
    Ok(())
}

#[test]
fn ids() -> Result<(), Error> {
    assert_eq!(position_id(SEVEN)?, "4HPwATDgc/ABMA");
    assert_eq!(match_id(SEVEN)?, "cInlAAAAAAAE");
    assert_eq!(xgid(SEVEN)?, "XGID=-b----E-C---eE---c-e----B-:0:0:1:31:0:0:0:7:7");
    refused(xgid(b"length 7\n"), Status::NoXgid);
    Ok(())
}

#[test]
fn saved_bytes() -> Result<(), Error> {
    let of = Match { id: 1, length: 1, rules: 1 };
    let read = packet_read(b"BG\x02\x01\0\0\0\0\0\0\0\x01\x01\x03\0\0\0\x05")?;
    assert_eq!(read, Packet { id: 1, rules: 1, kind: 1, sender: 3, number: 5, count: 0 });
    refused(packet_read(b"BG"), Status::NotAPacket);
    assert_eq!(saved_peek(SAVED)?, Peeked { of, party: 0, save: 2, entries: 2, claim: 0 });
    refused(saved_peek(b"BG"), Status::NotASave);
    let saved = Saved { found: true, slot: 0, save: 2, entries: 2, claim: 0, misplaced: 0 };
    assert_eq!(slots_read(0, of, [SAVED, b""])?, saved);
    assert_eq!(slots_read(0, of, [b"", SAVED])?.misplaced, 2);
    refused(slots_read(1, of, [SAVED, b""]), Status::WrongMatch);
    Ok(())
}
