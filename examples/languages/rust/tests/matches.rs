//! Whole matches: whatever is lost and cut short, each record is a prefix of the referee's, and that is legal.
mod table;

use bg_relay::{check, judge, mat_export, mat_import, packet_read, saved_peek, slots_read};
use bg_relay::{Error, Judged, Match, Phase};
use table::Table;

fn play(seed: u64, of: Match) -> Result<Table, Error> {
    let mut table = Table::new(seed, of)?;
    let mut longest: Vec<String> = Vec::new();
    for _ in 0..100_000 {
        if table.is_over()? {
            return Ok(table);
        }
        table.round()?;
        let [told, others @ ..] = table.records()?;
        assert!(told.starts_with(&longest), "what was told stays told");
        for record in others {
            assert!(told.starts_with(&record), "a record is a prefix of what the referee tells");
        }
        longest = told;
    }
    panic!("the match does not end");
}

fn check_whole(mut table: Table) -> Result<(), Error> {
    let (of, transcript) = (table.of, table.referee().transcript()?);
    let lines: Vec<String> = transcript.lines().skip(1).map(str::to_owned).collect();
    for record in table.records()? {
        assert_eq!(record, lines);
    }
    let entries = lines.len() as u32;
    let judged = check("table", transcript.as_bytes(), 0)?;
    assert!(matches!(&judged, Judged::Fine(number, text) if *number == entries && text.contains("ok")), "{judged:?}");
    assert!(matches!(judge(transcript.as_bytes())?, Judged::Fine(number, _) if number == entries));
    // (a match file has no offers to resign that were rejected)
    let exported = mat_export(transcript.as_bytes())?;
    assert_eq!(mat_export(mat_import(of.rules, exported.as_bytes())?.as_bytes())?, exported);
    for (party, store) in table.stores.iter().enumerate() {
        let saved = slots_read(party as u32, of, store.read())?;
        assert!(saved.found && saved.misplaced == 0);
        let peeked = saved_peek(&store.slots[saved.slot as usize])?;
        assert_eq!((peeked.of, peeked.party), (of, party as u32));
        assert_eq!((peeked.save, peeked.entries), (saved.save, saved.entries));
    }
    for datagram in &table.packets {
        let packet = packet_read(&datagram.packet)?;
        assert_eq!((packet.id, packet.rules), (of.id, of.rules));
    }
    assert!(table.counts.lost > 0 && table.counts.cut > 0 && table.counts.restarts > 0);
    Ok(())
}

#[test]
fn matches() -> Result<(), Error> {
    for (seed, of) in [
        Match { id: 7, length: 1, rules: 1 },
        Match { id: u64::MAX, length: 3, rules: 2 },
        Match { id: 9, length: 5, rules: 1 },
    ]
    .into_iter()
    .enumerate()
    {
        check_whole(play(88172645463325252 + seed as u64, of)?)?;
    }
    Ok(())
}

#[test]
fn shown() -> Result<(), Error> {
    let mut table = play(11, Match { id: 3, length: 2, rules: 2 })?;
    let (shown, standing, board) = (table.referee().shown()?, table.referee().standing()?, table.referee().board()?);
    assert_eq!(shown.standing, standing);
    assert_eq!((shown.entries, shown.held), (table.referee().saved()?, table.referee().held()?));
    assert_eq!(shown.transcript, table.referee().transcript()?);
    assert_eq!((standing.match_length, standing.rules, standing.phase), (2, 2, Phase::Over));
    let score = format!("length 2 rules 2 game {} score {}-{} ", standing.game, standing.x_score, standing.o_score);
    assert!(board.starts_with(&score), "{board}");
    assert_eq!(table.seat(1).shown()?.standing, standing);
    assert_eq!((table.seat(2).board()?, table.watcher.board()?), (board.clone(), board));
    let lines: Vec<&str> = shown.transcript.lines().collect();
    assert_eq!(table.watcher.lines(2, 3)?, lines[2..5]);
    Ok(())
}
