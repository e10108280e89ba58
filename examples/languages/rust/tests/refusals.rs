//! What parties refuse: wrong numbers, a wrong order, and packets of others. That nothing is handed to a party while a
//! save is under way is seen by the compiler: see the documentation of `Save`.
use bg_relay::{options, packet_read, tick_all};
use bg_relay::{Claim, Error, Match, Open, Phase, Referee, Seat, Status, Took, Watcher, Why};

const OF: Match = Match { id: 1, length: 1, rules: 1 };
const NONE: [&[u8]; 2] = [b"", b""];
/// The seat of X claims that entry 2 is the move 8-5 6-5; party 3 asks for the entries from the first on.
const CLAIM: &[u8] = b"BG\x02\x02\0\0\0\0\0\0\0\x01\x01\x01\0\0\0\x02\x06\x02\x08\x05\x06\x05";
const WANT: &[u8] = b"BG\x02\x01\0\0\0\0\0\0\0\x01\x01\x03\0\0\0\0";

fn refused<T>(result: Result<T, Error>, status: Status) {
    assert_eq!(result.err(), Some(Error::Refused(status)));
}

/// The dice 3 and 1.
fn three_one() -> u32 {
    12
}

/// A referee with a saved opening, the text of its slot 1, and the seat of X that knows of it.
fn opened() -> Result<(Referee, Vec<u8>, Seat), Error> {
    let (mut referee, _) = Referee::open(Open::Begin, OF, NONE)?;
    let (mut seat, _) = Seat::open(Open::Begin, 1, OF, NONE)?;
    assert_eq!(referee.due(three_one)?, Some(1));
    let save = referee.save().map_err(|(_, error)| error)?;
    assert_eq!((save.slot(), save.number()), (1, 1));
    let text = save.text().to_vec();
    referee = save.written()?;
    let answer = referee.heard(1, 0)?.answer.expect("the opening");
    assert_eq!(seat.take(&answer.packet)?.kind, Took::Grew);
    Ok((referee, text, seat))
}

#[test]
fn numbers() -> Result<(), Error> {
    for (length, rules) in [(0, 1), (100, 1), (257, 1), (1, 0), (1, 3)] {
        refused(Referee::open(Open::Begin, Match { id: 1, length, rules }, NONE), Status::BadArgument);
    }
    for number in [0, 3, 256] {
        refused(Seat::open(Open::Begin, number, OF, NONE), Status::BadArgument);
    }
    for number in [0, 2, 256, 259] {
        refused(Watcher::open(number, OF), Status::BadArgument);
    }
    let (mut referee, _, _) = opened()?;
    refused(referee.take_from(257, CLAIM, three_one), Status::BadArgument);
    refused(referee.heard(256, 0), Status::BadArgument);
    refused(referee.heard(1, 1_000_001), Status::BadArgument);
    refused(referee.lines(0, 1), Status::BadArgument);
    Ok(())
}

#[test]
fn slots() -> Result<(), Error> {
    let (_, text, _) = opened()?;
    let [slots, swapped, cut]: [[&[u8]; 2]; 3] = [[b"", &text], [&text, b""], [b"", &text[..9]]];
    refused(Referee::open(Open::Begin, OF, slots), Status::NotEmpty);
    refused(Referee::open(Open::Resume, OF, NONE), Status::NothingSaved);
    refused(Referee::open(Open::Resume, OF, cut), Status::NothingSaved);
    refused(Referee::open(Open::Resume, OF, [b"x", b""]), Status::Damaged);
    refused(Referee::open(Open::Resume, Match { id: 2, ..OF }, slots), Status::WrongMatch);
    refused(Seat::open(Open::Resume, 1, OF, slots), Status::WrongMatch);
    assert_eq!(Referee::open(Open::Either, OF, swapped).err(), Some(Error::Misplaced));
    assert_eq!(Referee::open(Open::Either, OF, cut)?.0.held()?, 0);
    let (again, saved) = Referee::open(Open::Either, OF, slots)?;
    assert_eq!((again.held()?, again.saved()?, saved.save, saved.slot), (1, 1, 1, 1));
    Ok(())
}

#[test]
fn order() -> Result<(), Error> {
    let (mut referee, _, mut seat) = opened()?;
    refused(seat.choose("jump"), Status::NotAnAction);
    assert_eq!(seat.choose("roll").err(), Some(Error::Illegal(Why(3))));
    assert_eq!(seat.try_action(1, "move 8-5").err(), Some(Error::Illegal(Why(5))));
    refused(seat.try_action(2, "roll"), Status::NotYourTurn);
    refused(seat.try_action(3, "roll"), Status::BadArgument);
    assert_eq!(seat.options()?, options::TURN | options::RESIGN);
    assert_eq!(seat.claim()?, None);
    assert_eq!(seat.choose("move 8-5 6-5")?, 2);
    assert_eq!(seat.claim()?, Some(Claim { number: 2, action: "move 8-5 6-5".to_owned() }));
    refused(seat.choose("move 8-5 6-5"), Status::AlreadyClaimed);
    for sent in seat.tick()? {
        assert_eq!(packet_read(&sent.packet)?.kind, 1, "a claim is sent before it is saved");
    }
    seat = seat.save().map_err(|(_, error)| error)?.written()?;
    let sent = seat.tick()?;
    assert_eq!((sent.len(), sent[0].to, sent[0].packet.as_slice()), (1, 0, CLAIM));
    refused(referee.take(b"", three_one), Status::NotAPacket);
    refused(referee.take_from(2, CLAIM, three_one), Status::OtherSender);
    assert_eq!(referee.take_from(1, CLAIM, three_one)?.kind, Took::Accepted);
    assert_eq!((referee.held()?, referee.told()?), (2, 1));
    assert_eq!(referee.lines(1, u32::MAX)?, ["open 3 1"]);
    assert_eq!(referee.board().err(), Some(Error::Untold));
    assert_eq!(referee.transcript().err(), Some(Error::Untold));
    assert_eq!(referee.turns().err(), Some(Error::Untold));
    assert_eq!(referee.actor().err(), Some(Error::Untold));
    assert_eq!(referee.standing().err(), Some(Error::Untold));
    assert_eq!(referee.options().err(), Some(Error::Untold));
    assert_eq!(referee.shown()?.transcript, "length 1\nopen 3 1\n");
    assert_eq!(referee.take(WANT, three_one)?.answer.map(|sent| sent.to), Some(3));
    assert_eq!(referee.due(three_one)?, None);
    referee = referee.save().map_err(|(_, error)| error)?.written()?;
    assert_eq!(referee.lines(2, 9)?, ["X move 8-5 6-5"]);
    let standing = referee.standing()?;
    assert_eq!((standing.x_pips, standing.o_pips, standing.player, standing.phase), (163, 167, 2, Phase::ToAct));
    assert_eq!((&standing.x_checkers[5..9], &standing.o_checkers[..2]), (&[2, 4, 0, 2][..], &[0, 2][..]));
    Ok(())
}

#[test]
fn many() -> Result<(), Error> {
    let mut seats = Vec::new();
    for id in 0..50 {
        seats.push(Seat::open(Open::Begin, 1, Match { id, ..OF }, NONE)?.0);
    }
    let ticked = tick_all(&mut seats.iter_mut().collect::<Vec<_>>())?;
    for (at, sent) in ticked.into_iter().enumerate() {
        let sent = sent?;
        assert_eq!((sent.len(), packet_read(&sent[0].packet)?.id), (1, at as u64));
    }
    assert!(tick_all::<bg_relay::role::Seat>(&mut [])?.is_empty());
    let (mut referee, _, _) = opened()?;
    assert_eq!(referee.tick()?.len(), 0);
    assert_eq!(tick_all(&mut [&mut referee])?, [Ok(vec![])]);
    Ok(())
}

#[test]
fn threads() -> Result<(), Error> {
    let (mut referee, _, _) = opened()?;
    let there = std::thread::spawn(move || referee.take(WANT, three_one).map(|taken| (referee, taken.kind)));
    let (referee, kind) = there.join().expect("the thread ends")?;
    assert_eq!((kind, referee.held()?), (Took::Answered, 1));
    Ok(())
}
