"""What parties refuse: wrong numbers, a wrong order, and saves that nobody has made."""
import threading
import unittest

from bg_relay import (
    Error, Match, Misplaced, Options, Referee, Refused, Saving, Seat, Status, Took, Untold, Watcher, Why, packet_read,
    tick_all,
)

MATCH = Match(1, 1)
# The seat of X claims that entry 2 is the move 8-5 6-5, and party 3 asks for the entries from the first on.
CLAIM = b"BG\2\2\0\0\0\0\0\0\0\1\1\1\0\0\0\2\6\2\10\5\6\5"
WANT = b"BG\2\1\0\0\0\0\0\0\0\1\1\3\0\0\0\0"


def three_one() -> int:
    return 12


class Refusals(unittest.TestCase):
    def refuses(self, status, call, *arguments):
        with self.assertRaises(Refused) as caught:
            call(*arguments)
        self.assertEqual(caught.exception.status, status)
        self.assertIn(f"BG_{status.name}", str(caught.exception))
        return caught.exception

    def opened(self):
        """A referee with a saved opening, its slots, and the seat of X that knows of it."""
        referee, seat, slots = Referee.begin(MATCH), Seat.begin(1, MATCH), [b"", b""]
        for party in (referee, seat):
            self.addCleanup(party.close)
        self.assertEqual(referee.due(three_one), 1)
        with referee.save() as save:
            slots[save.slot] = save.text
        seat.take(referee.heard(1, 0).answer.packet)
        return referee, slots, seat

    def test_numbers(self):
        for match in (Match(1, 0), Match(1, 100), Match(1, 2**32 + 1), Match(1, 1, 0), Match(1, 1, 3), Match(1, -1)):
            self.refuses(Status.BAD_ARGUMENT, Referee.begin, match)
        self.refuses(Status.BAD_ARGUMENT, Referee.begin, Match(2**64, 1))
        self.refuses(Status.BAD_ARGUMENT, Watcher, 256, MATCH)
        self.refuses(Status.BAD_ARGUMENT, Watcher, 2, MATCH)
        for number in (0, 3):
            self.refuses(Status.BAD_ARGUMENT, Seat.begin, number, MATCH)
        referee, _, _ = self.opened()
        for sender in (257, 2**32 + 1, -1):
            self.refuses(Status.BAD_ARGUMENT, referee.take_from, sender, CLAIM)
        self.refuses(Status.BAD_ARGUMENT, referee.heard, 256, 0)
        self.refuses(Status.BAD_ARGUMENT, referee.heard, 1, 1_000_001)
        self.refuses(Status.BAD_ARGUMENT, referee.due, lambda: 2**32)
        self.refuses(Status.BAD_ARGUMENT, referee.lines, 0)

    def test_slots(self):
        referee, slots, _ = self.opened()
        self.refuses(Status.NOT_EMPTY, Referee.begin, MATCH, tuple(slots))
        self.refuses(Status.NOTHING_SAVED, Referee.resume, MATCH, (b"", b""))
        self.refuses(Status.NOTHING_SAVED, Referee.open, MATCH, (b"", slots[1][:9]), True)
        self.refuses(Status.DAMAGED, Referee.resume, MATCH, (b"x", b""))
        self.refuses(Status.WRONG_MATCH, Referee.resume, Match(2, 1), tuple(slots))
        self.refuses(Status.WRONG_MATCH, Seat.resume, 1, MATCH, tuple(slots))
        with self.assertRaises(Misplaced):
            Referee.resume(MATCH, (slots[1], slots[0]))
        with Referee.open(MATCH, (b"", slots[1][:9]), False) as anew:
            self.assertEqual(anew.held(), 0)
        with Referee.resume(MATCH, tuple(slots)) as again:
            self.assertEqual((again.held(), again.saved.save, again.saved_entries()), (1, 1, 1))

    def test_order(self):
        referee, _, seat = self.opened()
        self.refuses(Status.NOT_AN_ACTION, seat.choose, "jump")
        self.assertEqual(self.refuses(Status.ILLEGAL, seat.choose, "roll").why, Why.WRONG_PHASE)
        self.assertEqual(self.refuses(Status.ILLEGAL, seat.try_action, 1, "move 8-5").why, Why.MORE_CAN_BE_PLAYED)
        self.refuses(Status.NOT_YOUR_TURN, seat.try_action, 2, "roll")
        self.refuses(Status.BAD_ARGUMENT, seat.try_action, 3, "roll")
        self.assertEqual(seat.options(), Options.TURN | Options.RESIGN)
        self.assertIsNone(seat.claim())
        self.assertEqual(seat.choose("move 8-5 6-5"), 2)
        self.assertEqual((seat.claim().number, seat.claim().action), (2, "move 8-5 6-5"))
        self.refuses(Status.ALREADY_CLAIMED, seat.choose, "move 8-5 6-5")
        self.assertEqual([packet_read(sent.packet).kind for sent in seat.tick()], [1], "no claim before it is saved")
        seat.save().written()
        claim, = seat.tick()
        self.assertEqual((claim.to, claim.packet), (0, CLAIM))
        self.refuses(Status.NOT_A_PACKET, referee.take, b"")
        self.refuses(Status.OTHER_SENDER, referee.take_from, 2, CLAIM)
        self.assertEqual(referee.take_from(1, CLAIM, three_one).kind, Took.ACCEPTED)
        self.assertEqual((referee.held(), referee.told(), referee.lines()), (2, 1, ["open 3 1"]))
        for call in (referee.board, referee.transcript, referee.turns, referee.actor, referee.standing, referee.options):
            self.assertRaises(Untold, call)
        self.assertEqual(referee.shown().transcript, "length 1\nopen 3 1\n")
        self.assertEqual(referee.take(WANT).answer.to, 3)
        self.assertIsNone(referee.due(three_one))

    def test_saves(self):
        referee, slots, seat = self.opened()
        referee.take(CLAIM)
        save = referee.save()
        self.assertEqual((save.slot, save.number), (0, 2))
        for call in (referee.tick, referee.save, referee.due, lambda: referee.take(WANT), lambda: tick_all([referee])):
            self.assertRaises(Saving, call)
        self.assertEqual(referee.told(), 1)
        save.written()
        self.assertRaises(Error, save.written)
        self.assertRaises(Error, save.failed)
        self.assertEqual(referee.told(), 2)
        standing = referee.standing()
        self.assertEqual((standing.x_pips, standing.o_pips), (163, 167))
        self.assertEqual((standing.player, standing.phase.name), (2, "TO_ACT"))
        self.assertEqual((standing.x_checkers[5:9], standing.o_checkers[:2]), ((2, 4, 0, 2), (0, 2)))
        with self.assertRaisesRegex(OSError, "full"), referee.save():
            raise OSError("full")
        self.refuses(Status.CLOSED, referee.held)
        self.refuses(Status.CLOSED, referee.tick)

    def test_many(self):
        referee, slots, _ = self.opened()
        seats = [Seat.begin(1, Match(at, 1)) for at in range(50)]
        seats[7].close()
        ticked = tick_all([*seats, referee])
        self.assertEqual(ticked[7].status, Status.CLOSED)
        self.assertEqual([len(one.packets) for one in ticked], [1] * 7 + [0] + [1] * 42 + [0])
        self.assertEqual(ticked[8].packets[0].packet[11], 8)
        self.assertEqual(tick_all([]), [])

    def test_threads(self):
        referee, _, _ = self.opened()
        failed = []

        def ask():
            try:
                for _ in range(300):
                    self.assertEqual(referee.take(WANT).answer.to, 3)
            except Exception as error:  # what a thread fails with is told below
                failed.append(error)

        threads = [threading.Thread(target=ask) for _ in range(4)]
        for thread in threads:
            thread.start()
        for thread in threads:
            thread.join()
        self.assertEqual(failed, [])


if __name__ == "__main__":
    unittest.main()
