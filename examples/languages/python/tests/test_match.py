"""Whole matches: whatever is lost and cut short, each record is a prefix of the referee's, and that is legal."""
import unittest

from bg_relay import Match, judge, mat_export, mat_import, packet_read, saved_peek, slots_read
from table import O, REFEREE, WATCHER, X, Table


class Matches(unittest.TestCase):
    def play(self, seed: int, match: Match) -> Table:
        table, rounds, longest = Table(seed, match), 0, []
        self.addCleanup(table.close)
        while not table.is_over():
            table.round()
            rounds += 1
            self.assertLess(rounds, 100_000)
            told, *others = table.records()
            self.assertEqual(told[: len(longest)], longest, "what was told stays told")
            for record in others:
                self.assertEqual(record, told[: len(record)], "a record is a prefix of what the referee tells")
            longest = told
        return table

    def check(self, table: Table) -> None:
        transcript, match = table.parties[REFEREE].transcript(), table.match
        for record in table.records():
            self.assertEqual(record, transcript.splitlines()[1:])
        judged = table.judged()
        self.assertTrue(judged.is_fine, judged.text)
        self.assertEqual(judged.number, len(transcript.splitlines()) - 1)
        self.assertEqual(judge(transcript).number, judged.number)
        # (a match file has no offers to resign that were rejected)
        exported = mat_export(transcript)
        self.assertEqual(mat_export(mat_import(exported, match.rules)), exported)
        for number in (REFEREE, X, O):
            slots = tuple(table.slots[number])
            saved = slots_read(number, match, slots)
            self.assertTrue(saved.found)
            self.assertEqual(saved.misplaced, 0)
            peeked = saved_peek(slots[saved.slot])
            self.assertEqual((peeked.match, peeked.party), (match, number))
            self.assertEqual((peeked.save, peeked.entries), (saved.save, saved.entries))
        for datagram in table.packets:
            packet = packet_read(datagram.packet)
            self.assertEqual((packet.id, packet.rules), (match.id, match.rules))
        self.assertGreater(min(table.lost, table.cut, table.restarts), 0)

    def test_matches(self):
        for seed, match in enumerate([Match(7, 1, 1), Match(2**64 - 1, 3, 2), Match(9, 5, 1)]):
            with self.subTest(match):
                self.check(self.play(seed, match))

    def test_shown(self):
        table = self.play(11, Match(3, 1, 2))
        for number in (REFEREE, X, O, WATCHER):
            party = table.parties[number]
            shown, standing = party.shown(), party.standing()
            self.assertEqual(shown.standing, standing)
            self.assertEqual((shown.entries, shown.held), (party.told(), party.held()))
            self.assertEqual(shown.transcript, party.transcript())
            self.assertEqual((standing.match_length, standing.rules, standing.phase.name), (1, 2, "OVER"))
            score = f"{standing.x_score}-{standing.o_score} cube {standing.cube} "
            score = f"length 1 rules 2 game {standing.game} score {score}"
            self.assertEqual(party.board()[: len(score)], score)
            self.assertEqual(party.lines(2, 3), shown.transcript.splitlines()[2:5])


if __name__ == "__main__":
    unittest.main()
