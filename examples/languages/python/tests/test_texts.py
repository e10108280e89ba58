"""The calls that need no party, beside what docs/FORMATS.md says of the same texts."""
import unittest

import bg_relay
from bg_relay import Numbering, Refused, Status

SEVEN = "length 7\nopen 3 1\n"
MOVED = "length 1\nopen 3 1\nX move 8-5 6-5\n"
FILE = " 1 point match\n\n Game 1\n Ada : 0   Zoe : 0\n 1) 31: 8/5 6/5\n"
WANT = b"BG\2\1\0\0\0\0\0\0\0\1\1\3\0\0\0\5"
SAVED = b"BGS2\0\0\0\0\0\0\0\0\1\1\1\0\0\0\2\0\0\0\0\2\1\3\1\6\2\10\5\6\5"


class Texts(unittest.TestCase):
    def refuses(self, status, call, *arguments):
        with self.assertRaises(Refused) as caught:
            call(*arguments)
        self.assertEqual(caught.exception.status, status)
        return caught.exception

    def test_statuses(self):
        for status in Status:
            self.assertEqual(bg_relay.status_name(status), f"BG_{status.name}")
            self.assertNotEqual(bg_relay.status_text(status), "")
        self.refuses(Status.BAD_ARGUMENT, bg_relay.status_text, len(Status))
        self.assertRegex(bg_relay.version(), r"^2\.\d+$")

    def test_transcripts(self):
        judged = bg_relay.judge(MOVED)
        self.assertEqual((judged.is_fine, judged.number), (True, 2))
        self.assertTrue(judged.text.startswith("length 1 game 1 ") and judged.text.endswith("ok 2\n"), judged.text)
        refused = bg_relay.judge("length 1\nopen 3 3\n")
        self.assertEqual((refused.is_fine, refused.number), (False, 2))
        self.assertIn("O to roll", bg_relay.board(MOVED))
        self.assertIn("move 8-5 6-5", bg_relay.turns(SEVEN))
        self.assertEqual(bg_relay.turns(MOVED), [])
        self.refuses(Status.REFUSED, bg_relay.turns, "length 0\n")
        self.refuses(Status.REFUSED, bg_relay.board, b"\xff")
        self.assertEqual(bg_relay.check("a.txt", MOVED).text, "a.txt: ok 2, not over\n")
        self.assertEqual(bg_relay.check("a", "length 1\nopen 3 3\n").number, 2)

    def test_match_files(self):
        self.assertEqual(bg_relay.mat_import(FILE), MOVED)
        self.assertEqual(bg_relay.mat_import(FILE, 2), MOVED.replace("\n", " rules 2\n", 1))
        self.assertEqual(bg_relay.mat_import(bg_relay.mat_export(MOVED)), MOVED)
        self.assertEqual(self.refuses(Status.REFUSED, bg_relay.mat_import, "0 point match\n").line, 1)
        self.refuses(Status.BAD_ARGUMENT, bg_relay.mat_import, FILE, 3)

    def test_drawings(self):
        picture = bg_relay.picture(SEVEN, Numbering.X)
        self.assertTrue(picture.startswith("<svg ") and "<title>X to move 3 1</title>" in picture)
        self.refuses(Status.BAD_ARGUMENT, bg_relay.picture, SEVEN, 2)
        page = bg_relay.page(MOVED, "Ada & Zoe", "Änne", "Zoe", seconds=5)
        self.assertIn("<title>Ada &amp; Zoe</title>", page)
        self.assertLess(page.index("Änne"), page.index("Zoe", page.index("Änne")))
        self.assertNotEqual(page, bg_relay.page(MOVED, "Ada & Zoe", "Zoe", "Änne", seconds=5))
        self.refuses(Status.BAD_ARGUMENT, bg_relay.page, MOVED, b"\xff")
        self.refuses(Status.BAD_ARGUMENT, lambda: bg_relay.page(MOVED, "", seconds=65536))

    def test_ids(self):
        self.assertEqual(bg_relay.position_id(SEVEN), "4HPwATDgc/ABMA")
        self.assertEqual(bg_relay.match_id(SEVEN), "cInlAAAAAAAE")
        self.assertEqual(bg_relay.xgid(SEVEN), "XGID=-b----E-C---eE---c-e----B-:0:0:1:31:0:0:0:7:7")
        self.refuses(Status.NO_XGID, bg_relay.xgid, "length 7\n")

    def test_bytes(self):
        self.assertEqual(bg_relay.packet_read(WANT), bg_relay.Packet(1, 1, 1, 3, 5, 0))
        self.refuses(Status.NOT_A_PACKET, bg_relay.packet_read, b"BG")
        self.assertEqual(bg_relay.saved_peek(SAVED), bg_relay.Peeked(bg_relay.Match(1, 1, 1), 0, 2, 2, 0))
        self.refuses(Status.NOT_A_SAVE, bg_relay.saved_peek, WANT)
        self.assertEqual(bg_relay.slots_read(0, bg_relay.Match(1, 1), (SAVED, b"")),
                         bg_relay.Saved(True, 0, 2, 2, 0, 0))
        self.assertEqual(bg_relay.slots_read(0, bg_relay.Match(1, 1), (b"", SAVED)).misplaced, 2)
        self.refuses(Status.WRONG_MATCH, bg_relay.slots_read, 1, bg_relay.Match(1, 1), (SAVED, b""))


if __name__ == "__main__":
    unittest.main()
