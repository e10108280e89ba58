package bgrelay

import (
	"strings"
	"testing"
)

const (
	seven  = "length 7\nopen 3 1\n"
	moved  = "length 1\nopen 3 1\nX move 8-5 6-5\n"
	equal  = "length 1\nopen 3 3\n"
	file   = " 1 point match\n\n Game 1\n Ada : 0   Zoe : 0\n 1) 31: 8/5 6/5\n"
	saved2 = "BGS2\x00\x00\x00\x00\x00\x00\x00\x00\x01\x01\x01\x00\x00\x00\x02" +
		"\x00\x00\x00\x00\x02\x01\x03\x01\x06\x02\x08\x05\x06\x05"
)

// says checks what a call on a transcript answers.
func says(test *testing.T, call func([]byte) (string, error), transcript, wanted string) {
	test.Helper()
	text, err := call([]byte(transcript))
	refused(test, err, nil)
	right(test, text, wanted)
}

func TestStatuses(test *testing.T) {
	for status := Memory; status <= NoXGID; status++ {
		if !strings.HasPrefix(status.Name(), "BG_") || status.Text() == "" {
			test.Errorf("%d: %v", status, status)
		}
	}
	right(test, OtherSender.Name(), "BG_OTHER_SENDER")
	right(test, (NoXGID + 1).Text(), "")
	right(test, strings.HasPrefix(Version(), "2.") && IsKnown(), true)
}

func TestTranscripts(test *testing.T) {
	judged, err := Judge([]byte(moved))
	refused(test, err, nil)
	right(test, judged.IsFine && judged.Number == 2 && strings.HasSuffix(judged.Text, "ok 2\n"), true)
	judged, err = Judge([]byte(equal))
	refused(test, err, nil)
	right(test, [2]interface{}{judged.IsFine, judged.Number}, [2]interface{}{false, uint32(2)})
	board, err := Board([]byte(moved))
	refused(test, err, nil)
	right(test, strings.Contains(board, "O to roll"), true)
	_, err = Board([]byte("\xff"))
	refused(test, err, RefusedText)
	turns, err := Turns([]byte(seven))
	refused(test, err, nil)
	right(test, strings.Contains(strings.Join(turns, "\n"), "move 8-5 6-5"), true)
	turns, err = Turns([]byte(moved))
	refused(test, err, nil)
	right(test, len(turns), 0)
	_, err = Turns([]byte("length 0\n"))
	refused(test, err, RefusedText)
	judged, err = Check("a.txt", []byte(moved), 0)
	refused(test, err, nil)
	right(test, judged, Judged{true, 2, "a.txt: ok 2, not over\n"})
}

func TestMatchFiles(test *testing.T) {
	for rules, wanted := range []string{moved, strings.Replace(moved, "\n", " rules 2\n", 1)} {
		text, err := MatImport(uint32(rules)+1, []byte(file))
		refused(test, err, nil)
		right(test, text, wanted)
	}
	_, err := MatImport(1, []byte("0 point match\n"))
	refused(test, err, RefusedText)
	right(test, err, LineError{1})
	_, err = MatImport(3, []byte(file))
	refused(test, err, BadArgument)
}

func TestDrawings(test *testing.T) {
	picture, err := Picture([]byte(seven), NumberingX)
	refused(test, err, nil)
	right(test, strings.HasPrefix(picture, "<svg ") && strings.Contains(picture, "<title>X to move 3 1</title>"), true)
	_, err = Picture([]byte(seven), 2)
	refused(test, err, BadArgument)
	page, err := Page([]byte(moved), PageWords{Title: "Ada & Zoe", X: "Änne", O: "Zoe"})
	refused(test, err, nil)
	right(test, strings.Contains(page, "<title>Ada &amp; Zoe</title>"), true)
	right(test, strings.Contains(page[strings.Index(page, "Änne"):], "Zoe"), true)
	again, err := Page([]byte(moved), PageWords{Title: "Ada & Zoe", X: "Zoe", O: "Änne"})
	refused(test, err, nil)
	right(test, again == page, false)
	_, err = Page([]byte(moved), PageWords{Title: "\xff"})
	refused(test, err, BadArgument)
	_, err = Page([]byte(moved), PageWords{Seconds: 65536})
	refused(test, err, BadArgument)
}

func TestIDs(test *testing.T) {
	says(test, PositionID, seven, "4HPwATDgc/ABMA")
	says(test, MatchID, seven, "cInlAAAAAAAE")
	says(test, XGID, seven, "XGID=-b----E-C---eE---c-e----B-:0:0:1:31:0:0:0:7:7")
	_, err := XGID([]byte("length 7\n"))
	refused(test, err, NoXGID)
}

func TestBytes(test *testing.T) {
	packet, err := ReadPacket([]byte("BG\x02\x01\x00\x00\x00\x00\x00\x00\x00\x01\x01\x03\x00\x00\x00\x05"))
	refused(test, err, nil)
	right(test, packet, Packet{1, 1, 1, 3, 5, 0})
	_, err = ReadPacket([]byte("BG"))
	refused(test, err, NotAPacket)
	peeked, err := PeekSaved([]byte(saved2))
	refused(test, err, nil)
	right(test, peeked, Peeked{one, 0, 2, 2, 0})
	_, err = PeekSaved([]byte("BG"))
	refused(test, err, NotASave)
	saved, err := ReadSlots(0, one, Slots{[]byte(saved2), nil})
	refused(test, err, nil)
	right(test, saved, Saved{true, 0, 2, 2, 0, 0})
	_, err = ReadSlots(1, one, Slots{[]byte(saved2), nil})
	refused(test, err, WrongMatch)
}
