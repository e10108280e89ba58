package bgrelay

import (
	"bytes"
	"fmt"
	"reflect"
	"strings"
	"testing"
)

// startsWith says whether a record begins with another one.
func startsWith(record, other []string) bool {
	return len(other) <= len(record) && (len(other) == 0 || reflect.DeepEqual(record[:len(other)], other))
}

func (it *table) isOver() bool {
	for number := referee; number <= watcher; number++ {
		if actor, err := it.party(number).Actor(); err != nil || actor != nobody {
			return false
		}
	}
	return true
}

func (it *table) records() (records [4][]string) {
	var err error
	for number := range records {
		records[number], err = it.party(number).Lines(1, 1<<31)
		it.must(err)
	}
	return
}

// play plays a match: what was told stays told, and each record is a prefix of what the referee tells.
func play(test *testing.T, seed int64, of Match) *table {
	it := newTable(test, seed, of)
	var longest []string
	for rounds := 0; !it.isOver(); rounds++ {
		it.round()
		records := it.records()
		for _, record := range append(records[1:], longest) {
			if !startsWith(records[referee], record) {
				test.Fatalf("%q is no prefix of %q", record, records[referee])
			}
		}
		longest = records[referee]
		if rounds > 100000 {
			test.Fatal("the match does not end")
		}
	}
	return it
}

// checkWhole compares the records of all, and lets the library judge them.
func checkWhole(test *testing.T, it *table) {
	transcript, err := it.referee.Transcript()
	it.must(err)
	lines := strings.Split(strings.TrimSuffix(string(transcript), "\n"), "\n")[1:]
	for number, record := range it.records() {
		if !reflect.DeepEqual(record, lines) {
			test.Errorf("party %d has %q, and the referee %q", number, record, lines)
		}
	}
	judged, err := Check("table", transcript, 0)
	it.must(err)
	if !judged.IsFine || int(judged.Number) != len(lines) || !strings.HasPrefix(judged.Text, "table: ok") {
		test.Errorf("judged: %v", judged)
	}
	// (a match file has no offers to resign that were rejected)
	exported, err := MatExport(transcript)
	it.must(err)
	imported, err := MatImport(it.of.Rules, []byte(exported))
	it.must(err)
	if again, err := MatExport([]byte(imported)); err != nil || again != exported {
		test.Errorf("exported once more: %v", err)
	}
	for _, sent := range it.packets {
		if packet, err := ReadPacket(sent.Packet); err != nil || packet.ID != it.of.ID || packet.Rules != it.of.Rules {
			test.Errorf("packet %v: %v", packet, err)
		}
	}
	if it.lost == 0 || it.cut == 0 || it.restarts == 0 {
		test.Errorf("%d packets lost, %d saves cut short, %d restarts", it.lost, it.cut, it.restarts)
	}
}

// checkSlots reads what each party has saved.
func checkSlots(test *testing.T, it *table) {
	for number, slots := range it.slots {
		saved, err := ReadSlots(uint32(number), it.of, slots)
		it.must(err)
		peeked, err := PeekSaved(slots[saved.Slot])
		it.must(err)
		wanted := Peeked{it.of, uint32(number), saved.Save, saved.Entries, saved.Claim}
		if !saved.Found || saved.Misplaced != 0 || peeked != wanted {
			test.Errorf("party %d saved %v: %v", number, saved, peeked)
		}
	}
}

func TestMatches(test *testing.T) {
	for seed, of := range []Match{{7, 1, 1}, {1<<64 - 1, 3, 2}, {9, 5, 1}} {
		it := play(test, int64(seed), of)
		checkWhole(test, it)
		checkSlots(test, it)
		for number := referee; number <= watcher; number++ {
			it.party(number).Close()
		}
	}
}

func TestShown(test *testing.T) {
	it := play(test, 11, Match{3, 2, 2})
	shown, err := it.referee.Shown()
	it.must(err)
	standing, err := it.seats[seatOfX].Standing()
	it.must(err)
	if shown.Standing != standing || standing.Phase != PhaseOver || standing.MatchLength != 2 || standing.Rules != 2 {
		test.Errorf("the referee shows %v, and X holds %v", shown.Standing, standing)
	}
	transcript, err := it.watcher.Transcript()
	it.must(err)
	board, err := it.watcher.Board()
	it.must(err)
	boardOfIt, err := Board(shown.Transcript)
	it.must(err)
	score := fmt.Sprintf("length 2 rules 2 game %d score %d-%d ", standing.Game, standing.XScore, standing.OScore)
	if !bytes.Equal(transcript, shown.Transcript) || board != boardOfIt || !strings.HasPrefix(board, score) {
		test.Errorf("the referee shows %s, and the watcher holds %s and %s", shown.Transcript, transcript, board)
	}
	told, err := it.referee.Told()
	it.must(err)
	saved, err := it.referee.SavedEntries()
	it.must(err)
	if told != shown.Entries || saved != told || shown.Held != told {
		test.Errorf("told %d, saved %d, shown %d of %d", told, saved, shown.Entries, shown.Held)
	}
	lines, err := it.watcher.Lines(2, 3)
	it.must(err)
	if wanted := strings.Split(string(transcript), "\n")[2:5]; !reflect.DeepEqual(lines, wanted) {
		test.Errorf("lines %q, expected %q", lines, wanted)
	}
}
