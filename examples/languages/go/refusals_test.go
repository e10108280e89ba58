package bgrelay

import (
	"errors"
	"reflect"
	"strings"
	"testing"
)

var (
	one = Match{1, 1, 1}
	// The seat of X claims that entry 2 is the move 8-5 6-5; party 3 asks for the entries from the first on.
	claimOfX = []byte("BG\x02\x02\x00\x00\x00\x00\x00\x00\x00\x01\x01\x01\x00\x00\x00\x02\x06\x02\x08\x05\x06\x05")
	want     = []byte("BG\x02\x01\x00\x00\x00\x00\x00\x00\x00\x01\x01\x03\x00\x00\x00\x00")
)

// threeOne has the dice 3 and 1.
func threeOne() uint32 { return 12 }

// refused checks that a call was refused so.
func refused(test *testing.T, err, wanted error) {
	test.Helper()
	if !errors.Is(err, wanted) {
		test.Errorf("%v, expected %v", err, wanted)
	}
}

// right checks that a value is the one that is wanted.
func right(test *testing.T, got, wanted interface{}) {
	test.Helper()
	if !reflect.DeepEqual(got, wanted) {
		test.Errorf("%v, expected %v", got, wanted)
	}
}

// opened gives a referee with a saved opening, its slots, and the seat of X that knows of it.
func opened(test *testing.T) (*Referee, Slots, *Seat) {
	it := &table{test: test}
	referee, _, err := OpenReferee(Begin, one, Slots{})
	it.must(err)
	seat, _, err := OpenSeat(Begin, 1, one, Slots{})
	it.must(err)
	added, err := referee.Due(threeOne)
	it.must(err)
	right(test, added, true)
	var slots Slots
	it.must(referee.Save(func(slot uint32, text []byte) error {
		slots[slot] = text
		return nil
	}))
	answer, err := referee.Heard(1, 0)
	it.must(err)
	taken, err := seat.Take(answer.Answers[0].Packet)
	it.must(err)
	right(test, taken.Kind, TookGrew)
	return referee, slots, seat
}

func TestNumbers(test *testing.T) {
	for _, of := range []Match{{1, 0, 1}, {1, 100, 1}, {1, 257, 1}, {1, 1, 0}, {1, 1, 3}} {
		_, _, err := OpenReferee(Begin, of, Slots{})
		refused(test, err, BadArgument)
	}
	for _, number := range []uint32{0, 3, 256} {
		_, _, err := OpenSeat(Begin, number, one, Slots{})
		refused(test, err, BadArgument)
	}
	for _, number := range []uint32{0, 2, 256, 259} {
		_, err := OpenWatcher(number, one)
		refused(test, err, BadArgument)
	}
	referee, _, _ := opened(test)
	_, err := referee.TakeFrom(257, claimOfX, threeOne)
	refused(test, err, BadArgument)
	_, err = referee.Heard(256, 0)
	refused(test, err, BadArgument)
	_, err = referee.Heard(1, 1000001)
	refused(test, err, BadArgument)
	_, err = referee.Lines(0, 1)
	refused(test, err, BadArgument)
}

func TestSlots(test *testing.T) {
	_, slots, _ := opened(test)
	cut := Slots{nil, slots[1][:9]}
	for _, it := range []struct {
		how    Open
		of     Match
		slots  Slots
		wanted error
	}{
		{Begin, one, slots, NotEmpty}, {Resume, one, Slots{}, NothingSaved}, {Resume, one, cut, NothingSaved},
		{Resume, one, Slots{[]byte("x"), nil}, Damaged}, {Resume, Match{2, 1, 1}, slots, WrongMatch},
		{Either, one, Slots{slots[1], nil}, ErrMisplaced},
	} {
		_, _, err := OpenReferee(it.how, it.of, it.slots)
		refused(test, err, it.wanted)
	}
	_, _, err := OpenSeat(Resume, 1, one, slots)
	refused(test, err, WrongMatch)
	anew, _, err := OpenReferee(Either, one, cut)
	refused(test, err, nil)
	held, err := anew.Held()
	refused(test, err, nil)
	right(test, held, uint32(0))
	again, saved, err := OpenReferee(Either, one, slots)
	refused(test, err, nil)
	right(test, saved, Saved{true, 1, 1, 1, 0, 0})
	held, err = again.SavedEntries()
	refused(test, err, nil)
	right(test, held, uint32(1))
}

func TestChoices(test *testing.T) {
	_, _, seat := opened(test)
	_, err := seat.Choose("jump")
	refused(test, err, NotAnAction)
	_, err = seat.Choose("roll")
	refused(test, err, Illegal)
	right(test, err, IllegalError{3})
	_, err = seat.Try(1, "move 8-5")
	right(test, err, IllegalError{5})
	_, err = seat.Try(2, "roll")
	refused(test, err, NotYourTurn)
	_, err = seat.Try(3, "roll")
	refused(test, err, BadArgument)
	options, err := seat.Options()
	refused(test, err, nil)
	right(test, options, MayTurn|MayResign)
	number, err := seat.Choose("move 8-5 6-5")
	refused(test, err, nil)
	right(test, number, uint32(2))
	claim, err := seat.Claim()
	refused(test, err, nil)
	right(test, claim, Claim{2, "move 8-5 6-5"})
	_, err = seat.Choose("move 8-5 6-5")
	refused(test, err, AlreadyClaimed)
	sent, err := seat.Tick()
	refused(test, err, nil)
	packet, err := ReadPacket(sent[0].Packet)
	refused(test, err, nil)
	right(test, packet.Kind, uint32(1))
	refused(test, seat.Save(func(uint32, []byte) error { return nil }), nil)
	sent, err = seat.Tick()
	refused(test, err, nil)
	right(test, sent, []Datagram{{0, claimOfX}})
}

func TestUntold(test *testing.T) {
	referee, _, _ := opened(test)
	_, err := referee.Take(nil, threeOne)
	refused(test, err, NotAPacket)
	_, err = referee.TakeFrom(2, claimOfX, threeOne)
	refused(test, err, OtherSender)
	taken, err := referee.TakeFrom(1, claimOfX, threeOne)
	refused(test, err, nil)
	right(test, taken.Kind, TookAccepted)
	_, err = referee.Board()
	refused(test, err, ErrUntold)
	_, err = referee.Transcript()
	refused(test, err, ErrUntold)
	_, err = referee.Turns()
	refused(test, err, ErrUntold)
	_, err = referee.Actor()
	refused(test, err, ErrUntold)
	_, err = referee.Standing()
	refused(test, err, ErrUntold)
	_, err = referee.Options()
	refused(test, err, ErrUntold)
	lines, err := referee.Lines(1, 9)
	refused(test, err, nil)
	right(test, lines, []string{"open 3 1"})
	shown, err := referee.Shown()
	refused(test, err, nil)
	right(test, string(shown.Transcript), "length 1\nopen 3 1\n")
	taken, err = referee.Take(want, threeOne)
	refused(test, err, nil)
	right(test, taken.Answers[0].To, uint32(3))
	added, err := referee.Due(threeOne)
	refused(test, err, nil)
	right(test, added, false)
}

func TestSaves(test *testing.T) {
	referee, _, _ := opened(test)
	_, err := referee.Take(claimOfX, threeOne)
	refused(test, err, nil)
	save, err := referee.BeginSave()
	refused(test, err, nil)
	right(test, [2]uint32{save.Slot, save.Number}, [2]uint32{0, 2})
	_, err = referee.Tick()
	refused(test, err, ErrSaving)
	_, err = referee.BeginSave()
	refused(test, err, ErrSaving)
	_, err = referee.Due(threeOne)
	refused(test, err, ErrSaving)
	_, err = referee.Take(want, threeOne)
	refused(test, err, ErrSaving)
	right(test, TickAll(referee), []Ticked{{ErrSaving, nil}})
	refused(test, save.Written(), nil)
	refused(test, save.Written(), ErrEnded)
	refused(test, save.Failed(), ErrEnded)
	told, err := referee.Told()
	refused(test, err, nil)
	right(test, told, uint32(2))
	standing, err := referee.Standing()
	refused(test, err, nil)
	right(test, [4]uint32{standing.XPips, standing.OPips, standing.Player, uint32(standing.Phase)},
		[4]uint32{163, 167, 2, 1})
	right(test, [4]uint32{standing.XCheckers[5], standing.XCheckers[6], standing.OCheckers[0], standing.OCheckers[1]},
		[4]uint32{2, 4, 0, 2})
	full := errors.New("full")
	refused(test, referee.Save(func(uint32, []byte) error { return full }), full)
	_, err = referee.Held()
	refused(test, err, Closed)
	_, err = referee.Tick()
	refused(test, err, Closed)
	right(test, strings.HasPrefix(err.Error(), "BG_CLOSED: "), true)
}
