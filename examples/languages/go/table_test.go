package bgrelay

import (
	"math/rand"
	"testing"
)

const (
	referee = iota
	seatOfX
	seatOfO
	watcher
	nobody = 3
)

// follower is what a seat and a watcher do.
type follower interface {
	reader
	TakeFrom(sender uint32, packet []byte) (Taken, error)
}

// reader is what all parties tell.
type reader interface {
	Party
	Held() (uint32, error)
	Lines(first, count uint32) ([]string, error)
	Actor() (uint32, error)
	Tick() ([]Datagram, error)
	Close()
}

// table is a referee, two seats and a watcher, over a network that loses, repeats and reorders packets, and slots whose
// writes are cut short. All of it goes by a seed.
type table struct {
	test                *testing.T
	random              *rand.Rand
	of                  Match
	slots               [3]Slots
	isSaved             [3]bool
	referee             *Referee
	seats               [3]*Seat
	watcher             *Watcher
	packets             []Datagram
	lost, cut, restarts int
}

func newTable(test *testing.T, seed int64, of Match) *table {
	it := &table{test: test, random: rand.New(rand.NewSource(seed)), of: of}
	for number := referee; number <= watcher; number++ {
		it.open(number)
	}
	return it
}

// must ends the test where something was refused.
func (it *table) must(err error) {
	it.test.Helper()
	if err != nil {
		it.test.Fatal(err)
	}
}

func (it *table) happens(oneIn int) bool { return it.random.Intn(oneIn) == 0 }

func (it *table) party(number int) reader {
	switch number {
	case referee:
		return it.referee
	case watcher:
		return it.watcher
	}
	return it.seats[number]
}

// open opens a party from its slots. The referee and a seat are saved at once, before they send anything.
func (it *table) open(number int) {
	var err error
	if number == watcher {
		it.watcher, err = OpenWatcher(watcher, it.of)
		it.must(err)
		return
	}
	how := Either
	if it.isSaved[number] {
		how = Resume
	}
	if number == referee {
		it.referee, _, err = OpenReferee(how, it.of, it.slots[number])
	} else {
		it.seats[number], _, err = OpenSeat(how, uint32(number), it.of, it.slots[number])
	}
	it.must(err)
	if how == Either {
		it.save(number)
	}
}

func (it *table) restart(number int) {
	it.restarts++
	it.party(number).Close()
	it.open(number)
	if number != referee || it.happens(2) {
		return
	}
	// A server that knows who is connected names its peers.
	for peer := seatOfX; peer <= watcher; peer++ {
		held, err := it.party(peer).Held()
		it.must(err)
		taken, err := it.referee.Heard(uint32(peer), held)
		it.must(err)
		it.packets = append(it.packets, taken.Answers...)
	}
}

func (it *table) beginSave(number int) *Save {
	begin := it.referee.BeginSave
	if number != referee {
		begin = it.seats[number].BeginSave
	}
	save, err := begin()
	it.must(err)
	return save
}

func (it *table) save(number int) {
	save := it.beginSave(number)
	if it.happens(12) {
		it.cut++
		it.slots[number][save.Slot] = save.Text[:it.random.Intn(len(save.Text))]
		it.must(save.Failed())
		it.open(number)
		return
	}
	it.slots[number][save.Slot] = save.Text
	it.must(save.Written())
	it.isSaved[number] = true
	it.tick(number)
}

func (it *table) tick(number int) {
	sent, err := it.party(number).Tick()
	it.must(err)
	it.packets = append(it.packets, sent...)
}

// deliver takes a packet that is under way, whichever: it is lost, or comes, or comes and stays under way.
func (it *table) deliver() {
	at := it.random.Intn(len(it.packets))
	sent := it.packets[at]
	if !it.happens(8) {
		it.packets = append(it.packets[:at], it.packets[at+1:]...)
	}
	if it.happens(6) {
		it.lost++
		return
	}
	var taken Taken
	var err error
	if sent.To == referee {
		taken, err = it.referee.Take(sent.Packet, it.random.Uint32)
	} else {
		taken, err = it.party(int(sent.To)).(follower).TakeFrom(referee, sent.Packet)
	}
	it.must(err)
	switch taken.Kind {
	case TookOtherMatch, TookConflict, TookInvalid, TookIllegal:
		it.test.Fatalf("party %d took %x: %v", sent.To, sent.Packet, taken)
	case TookAccepted:
		it.save(referee)
	}
	it.packets = append(it.packets, taken.Answers...)
}

// actions are what a seat may claim.
func (it *table) actions(seat *Seat) []string {
	may, err := seat.Options()
	it.must(err)
	if may&MayResign != 0 && it.happens(40) {
		return []string{"resign normal"}
	}
	var actions []string
	for _, one := range []struct {
		option Options
		action string
	}{{MayRoll, "roll"}, {MayRoll, "roll"}, {MayDouble, "double"}, {MayTake, "take"}, {MayDrop, "drop"},
		{MayAccept, "accept"}, {MayReject, "reject"}} {
		if may&one.option != 0 {
			actions = append(actions, one.action)
		}
	}
	if len(actions) == 0 {
		actions, err = seat.Turns()
		it.must(err)
	}
	return actions
}

// act claims something, where the seat acts and has no claim under way.
func (it *table) act(number int) {
	seat := it.seats[number]
	actor, err := seat.Actor()
	it.must(err)
	claim, err := seat.Claim()
	it.must(err)
	held, err := seat.Held()
	it.must(err)
	if int(actor) != number || claim.Number > held {
		return
	}
	actions := it.actions(seat)
	action := actions[it.random.Intn(len(actions))]
	tried, err := seat.Try(uint32(number), action)
	it.must(err)
	claimed, err := seat.Choose(action)
	it.must(err)
	if tried != claimed {
		it.test.Fatalf("%s: tried as entry %d, claimed as entry %d", action, tried, claimed)
	}
	it.save(number)
}

func (it *table) round() {
	changed, err := it.referee.Due(it.random.Uint32)
	it.must(err)
	if changed {
		it.save(referee)
	}
	it.act(seatOfX)
	it.act(seatOfO)
	for number := referee; number <= watcher; number++ {
		it.tick(number)
	}
	for count := 0; count < 6 && len(it.packets) > 0; count++ {
		it.deliver()
	}
	if it.happens(20) {
		it.restart(it.random.Intn(watcher + 1))
	}
}
