package bgrelay

/*
#include "bg_relay.h"
*/
import "C"

import (
	"crypto/rand"
	"encoding/binary"
)

// Words draws random words. It gives each of them once.
type Words func() uint32

// SystemWord is a random word of the system's.
func SystemWord() uint32 {
	var bytes [4]byte
	if _, err := rand.Read(bytes[:]); err != nil {
		panic("the system has no random bytes: " + err.Error())
	}
	return binary.LittleEndian.Uint32(bytes[:])
}

// Referee is the referee of a match.
type Referee struct{ saver }

// Seat is the seat of X or of O.
type Seat struct{ saver }

// Watcher is whoever watches. It saves nothing, and begins anew each time.
type Watcher struct{ party }

// OpenReferee opens the referee, and says what its slots had.
func OpenReferee(how Open, of Match, slots Slots) (*Referee, Saved, error) {
	it := &Referee{saver{fresh()}}
	saved, err := it.open(how, 0, of, slots)
	if err != nil {
		it.close()
		return nil, saved, err
	}
	return it, saved, nil
}

// OpenSeat opens the seat of X (1) or O (2), and says what its slots had.
func OpenSeat(how Open, number uint32, of Match, slots Slots) (*Seat, Saved, error) {
	if number != 1 && number != 2 {
		return nil, Saved{}, BadArgument
	}
	it := &Seat{saver{fresh()}}
	saved, err := it.open(how, number, of, slots)
	if err != nil {
		it.close()
		return nil, saved, err
	}
	return it, saved, nil
}

// OpenWatcher opens whoever watches (3 to 255).
func OpenWatcher(number uint32, of Match) (*Watcher, error) {
	if number < 3 {
		return nil, BadArgument
	}
	it := &Watcher{fresh()}
	if err := it.begin(number, of, Slots{}); err != nil {
		it.close()
		return nil, err
	}
	return it, nil
}

// SavedEntries is how many entries are saved.
func (it *Referee) SavedEntries() (uint32, error) {
	return it.number(func(handle *C.bg_party, number *C.uint32_t) C.bg_status {
		return C.bg_party_saved(handle, number)
	})
}

// Due adds what is the referee's to add, and says whether it added an entry. Save then.
func (it *Referee) Due(words Words) (bool, error) {
	if err := it.change(); err != nil {
		return false, err
	}
	defer it.lock.Unlock()
	var number C.uint32_t
	for {
		switch status := C.bg_referee_due(it.handle, C.uint32_t(words()), &number); status {
		case C.BG_OK:
			return true, nil
		case C.BG_NOT_DUE:
			return false, nil
		case C.BG_WORD_REFUSED:
		default:
			return false, failed(status)
		}
	}
}

// TakeFrom takes a packet of an authenticated sender; one that says another sender is refused, with OtherSender.
func (it *Referee) TakeFrom(sender uint32, packet []byte, words Words) (Taken, error) {
	return it.take(func(handle *C.bg_party, outcome *C.bg_outcome, answer *C.bg_datagram) (status C.bg_status) {
		outcome.kind = C.BG_TOOK_WORD_REFUSED
		for status == C.BG_OK && outcome.kind == C.BG_TOOK_WORD_REFUSED {
			status = C.bg_party_take_from(handle, C.uint32_t(sender), pointer(packet), size(packet), C.uint32_t(words()),
				outcome, answer)
		}
		return status
	})
}

// Take takes a packet, and believes what it says of its sender.
func (it *Referee) Take(packet []byte, words Words) (Taken, error) {
	return it.take(func(handle *C.bg_party, outcome *C.bg_outcome, answer *C.bg_datagram) (status C.bg_status) {
		outcome.kind = C.BG_TOOK_WORD_REFUSED
		for status == C.BG_OK && outcome.kind == C.BG_TOOK_WORD_REFUSED {
			status = C.bg_party_take(handle, pointer(packet), size(packet), C.uint32_t(words()), outcome, answer)
		}
		return status
	})
}

// Heard hears that a peer is there and holds so many entries, as by a packet that asks for the next ones.
func (it *Referee) Heard(peer, held uint32) (Taken, error) {
	return it.take(func(handle *C.bg_party, outcome *C.bg_outcome, answer *C.bg_datagram) C.bg_status {
		return C.bg_referee_heard(handle, C.uint32_t(peer), C.uint32_t(held), outcome, answer)
	})
}

// follow takes a packet of the referee's.
func (it *party) follow(packet []byte) (Taken, error) {
	return it.take(func(handle *C.bg_party, outcome *C.bg_outcome, answer *C.bg_datagram) C.bg_status {
		return C.bg_party_take(handle, pointer(packet), size(packet), 0, outcome, answer)
	})
}

// followFrom takes a packet of an authenticated sender, which has to be 0, the referee.
func (it *party) followFrom(sender uint32, packet []byte) (Taken, error) {
	return it.take(func(handle *C.bg_party, outcome *C.bg_outcome, answer *C.bg_datagram) C.bg_status {
		return C.bg_party_take_from(handle, C.uint32_t(sender), pointer(packet), size(packet), 0, outcome, answer)
	})
}

// Take takes a packet of the referee's.
func (it *Seat) Take(packet []byte) (Taken, error) { return it.follow(packet) }

// TakeFrom takes a packet of an authenticated sender, which has to be 0, the referee.
func (it *Seat) TakeFrom(sender uint32, packet []byte) (Taken, error) {
	return it.followFrom(sender, packet)
}

// Take takes a packet of the referee's.
func (it *Watcher) Take(packet []byte) (Taken, error) { return it.follow(packet) }

// TakeFrom takes a packet of an authenticated sender, which has to be 0, the referee.
func (it *Watcher) TakeFrom(sender uint32, packet []byte) (Taken, error) {
	return it.followFrom(sender, packet)
}

// Choose claims an action, and gives the number of the entry that answers it. Save then: a claim is sent once it is
// saved.
func (it *Seat) Choose(action string) (uint32, error) {
	var number, why C.uint32_t
	text := []byte(action)
	if err := it.change(); err != nil {
		return 0, err
	}
	defer it.lock.Unlock()
	err := failed(C.bg_seat_choose(it.handle, pointer(text), size(text), &number, &why))
	return uint32(number), illegal(err, why)
}

// Claim is the last claim. It is answered once the record has so many entries.
func (it *Seat) Claim() (Claim, error) {
	var number C.uint32_t
	if err := it.enter(); err != nil {
		return Claim{}, err
	}
	defer it.lock.Unlock()
	action, err := textOf(func(out *C.uint8_t, room C.size_t, needed *C.size_t) C.bg_status {
		return C.bg_party_claim(it.handle, &number, out, room, needed)
	})
	return Claim{uint32(number), string(action)}, err
}
