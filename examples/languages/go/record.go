package bgrelay

/*
#include "bg_relay.h"
*/
import "C"

// number makes a call that sets a number.
func (it *party) number(call func(handle *C.bg_party, number *C.uint32_t) C.bg_status) (uint32, error) {
	var number C.uint32_t
	if err := it.enter(); err != nil {
		return 0, err
	}
	defer it.lock.Unlock()
	err := failed(call(it.handle, &number))
	return uint32(number), err
}

// Held is how many entries the record has.
func (it *party) Held() (uint32, error) {
	return it.number(func(handle *C.bg_party, number *C.uint32_t) C.bg_status {
		return C.bg_party_entries(handle, number)
	})
}

// Told is how many of them may be shown.
func (it *party) Told() (uint32, error) {
	return it.number(func(handle *C.bg_party, number *C.uint32_t) C.bg_status {
		return C.bg_party_told(handle, number)
	})
}

// Shown is what may be shown, in one call.
func (it *party) Shown() (Shown, error) {
	var shown C.bg_shown
	if err := it.enter(); err != nil {
		return Shown{}, err
	}
	defer it.lock.Unlock()
	transcript, err := textOf(func(out *C.uint8_t, room C.size_t, needed *C.size_t) C.bg_status {
		return C.bg_party_shown(it.handle, &shown, out, room, needed)
	})
	return Shown{uint32(shown.entries), uint32(shown.held), uint32(shown.claim), standingOf(&shown.standing), transcript},
		err
}

// Lines are at most so many entries from the number first on, of those that may be shown.
func (it *party) Lines(first, count uint32) ([]string, error) {
	if err := it.enter(); err != nil {
		return nil, err
	}
	defer it.lock.Unlock()
	var told C.uint32_t
	if err := failed(C.bg_party_told(it.handle, &told)); err != nil {
		return nil, err
	}
	if most := uint32(told) + 1; first > most {
		count = 0
	} else if count > most-first {
		count = most - first
	}
	text, err := textOf(func(out *C.uint8_t, room C.size_t, needed *C.size_t) C.bg_status {
		return C.bg_party_entries_text(it.handle, C.uint32_t(first), C.uint32_t(count), out, room, needed)
	})
	return linesOf(text), err
}

// told makes a call that counts all entries that a party holds, where all of them are told.
func (it *party) told(call func(handle *C.bg_party) C.bg_status) error {
	if err := it.enter(); err != nil {
		return err
	}
	defer it.lock.Unlock()
	var told, held C.uint32_t
	if err := failed(C.bg_party_told(it.handle, &told)); err != nil {
		return err
	}
	if err := failed(C.bg_party_entries(it.handle, &held)); err != nil {
		return err
	}
	if told != held {
		return ErrUntold
	}
	return failed(call(it.handle))
}

// toldText makes such a call that writes a text.
func (it *party) toldText(
	call func(*C.bg_party, *C.uint8_t, C.size_t, *C.size_t) C.bg_status,
) (text []byte, err error) {
	told := it.told(func(handle *C.bg_party) C.bg_status {
		text, err = textOf(func(out *C.uint8_t, room C.size_t, needed *C.size_t) C.bg_status {
			return call(handle, out, room, needed)
		})
		return C.BG_OK
	})
	if told != nil {
		return nil, told
	}
	return text, err
}

// Board is the board by the record.
func (it *party) Board() (string, error) {
	text, err := it.toldText(func(handle *C.bg_party, out *C.uint8_t, room C.size_t, needed *C.size_t) C.bg_status {
		return C.bg_party_board(handle, out, room, needed)
	})
	return string(text), err
}

// Transcript is the record as a transcript.
func (it *party) Transcript() ([]byte, error) {
	return it.toldText(func(handle *C.bg_party, out *C.uint8_t, room C.size_t, needed *C.size_t) C.bg_status {
		return C.bg_party_transcript(handle, out, room, needed)
	})
}

// Turns are the legal turns of the player to move, such as "move 8-5 6-5"; none where no player is to move.
func (it *party) Turns() ([]string, error) {
	return turnsOf(it.toldText(func(handle *C.bg_party, out *C.uint8_t, room C.size_t, needed *C.size_t) C.bg_status {
		return C.bg_party_turns(handle, out, room, needed)
	}))
}

// Actor is who acts: 0 the referee, 1 X, 2 O, 3 nobody, as the match is over.
func (it *party) Actor() (uint32, error) {
	var actor C.uint32_t
	err := it.told(func(handle *C.bg_party) C.bg_status { return C.bg_party_actor(handle, &actor) })
	return uint32(actor), err
}

// Options are what the player who acts may claim.
func (it *party) Options() (Options, error) {
	var options C.uint32_t
	err := it.told(func(handle *C.bg_party) C.bg_status { return C.bg_party_options(handle, &options) })
	return Options(options), err
}

// Standing is where the match stands.
func (it *party) Standing() (Standing, error) {
	var standing C.bg_standing
	err := it.told(func(handle *C.bg_party) C.bg_status { return C.bg_party_standing(handle, &standing) })
	return standingOf(&standing), err
}

// Try gives the number of the entry that would answer an action of a player (1 X, 2 O); nothing is claimed.
func (it *party) Try(player uint32, action string) (uint32, error) {
	var number, why C.uint32_t
	text := []byte(action)
	err := it.told(func(handle *C.bg_party) C.bg_status {
		return C.bg_party_try(handle, C.uint32_t(player), pointer(text), size(text), &number, &why)
	})
	return uint32(number), illegal(err, why)
}
