package bgrelay

/*
#include <stdlib.h>
#include "bg_relay.h"
*/
import "C"

import (
	"sort"
	"sync"
	"unsafe"
)

// party is what the referee, a seat and a watcher have in common. Its handle stands in memory of C, since it must not
// move. Of two goroutines that use it the second waits.
//
// What tells of the record counts all entries that a party holds. Of a referee nothing is told while it holds entries
// that are not saved: then these answer ErrUntold, and Shown and Lines tell of the saved ones.
type party struct {
	lock   sync.Mutex
	handle *C.bg_party
	saving *Save
}

// Party is a Referee, a Seat or a Watcher.
type Party interface{ common() *party }

func (it *party) common() *party { return it }

// fresh gives a party whose handle is not open.
func fresh() party {
	return party{handle: (*C.bg_party)(C.calloc(1, C.sizeof_bg_party))}
}

// enter locks a party that is open.
func (it *party) enter() error {
	it.lock.Lock()
	if it.handle == nil {
		it.lock.Unlock()
		return Closed
	}
	return nil
}

// change locks a party that is open, and of which no save is under way: nothing changes meanwhile, and nothing is sent.
func (it *party) change() error {
	if err := it.enter(); err != nil {
		return err
	}
	if it.saving != nil {
		it.lock.Unlock()
		return ErrSaving
	}
	return nil
}

// Close lets the party go: what is not saved is lost.
func (it *party) Close() {
	it.lock.Lock()
	defer it.lock.Unlock()
	it.close()
}

func (it *party) close() {
	it.saving = nil
	if it.handle != nil {
		C.bg_party_close(it.handle)
		C.free(unsafe.Pointer(it.handle))
		it.handle = nil
	}
}

// illegal adds why an action does not follow.
func illegal(err error, why C.uint32_t) error {
	if err == Illegal {
		return IllegalError{uint32(why)}
	}
	return err
}

// take makes a call that takes a packet, or what is as good as one.
func (it *party) take(call func(*C.bg_party, *C.bg_outcome, *C.bg_datagram) C.bg_status) (Taken, error) {
	var outcome C.bg_outcome
	var answer C.bg_datagram
	if err := it.change(); err != nil {
		return Taken{}, err
	}
	defer it.lock.Unlock()
	if err := failed(call(it.handle, &outcome, &answer)); err != nil {
		return Taken{}, err
	}
	return Taken{Took(outcome.kind), uint32(outcome.number), uint32(outcome.why), datagramsOf(&answer)}, nil
}

// Tick gives what is to be sent now: ask about once a second, and at once after a save.
func (it *party) Tick() ([]Datagram, error) {
	var first, second C.bg_datagram
	if err := it.change(); err != nil {
		return nil, err
	}
	defer it.lock.Unlock()
	if err := failed(C.bg_party_tick(it.handle, &first, &second)); err != nil {
		return nil, err
	}
	return datagramsOf(&first, &second), nil
}

// Ticked is what one of many parties sends at a tick, or why it was not ticked.
type Ticked struct {
	Err  error
	Sent []Datagram
}

// TickAll ticks many parties by one call. One that refuses, as its save is under way, is no reason not to tick the
// others.
func TickAll(parties ...Party) []Ticked {
	ticked, handles := make([]Ticked, len(parties)), C.calloc(C.size_t(len(parties))+1, C.sizeof_uintptr_t)
	defer C.free(handles)
	for _, it := range inOrder(parties) {
		it.lock.Lock()
		defer it.lock.Unlock()
	}
	made := make([]C.bg_ticked, len(parties)+1)
	at := make([]int, 0, len(parties))
	list := (*[1 << 28]*C.bg_party)(handles)
	for number, one := range parties {
		switch it := one.common(); {
		case it.handle == nil:
			ticked[number].Err = Closed
		case it.saving != nil:
			ticked[number].Err = ErrSaving
		default:
			list[len(at)] = it.handle
			at = append(at, number)
		}
	}
	var sending C.size_t
	C.bg_parties_tick((**C.bg_party)(handles), C.size_t(len(at)), &made[0], &sending)
	for place, number := range at {
		it := &made[place]
		ticked[number].Err = failed(it.status)
		if it.status == C.BG_OK {
			ticked[number].Sent = datagramsOf(&it.packets[0], &it.packets[1])
		}
	}
	return ticked
}

// inOrder gives each party once, in an order that all callers share, so that none waits for another for ever.
func inOrder(parties []Party) []*party {
	seen := map[*party]bool{}
	var all []*party
	for _, one := range parties {
		if it := one.common(); !seen[it] {
			seen[it] = true
			all = append(all, it)
		}
	}
	sort.Slice(all, func(a, b int) bool {
		return uintptr(unsafe.Pointer(all[a])) < uintptr(unsafe.Pointer(all[b]))
	})
	return all
}
