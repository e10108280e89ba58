package bgrelay

/*
#include "bg_relay.h"
*/
import "C"

import "errors"

// Open is how a party is to be opened.
type Open int

const (
	// Begin opens a party of a new match: both slots must be empty.
	Begin Open = iota
	// Resume opens a party of a match that goes on: the slots must have a save.
	Resume
	// Either does the one or the other, where no save was ever marked: a first save may have been cut short.
	Either
)

// saver is a party that saves: the referee or a seat.
type saver struct{ party }

func (it *party) begin(number uint32, of Match, slots Slots) error {
	return failed(C.bg_party_begin(it.handle, C.uint32_t(number), C.uint64_t(of.ID), C.uint32_t(of.Length),
		C.uint32_t(of.Rules), pointer(slots[0]), size(slots[0]), pointer(slots[1]), size(slots[1])))
}

func (it *party) resume(number uint32, of Match, slots Slots) (Saved, error) {
	var saved C.bg_saved
	err := failed(C.bg_party_resume(it.handle, C.uint32_t(number), C.uint64_t(of.ID), C.uint32_t(of.Length),
		C.uint32_t(of.Rules), pointer(slots[0]), size(slots[0]), pointer(slots[1]), size(slots[1]), &saved))
	if err == nil && saved.misplaced != 0 {
		err = ErrMisplaced
	}
	return savedOf(&saved), err
}

func (it *saver) open(how Open, number uint32, of Match, slots Slots) (Saved, error) {
	if how == Begin || how == Either && len(slots[0])+len(slots[1]) == 0 {
		return Saved{}, it.begin(number, of, slots)
	}
	saved, err := it.resume(number, of, slots)
	if how == Either && errors.Is(err, NothingSaved) {
		return Saved{}, it.begin(number, of, Slots{})
	}
	return saved, err
}

// Save is a save that is under way: Text goes whole to Slot, and Number is what a fence asks for.
type Save struct {
	Slot, Number uint32
	Text         []byte
	of           *saver
}

// BeginSave begins the next save. Write its text to its slot, and then say so. Until then the party takes, adds and
// sends nothing.
func (it *saver) BeginSave() (*Save, error) {
	if err := it.change(); err != nil {
		return nil, err
	}
	defer it.lock.Unlock()
	var slot, number C.uint32_t
	text, err := textOf(func(out *C.uint8_t, room C.size_t, needed *C.size_t) C.bg_status {
		return C.bg_party_to_save(it.handle, &slot, &number, out, room, needed)
	})
	if err != nil {
		return nil, err
	}
	it.saving = &Save{uint32(slot), uint32(number), text, it}
	return it.saving, nil
}

// ends notes that a save is not under way any more. The party is locked.
func (save *Save) ends() error {
	if save.of.saving != save {
		return ErrEnded
	}
	save.of.saving = nil
	return nil
}

// Written says that the slot has the text, and keeps it. Tick the party then.
func (save *Save) Written() error {
	it := save.of
	it.lock.Lock()
	defer it.lock.Unlock()
	if err := save.ends(); err != nil {
		return err
	}
	return failed(C.bg_party_mark_saved(it.handle, C.uint32_t(save.Number)))
}

// Failed says that the text was not written, or that nobody knows. The party is closed: open it again from its slots.
func (save *Save) Failed() error {
	it := save.of
	it.lock.Lock()
	defer it.lock.Unlock()
	if err := save.ends(); err != nil {
		return err
	}
	it.close()
	return nil
}

// Save writes the next save by a function that returns once the text is kept. Where that fails, the party is closed.
func (it *saver) Save(write func(slot uint32, text []byte) error) error {
	save, err := it.BeginSave()
	if err != nil {
		return err
	}
	if err := write(save.Slot, save.Text); err != nil {
		if failed := save.Failed(); failed != nil {
			return failed
		}
		return err
	}
	return save.Written()
}
