// Package bgrelay is the relay of bg_relay.h for Go: what a referee, a seat and a watcher of a match do, and texts of
// matches.
//
// The library opens nothing and waits for nothing: the program carries the packets, and keeps the slots.
// include/bg_relay.h has all that a call promises, and docs/USING.md the way from here to a server.
package bgrelay

/*
#cgo pkg-config: bg_relay
#include "bg_relay.h"
#if BG_ABI != 2 || BG_VERSION < 203
#error "this package is for the version 2.3 of bg_relay.h, and later ones of the same BG_ABI"
#endif
*/
import "C"

import (
	"errors"
	"fmt"
)

// Status is what a call answers where it is not BG_OK. It is an error: errors.Is(err, bgrelay.NotYourTurn).
type Status uint32

// The statuses of bg_relay.h.
const (
	Memory         Status = C.BG_MEMORY
	BadArgument    Status = C.BG_BAD_ARGUMENT
	NotOpen        Status = C.BG_NOT_OPEN
	WrongParty     Status = C.BG_WRONG_PARTY
	NotAPacket     Status = C.BG_NOT_A_PACKET
	NotAnAction    Status = C.BG_NOT_AN_ACTION
	Damaged        Status = C.BG_DAMAGED
	WrongMatch     Status = C.BG_WRONG_MATCH
	WrongSave      Status = C.BG_WRONG_SAVE
	SavesSpent     Status = C.BG_SAVES_SPENT
	NotYourTurn    Status = C.BG_NOT_YOUR_TURN
	AlreadyClaimed Status = C.BG_ALREADY_CLAIMED
	Illegal        Status = C.BG_ILLEGAL
	NotDue         Status = C.BG_NOT_DUE
	WordRefused    Status = C.BG_WORD_REFUSED
	NotToMove      Status = C.BG_NOT_TO_MOVE
	RefusedText    Status = C.BG_REFUSED
	NotEmpty       Status = C.BG_NOT_EMPTY
	NothingSaved   Status = C.BG_NOTHING_SAVED
	NotASave       Status = C.BG_NOT_A_SAVE
	Busy           Status = C.BG_BUSY
	Closed         Status = C.BG_CLOSED
	Copied         Status = C.BG_COPIED
	OtherSender    Status = C.BG_OTHER_SENDER
	NoXGID         Status = C.BG_NO_XGID
)

// Name is the name of a status, such as "BG_MEMORY".
func (status Status) Name() string { return C.GoString(C.bg_status_name(C.bg_status(status))) }

// Text is what a status says, in English.
func (status Status) Text() string {
	text, _ := textOf(func(out *C.uint8_t, room C.size_t, needed *C.size_t) C.bg_status {
		return C.bg_status_text(C.bg_status(status), out, room, needed)
	})
	return string(text)
}

func (status Status) Error() string { return status.Name() + ": " + status.Text() }

// IllegalError says why an action does not follow: BG_WHY_.., such as 3 where the phase is another one. It is Illegal.
type IllegalError struct{ Why uint32 }

func (err IllegalError) Error() string        { return fmt.Sprintf("%v (%d)", Illegal, err.Why) }
func (err IllegalError) Is(target error) bool { return target == Illegal }

// LineError has the line of a match file that is refused. It is RefusedText.
type LineError struct{ Line uint32 }

func (err LineError) Error() string        { return fmt.Sprintf("%v: line %d", RefusedText, err.Line) }
func (err LineError) Is(target error) bool { return target == RefusedText }

var (
	// ErrMisplaced says that a slot has a saved text that belongs into the other one: whoever goes on writes over the
	// only save.
	ErrMisplaced = errors.New("a saved text is in the wrong slot")
	// ErrUntold says that the referee holds entries that are not saved yet, and nobody may see what they say.
	ErrUntold = errors.New("the referee holds entries that are not saved yet")
	// ErrSaving says that a save of the party is under way: say first what became of it.
	ErrSaving = errors.New("a save of the party is under way")
	// ErrEnded says that a save is not under way any more.
	ErrEnded = errors.New("this save is not under way")
)

// failed gives the error of a status; nil where it is BG_OK.
func failed(status C.bg_status) error {
	if status == C.BG_OK {
		return nil
	}
	return Status(status)
}

// pointer to the bytes of a slice; nil where it has none.
func pointer(bytes []byte) *C.uint8_t {
	if len(bytes) == 0 {
		return nil
	}
	return (*C.uint8_t)(&bytes[0])
}

func size(bytes []byte) C.size_t { return C.size_t(len(bytes)) }

// textOf gives the text that a call writes, which is made again where the room is too small.
func textOf(call func(out *C.uint8_t, room C.size_t, needed *C.size_t) C.bg_status) ([]byte, error) {
	out := make([]byte, 1024)
	for {
		var needed C.size_t
		status := call(pointer(out), size(out), &needed)
		if status == C.BG_OK {
			return out[:needed], nil
		}
		if status != C.BG_NO_ROOM {
			return nil, failed(status)
		}
		out = make([]byte, needed)
	}
}

// Version is that of the library, such as "2.3". Linking chose a library of the right BG_ABI.
func Version() string { return C.GoString(C.bg_version_text()) }

// IsKnown says whether the library that was loaded has all calls of this package.
func IsKnown() bool { return C.bg_abi() == C.BG_ABI && C.bg_version() >= C.BG_VERSION }
