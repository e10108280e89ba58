package bgrelay

/*
#include "bg_relay.h"
*/
import "C"

import (
	"errors"
	"strings"
)

// Match is its number, the points that it goes to (1 to 99), and its rules (1 or 2).
type Match struct {
	ID     uint64
	Length uint32
	Rules  uint32
}

// Judged is what is said of a transcript or a file. Number counts its entries, or is the line that is refused.
type Judged struct {
	IsFine bool
	Number uint32
	Text   string
}

// Judge judges a transcript: the text has the board after its longest legal part, and the verdict.
func Judge(transcript []byte) (Judged, error) {
	var verdict C.bg_verdict
	text, err := textOf(func(out *C.uint8_t, room C.size_t, needed *C.size_t) C.bg_status {
		return C.bg_judge(pointer(transcript), size(transcript), &verdict, out, room, needed)
	})
	return Judged{verdict.kind == 0 && err == nil, uint32(verdict.number), string(text)}, err
}

// Check gives the line that `bg_relay check` prints of a transcript or a match file. 0 columns are no screen.
func Check(name string, file []byte, columns uint32) (Judged, error) {
	var verdict C.bg_verdict
	named := []byte(name)
	text, err := textOf(func(out *C.uint8_t, room C.size_t, needed *C.size_t) C.bg_status {
		return C.bg_check(pointer(named), size(named), pointer(file), size(file), C.uint32_t(columns), &verdict, out, room,
			needed)
	})
	return Judged{verdict.kind == 0 && err == nil, uint32(verdict.number), string(text)}, err
}

// Board is the board after a transcript.
func Board(transcript []byte) (string, error) {
	text, err := textOf(func(out *C.uint8_t, room C.size_t, needed *C.size_t) C.bg_status {
		return C.bg_transcript_board(pointer(transcript), size(transcript), out, room, needed)
	})
	return string(text), err
}

// linesOf splits a text into its lines.
func linesOf(text []byte) []string {
	if len(text) == 0 {
		return nil
	}
	return strings.Split(strings.TrimSuffix(string(text), "\n"), "\n")
}

// turnsOf splits the lines of turns; there are none where no player is to move.
func turnsOf(text []byte, err error) ([]string, error) {
	if errors.Is(err, NotToMove) {
		return nil, nil
	}
	return linesOf(text), err
}

// Turns gives each legal turn after a transcript, such as "move 8-5 6-5"; none where no player is to move.
func Turns(transcript []byte) ([]string, error) {
	return turnsOf(textOf(func(out *C.uint8_t, room C.size_t, needed *C.size_t) C.bg_status {
		return C.bg_transcript_turns(pointer(transcript), size(transcript), out, room, needed)
	}))
}

// MatImport gives the transcript of the match that a match file (.mat) tells, whose rules the file does not say.
func MatImport(rules uint32, file []byte) (string, error) {
	var verdict C.bg_verdict
	text, err := textOf(func(out *C.uint8_t, room C.size_t, needed *C.size_t) C.bg_status {
		return C.bg_mat_import(C.uint32_t(rules), pointer(file), size(file), &verdict, out, room, needed)
	})
	if errors.Is(err, RefusedText) {
		err = LineError{uint32(verdict.number)}
	}
	return string(text), err
}

// MatExport gives the match file of a transcript.
func MatExport(transcript []byte) (string, error) {
	text, err := textOf(func(out *C.uint8_t, room C.size_t, needed *C.size_t) C.bg_status {
		return C.bg_mat_export(pointer(transcript), size(transcript), out, room, needed)
	})
	return string(text), err
}

// Numbering is in whose numbers a picture has the points.
type Numbering uint32

// The numberings of bg_relay.h.
const (
	NumberingMover Numbering = C.BG_NUMBERING_MOVER
	NumberingX     Numbering = C.BG_NUMBERING_X
)

// Picture is the position after a transcript, as SVG.
func Picture(transcript []byte, numbering Numbering) (string, error) {
	text, err := textOf(func(out *C.uint8_t, room C.size_t, needed *C.size_t) C.bg_status {
		return C.bg_picture(pointer(transcript), size(transcript), C.uint32_t(numbering), out, room, needed)
	})
	return string(text), err
}

// PageWords are what stands on a page beside the match. A browser asks for it again after so many seconds, unless these
// are 0.
type PageWords struct {
	Title, X, O string
	Numbering   Numbering
	Seconds     uint32
}

// Page is a whole match as a page of HTML.
func Page(transcript []byte, words PageWords) (string, error) {
	title, x, o := []byte(words.Title), []byte(words.X), []byte(words.O)
	text, err := textOf(func(out *C.uint8_t, room C.size_t, needed *C.size_t) C.bg_status {
		return C.bg_page(pointer(transcript), size(transcript), pointer(title), size(title), pointer(x), size(x),
			pointer(o), size(o), C.uint32_t(words.Numbering), C.uint32_t(words.Seconds), out, room, needed)
	})
	return string(text), err
}

// PositionID is what GNU Backgammon calls the board after a transcript.
func PositionID(transcript []byte) (string, error) {
	text, err := textOf(func(out *C.uint8_t, room C.size_t, needed *C.size_t) C.bg_status {
		return C.bg_position_id(pointer(transcript), size(transcript), out, room, needed)
	})
	return string(text), err
}

// MatchID is what GNU Backgammon calls all else of it.
func MatchID(transcript []byte) (string, error) {
	text, err := textOf(func(out *C.uint8_t, room C.size_t, needed *C.size_t) C.bg_status {
		return C.bg_match_id(pointer(transcript), size(transcript), out, room, needed)
	})
	return string(text), err
}

// XGID is what eXtreme Gammon calls the position.
func XGID(transcript []byte) (string, error) {
	text, err := textOf(func(out *C.uint8_t, room C.size_t, needed *C.size_t) C.bg_status {
		return C.bg_xgid(pointer(transcript), size(transcript), out, room, needed)
	})
	return string(text), err
}
