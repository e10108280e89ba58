package bgrelay

/*
#include "bg_relay.h"
*/
import "C"

import "unsafe"

// Packet is whose packet it is, and of which match: to route it. Its kind is 1 a want, 2 a claim, 3 entries.
type Packet struct {
	ID                                 uint64
	Rules, Kind, Sender, Number, Count uint32
}

// ReadPacket says whose packet it is, and of which match.
func ReadPacket(packet []byte) (Packet, error) {
	var it C.bg_packet
	if err := failed(C.bg_packet_read(pointer(packet), size(packet), &it)); err != nil {
		return Packet{}, err
	}
	return Packet{uint64(it.id), uint32(it.rules), uint32(it.kind), uint32(it.sender), uint32(it.number),
		uint32(it.count)}, nil
}

// Peeked is what a saved text is of.
type Peeked struct {
	Of                          Match
	Party, Save, Entries, Claim uint32
}

// PeekSaved says which party and which match a saved text is of.
func PeekSaved(saved []byte) (Peeked, error) {
	var it C.bg_peeked
	if err := failed(C.bg_saved_peek(pointer(saved), size(saved), &it)); err != nil {
		return Peeked{}, err
	}
	of := Match{uint64(it.id), uint32(it.match_length), uint32(it.rules)}
	return Peeked{of, uint32(it.party), uint32(it.save), uint32(it.entries), uint32(it.claim)}, nil
}

// Slots are both slots of a party, as they were read; an empty one was never written.
type Slots [2][]byte

// Saved is what two slots restore. Misplaced has 1 for slot 0 and 2 for slot 1, where a text belongs into the other one.
type Saved struct {
	Found                                 bool
	Slot, Save, Entries, Claim, Misplaced uint32
}

func savedOf(it *C.bg_saved) Saved {
	return Saved{it.found == 1, uint32(it.slot), uint32(it.save), uint32(it.entries), uint32(it.claim),
		uint32(it.misplaced)}
}

// ReadSlots says what the two slots of a party restore.
func ReadSlots(party uint32, of Match, slots Slots) (Saved, error) {
	var it C.bg_saved
	err := failed(C.bg_slots_read(C.uint32_t(party), C.uint64_t(of.ID), C.uint32_t(of.Length), C.uint32_t(of.Rules),
		pointer(slots[0]), size(slots[0]), pointer(slots[1]), size(slots[1]), &it))
	return savedOf(&it), err
}

// Datagram is a packet that is to be sent to a party.
type Datagram struct {
	To     uint32
	Packet []byte
}

// datagramsOf gives those that are to be sent.
func datagramsOf(all ...*C.bg_datagram) []Datagram {
	var sent []Datagram
	for _, it := range all {
		if it.length > 0 {
			packet := C.GoBytes(unsafe.Pointer(&it.bytes[0]), C.int(it.length))
			sent = append(sent, Datagram{uint32(it.to), packet})
		}
	}
	return sent
}

// Took is what a party made of a packet.
type Took uint32

// What bg_relay.h says that a party makes of a packet.
const (
	TookNothing     Took = C.BG_TOOK_NOTHING
	TookOtherMatch  Took = C.BG_TOOK_OTHER_MATCH
	TookAnswered    Took = C.BG_TOOK_ANSWERED
	TookAccepted    Took = C.BG_TOOK_ACCEPTED
	TookAhead       Took = C.BG_TOOK_AHEAD
	TookNotYourTurn Took = C.BG_TOOK_NOT_YOUR_TURN
	TookIllegal     Took = C.BG_TOOK_ILLEGAL
	TookWordRefused Took = C.BG_TOOK_WORD_REFUSED
	TookGrew        Took = C.BG_TOOK_GREW
	TookGap         Took = C.BG_TOOK_GAP
	TookConflict    Took = C.BG_TOOK_CONFLICT
	TookInvalid     Took = C.BG_TOOK_INVALID
)

// Taken is what a party made of a packet, and what is to be sent: one answer or none. Save after TookAccepted.
type Taken struct {
	Kind        Took
	Number, Why uint32
	Answers     []Datagram
}

// Claim is what a seat claimed, and the number of the entry that answers it; 0 where there is none.
type Claim struct {
	Number uint32
	Action string
}

// Phase is what is to happen next in a match.
type Phase uint32

// The phases of bg_relay.h.
const (
	PhaseOpening  Phase = C.BG_PHASE_OPENING
	PhaseToAct    Phase = C.BG_PHASE_TO_ACT
	PhaseDoubled  Phase = C.BG_PHASE_DOUBLED
	PhaseToMove   Phase = C.BG_PHASE_TO_MOVE
	PhaseResigned Phase = C.BG_PHASE_RESIGNED
	PhaseOver     Phase = C.BG_PHASE_OVER
)

// Standing is where a match stands. The checkers are numbered as in bg_standing: [0] off, [25] on the bar.
type Standing struct {
	MatchLength, Rules, Game uint32
	Crawford                 bool
	XScore, OScore           uint32
	Cube, CubeOwner          uint32
	Phase                    Phase
	Player, Level            uint32
	Dice                     [2]uint32
	Actor                    uint32
	XPips, OPips             uint32
	XCheckers, OCheckers     [26]uint32
}

func standingOf(it *C.bg_standing) Standing {
	standing := Standing{
		MatchLength: uint32(it.match_length), Rules: uint32(it.rules), Game: uint32(it.game),
		Crawford: it.crawford == 1, XScore: uint32(it.x_score), OScore: uint32(it.o_score),
		Cube: uint32(it.cube), CubeOwner: uint32(it.cube_owner), Phase: Phase(it.phase),
		Player: uint32(it.player), Level: uint32(it.level), Dice: [2]uint32{uint32(it.dice[0]), uint32(it.dice[1])},
		Actor: uint32(it.actor), XPips: uint32(it.x_pips), OPips: uint32(it.o_pips),
	}
	for at := range standing.XCheckers {
		standing.XCheckers[at], standing.OCheckers[at] = uint32(it.x_checkers[at]), uint32(it.o_checkers[at])
	}
	return standing
}

// Shown is what a party may show: so many entries, their transcript, and where the match stands after them. A referee
// that holds more has to save; a seat's claim waits for its answer while its number is more than what is held.
type Shown struct {
	Entries, Held, Claim uint32
	Standing             Standing
	Transcript           []byte
}

// Options is what the player who acts may claim, as bits.
type Options uint32

// The options of bg_relay.h.
const (
	MayRoll   Options = C.BG_MAY_ROLL
	MayDouble Options = C.BG_MAY_DOUBLE
	MayTake   Options = C.BG_MAY_TAKE
	MayDrop   Options = C.BG_MAY_DROP
	MayTurn   Options = C.BG_MAY_TURN
	MayResign Options = C.BG_MAY_RESIGN
	MayAccept Options = C.BG_MAY_ACCEPT
	MayReject Options = C.BG_MAY_REJECT
)
