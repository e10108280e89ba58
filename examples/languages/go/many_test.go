package bgrelay

import (
	"sync"
	"testing"
)

func TestMany(test *testing.T) {
	var all []Party
	for id := uint64(0); id < 50; id++ {
		seat, _, err := OpenSeat(Begin, 1, Match{id, 1, 1}, Slots{})
		refused(test, err, nil)
		all = append(all, seat)
	}
	all[7].(*Seat).Close()
	for at, ticked := range TickAll(all...) {
		if at == 7 {
			right(test, ticked, Ticked{Closed, nil})
			continue
		}
		packet, err := ReadPacket(ticked.Sent[0].Packet)
		refused(test, err, ticked.Err)
		right(test, [2]uint64{packet.ID, uint64(len(ticked.Sent))}, [2]uint64{uint64(at), 1})
	}
	right(test, len(TickAll()), 0)
}

func TestGoroutines(test *testing.T) {
	referee, _, _ := opened(test)
	var all sync.WaitGroup
	for count := 0; count < 4; count++ {
		all.Add(1)
		go func() {
			defer all.Done()
			for round := 0; round < 300; round++ {
				if taken, err := referee.Take(want, threeOne); err != nil || taken.Answers[0].To != 3 {
					test.Errorf("%v %v", taken, err)
				}
				TickAll(referee, referee)
			}
		}()
	}
	all.Wait()
}
