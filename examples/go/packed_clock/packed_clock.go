// A packed clock that goroutines share without a lock. Run it in this folder, once packaging/library has made the library, with
//
//	go run .
package main

/*
#cgo CFLAGS: -I${SRCDIR}/../../../include
#cgo LDFLAGS: ${SRCDIR}/../../../crates/hlc_c/out/libhlc.a
#include "hlc.h"
*/
import "C"

import (
	"errors"
	"fmt"
	"os"
	"sort"
	"sync"
	"sync/atomic"
)

const (
	bits       = 16  // how many low bits of a stamp are c; all nodes have the same
	limit      = 500 // how far a stamp may be ahead of its reading
	goroutines = 4
	events     = 10_000
)

// Stamp is the stamp of an event: l above the low bits, which are c. Stamps are compared as numbers.
type Stamp uint64

func (s Stamp) String() string { return fmt.Sprintf("%d,%d", s>>bits, s&(1<<bits-1)) }

// Clock is a node's clock: its last stamp.
type Clock struct{ word atomic.Uint64 }

// Status is what a call came to: a status of hlc.h that isn't HLC_OK.
type Status uint32

func (s Status) Error() string { return C.GoString(C.hlc_status_text(C.uint32_t(s))) }

// Tick gives the stamp of a send or a local event.
func (c *Clock) Tick(reading uint64) (Stamp, error) {
	return c.advance(func(old C.uint64_t, next *C.uint64_t) C.hlc_status {
		return C.hlc_packed_after(old, bits, C.uint64_t(reading), limit, next)
	})
}

// Merge gives the stamp of a delivery.
func (c *Clock) Merge(message Stamp, reading uint64) (Stamp, error) {
	return c.advance(func(old C.uint64_t, next *C.uint64_t) C.hlc_status {
		return C.hlc_packed_after_message(old, C.uint64_t(message), bits, C.uint64_t(reading), limit, next)
	})
}

// advance takes the number that comes after the clock's, and puts it there if nobody was faster.
func (c *Clock) advance(after func(old C.uint64_t, next *C.uint64_t) C.hlc_status) (Stamp, error) {
	for {
		var next C.uint64_t
		old := c.word.Load()
		if status := after(C.uint64_t(old), &next); status != C.HLC_OK {
			return 0, Status(status)
		}
		if c.word.CompareAndSwap(old, uint64(next)) {
			return Stamp(next), nil
		}
	}
}

// ticks gives the stamps of as many ticks, one after another.
func ticks(clock *Clock, reading uint64) ([]Stamp, error) {
	stamps := make([]Stamp, 0, events)
	for len(stamps) < events {
		stamp, err := clock.Tick(reading)
		if err != nil {
			return nil, err
		}
		if len(stamps) > 0 && stamp <= stamps[len(stamps)-1] {
			return nil, errors.New("stamps that don't rise")
		}
		stamps = append(stamps, stamp)
	}
	return stamps, nil
}

func run() error {
	var clock Clock
	var wait sync.WaitGroup
	each, faults := make([][]Stamp, goroutines), make([]error, goroutines)
	for i := range each {
		wait.Add(1)
		go func(i int) {
			defer wait.Done()
			each[i], faults[i] = ticks(&clock, 1000)
		}(i)
	}
	wait.Wait()
	var all []Stamp
	for i, stamps := range each {
		if faults[i] != nil {
			return faults[i]
		}
		all = append(all, stamps...)
	}
	sort.Slice(all, func(i, j int) bool { return all[i] < all[j] })
	different := 1
	for i := 1; i < len(all); i++ {
		if all[i] != all[i-1] {
			different++
		}
	}
	fmt.Printf("%d different stamps, the last %v\n", different, all[len(all)-1])
	received, err := clock.Merge(1200<<bits|5, 1000)
	if err != nil {
		return err
	}
	fmt.Println("received", received)
	if _, err := clock.Merge(9000<<bits, 1000); errors.Is(err, Status(C.HLC_MESSAGE_TOO_FAR)) {
		fmt.Println("refused, still", Stamp(clock.word.Load()))
	}
	return nil
}

func main() {
	if err := run(); err != nil {
		fmt.Fprintln(os.Stderr, err)
		os.Exit(1)
	}
}
