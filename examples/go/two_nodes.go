// A message between two nodes, and one from a clock that is far ahead. Run it in this folder, once
// packaging/library has made the library, with
//
//	go run .
package main

/*
#cgo CFLAGS: -I${SRCDIR}/../../include
#cgo LDFLAGS: ${SRCDIR}/../../crates/hlc_c/out/libhlc.a
#include "hlc.h"
*/
import "C"

import (
	"errors"
	"fmt"
	"os"
)

// Stamp is the stamp of an event.
type Stamp struct {
	L uint64
	C uint32
}

// Clock is a node's clock, for one goroutine at a time.
type Clock struct{ last C.hlc_stamp }

var (
	ErrReading = errors.New("the reading is 0 or too large")
	ErrNoRoom  = errors.New("a counter is full")
	ErrTooFar  = errors.New("too far ahead of the reading")
)

// Tick gives the stamp of a send or a local event.
func (c *Clock) Tick(reading uint64) (Stamp, error) {
	return c.answer(C.hlc_tick(&c.last, C.uint64_t(reading)))
}

// Merge gives the stamp of a delivery, unless it would be ahead of the reading by more than the limit.
func (c *Clock) Merge(message Stamp, reading, limit uint64) (Stamp, error) {
	sent := C.hlc_stamp{l: C.uint64_t(message.L), c: C.uint32_t(message.C)}
	return c.answer(C.hlc_merge_within(&c.last, sent, C.uint64_t(reading), C.uint64_t(limit)))
}

func (c *Clock) answer(status C.hlc_status) (Stamp, error) {
	stamp := Stamp{uint64(c.last.l), uint32(c.last.c)}
	switch status {
	case C.HLC_OK:
		return stamp, nil
	case C.HLC_READING:
		return stamp, ErrReading
	case C.HLC_NO_ROOM:
		return stamp, ErrNoRoom
	default:
		return stamp, ErrTooFar
	}
}

func (s Stamp) String() string { return fmt.Sprintf("%d,%d", s.L, s.C) }

func run() error {
	const limit = 500
	var ours, theirs Clock
	if _, err := theirs.Tick(100); err != nil {
		return err
	}
	sent, err := theirs.Tick(100)
	if err != nil {
		return err
	}
	fmt.Println("sent", sent)
	received, err := ours.Merge(sent, 97, limit)
	if err != nil {
		return err
	}
	fmt.Println("received", received)
	if sent, err = theirs.Tick(9000); err != nil {
		return err
	}
	if still, err := ours.Merge(sent, 98, limit); errors.Is(err, ErrTooFar) {
		fmt.Println("refused, still", still)
	}
	return nil
}

func main() {
	if err := run(); err != nil {
		fmt.Fprintln(os.Stderr, err)
		os.Exit(1)
	}
}
