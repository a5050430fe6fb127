// Package s2union has the cell unions of S2, proved: a set of leaf cells of the sphere as the one normalized list of
// cells that covers it. Names and meanings are those of golang/geo's CellID and CellUnion. All work on unions, lists
// and texts is done by the library libs2union, whose every call is proved; this package turns its statuses into errors.
// What is asked of one cell alone, such as its level, is a few instructions of Go, which the tests compare with the
// library.
//
// # What differs
//
// A CellUnion is a value that never changes, not a slice, and it is always normalized: NewCellUnion checks and
// normalizes what comes in, and whatever has an error to tell refuses numbers that are not cells. Goroutines may share
// unions. The zero value is the empty union. A RegionCoverer covers polygons, lines, circles and boxes in degrees by
// proved calls; how degrees become whole numbers is tested beside S2, not proved.
//
// # Refusals
//
// What comes from outside (lists, texts, files, levels) is refused with an error, which is an Error or wraps one. A
// method for one cell or one place has no error to report, as in golang/geo, and panics with an Error if that is no
// cell or is out of range; CellID.IsValid asks first. A union, an intersection and a difference can't be refused.
// Ranges and coverings take memory in the library, and are refused with ErrMemory if there is none; WholeSphere panics
// then.
//
// A call of C takes some 100 ns on top of its own work. For many cells there are calls such as ContainsCellIDs. The
// methods of CellID that aren't about texts or squares call no C.
package s2union

// #cgo pkg-config: s2union
// #include <s2union.h>
import "C"

import (
	"fmt"
	"math"
	"unsafe"
)

// Error is a refusal. Two refusals of the same kind are equal, so errors.Is finds it.
type Error int32

// The refusals.
const (
	ErrMemory        Error = C.S2U_MEMORY        // the library got no memory
	ErrNoCell        Error = C.S2U_NO_CELL       // a number is not the identifier of a cell, or a text names none
	ErrNotNormalized Error = C.S2U_NO_UNION      // a list is not normalized: NewCellUnion takes it
	ErrArgument      Error = C.S2U_ARGUMENT      // a level, coordinate, modulus, place or order out of range
	ErrMany          Error = C.S2U_MANY          // the result would have more cells than are allowed
	ErrFileShort     Error = C.S2U_FILE_SHORT    // bytes of a file are missing
	ErrFileVersion   Error = C.S2U_FILE_VERSION  // the first byte of a file is not 1
	ErrFileTrailing  Error = C.S2U_FILE_TRAILING // bytes follow the last identifier of a file
	ErrFileCell      Error = C.S2U_FILE_CELL     // an identifier in a file is that of no cell
	ErrCorner        Error = C.S2U_CORNER        // a corner of a polygon is no direction, or opposite the next one
	ErrRing          Error = C.S2U_RING          // a ring of a polygon has a wrong end or fewer than three corners
	ErrShape         Error = C.S2U_SHAPE         // a text or bytes are no shape of polygons
)

// Error says in a few words what was refused. Since 0.2.
func (refusal Error) Error() string { return "s2union: " + refusal.text() }

// PlaceError is a refusal with a place: of the first in a list that is refused, or of the first byte of the first word
// of a text that names no cell; for ErrCorner and ErrRing the number of the corner or of the ring, from 0 on.
type PlaceError struct {
	Place   int
	Refusal Error // ErrNoCell, ErrCorner, ErrRing, ErrArgument of Parents and CellIDsFromPoints, or ErrShapeNumber
}

// Error says in a few words what was refused, and where. Since 0.2.
func (refusal *PlaceError) Error() string {
	return fmt.Sprintf("%v at place %d", refusal.Refusal, refusal.Place)
}

// Unwrap answers the refusal. Since 0.2.
func (refusal *PlaceError) Unwrap() error { return refusal.Refusal }

// noCellAt is the refusal of what is no cell, at a place that a call has reported.
func noCellAt(place C.size_t) error { return &PlaceError{int(place), ErrNoCell} }

// Version is the version of the library that runs, as "1.0.0". Since 0.2.
func Version() string {
	version := uint32(C.s2u_version())
	return fmt.Sprintf("%d.%d.%d", version/10000, version/100%100, version%100)
}

// refused is the error of a status; nil if it is none.
func refused(status C.int32_t) error {
	if status < 0 {
		return Error(status)
	}
	return nil
}

// answer is that of a question. It panics if the question was refused.
func answer(status C.int32_t) bool {
	if status < 0 {
		panic(Error(status))
	}
	return status == 1
}

// always is what a call made that is refused only if there is no memory.
func always[T any](made T, err error) T {
	if err != nil {
		panic(err)
	}
	return made
}

// pointerTo is what the library takes for a list of cells: a pointer, and how many it has.
func pointerTo(ids []CellID) (*C.uint64_t, C.size_t) {
	if len(ids) == 0 {
		return nil, 0
	}
	return (*C.uint64_t)(unsafe.Pointer(&ids[0])), C.size_t(len(ids))
}

func pointerToBytes(bytes []byte) (*C.uint8_t, C.size_t) {
	if len(bytes) == 0 {
		return nil, 0
	}
	return (*C.uint8_t)(unsafe.Pointer(&bytes[0])), C.size_t(len(bytes))
}

func pointerToText(text []byte) (*C.char, C.size_t) {
	at, n := pointerToBytes(text)
	return (*C.char)(unsafe.Pointer(at)), n
}

// narrowed is a number as the library takes it. What doesn't fit becomes a number that every call refuses.
func narrowed(number int) C.uint32_t {
	if number < 0 || number > math.MaxInt32 {
		return math.MaxUint32
	}
	return C.uint32_t(number)
}

func atLeastZero(number int) C.size_t {
	if number < 0 {
		return 0
	}
	return C.size_t(number)
}

// listed is the list that a call makes. It tries room that may suffice, and calls again with what is needed if it
// doesn't.
func listed(room int, call func(out *C.uint64_t, room C.size_t, length *C.size_t) C.int32_t) ([]CellID, error) {
	made := make([]CellID, room)
	var length C.size_t
	at, n := pointerTo(made)
	status := call(at, n, &length)
	if status == C.S2U_ROOM {
		made = make([]CellID, length)
		at, n = pointerTo(made)
		status = call(at, n, &length)
	}
	if status == C.S2U_CORNER || status == C.S2U_RING {
		return nil, &PlaceError{int(length), Error(status)}
	}
	if status != C.S2U_OK {
		return nil, Error(status)
	}
	return trimmed(made[:length]), nil
}

// trimmed is a list in memory of its own size, at most half as much again; nil if it is empty, so that all empty unions
// are the same value.
func trimmed(list []CellID) []CellID {
	if len(list) == 0 {
		return nil
	}
	if len(list) < cap(list)/3*2 {
		return append([]CellID(nil), list...)
	}
	return list
}

// text is what a call writes of cells, in at most this many bytes.
func text(most int, call func(out *C.char, room C.size_t, length *C.size_t) C.int32_t) []byte {
	room := make([]byte, most)
	var length C.size_t
	at, n := pointerToText(room)
	answer(call(at, n, &length))
	return room[:length]
}
