package s2union

// #include <s2union.h>
import "C"

import (
	"bytes"
	"unsafe"
)

// Point is a leaf's face, 0 to 5, and its coordinates there, below 2^30.
type Point struct {
	Face, I, J uint32
}

// FacePoint is the name of Point in 1.0.
type FacePoint = Point

// Levels are the levels of many cells, in one call. A number that is no cell is refused with a PlaceError, here and in
// the other calls for many cells. Since 0.2.
func Levels(ids []CellID) ([]uint8, error) {
	levels := make([]uint8, len(ids))
	var bad C.size_t
	at, n := pointerTo(ids)
	out, room := pointerToBytes(levels)
	answer(C.s2u_levels(at, n, out, room, &bad))
	return found(levels, ids, bad)
}

// Parents are the cells of a level that contain the cells, in one call. A PlaceError with ErrArgument: the level is
// deeper than a cell's. Since 0.2.
func Parents(ids []CellID, level int) ([]CellID, error) {
	return each(ids, func(at *C.uint64_t, n C.size_t, out *C.uint64_t, room C.size_t, bad *C.size_t) C.int32_t {
		return C.s2u_parents(at, n, narrowed(level), out, room, bad)
	})
}

// RangeMins are the first leaves of many cells, in one call. Since 0.2.
func RangeMins(ids []CellID) ([]CellID, error) {
	return each(ids, func(at *C.uint64_t, n C.size_t, out *C.uint64_t, room C.size_t, bad *C.size_t) C.int32_t {
		return C.s2u_range_mins(at, n, out, room, bad)
	})
}

// RangeMaxes are the last leaves of many cells, in one call. Since 0.2.
func RangeMaxes(ids []CellID) ([]CellID, error) {
	return each(ids, func(at *C.uint64_t, n C.size_t, out *C.uint64_t, room C.size_t, bad *C.size_t) C.int32_t {
		return C.s2u_range_maxes(at, n, out, room, bad)
	})
}

// Tokens are the tokens of many cells, in one call. Since 0.2.
func Tokens(ids []CellID) ([]string, error) {
	fields := make([]byte, C.S2U_MOST_TOKEN*len(ids))
	var bad C.size_t
	at, n := pointerTo(ids)
	out, room := pointerToText(fields)
	answer(C.s2u_token_fields(at, n, out, room, &bad))
	tokens := make([]string, len(ids))
	for k := range tokens {
		tokens[k] = string(bytes.TrimRight(fields[C.S2U_MOST_TOKEN*k:C.S2U_MOST_TOKEN*(k+1)], "\x00"))
	}
	return found(tokens, ids, bad)
}

// CellIDsFromTokens are the cells that a text names, in its order and each time that it names one: words with blanks,
// tabs, line ends or commas between them, each a token or a debug text. A PlaceError has the place where the first word
// begins that names no cell. Since 1.0.
func CellIDsFromTokens(words string) ([]CellID, error) { return named([]byte(words)) }

// named are the cells that a text names.
func named(words []byte) ([]CellID, error) {
	at, n := pointerToText(words)
	ids := make([]CellID, roomOfFromTokens(len(words)))
	var length C.size_t
	out, room := pointerTo(ids)
	if status := C.s2u_from_tokens(at, n, out, room, &length); status == C.S2U_NO_CELL {
		return nil, noCellAt(length)
	} else if status != C.S2U_OK {
		return nil, Error(status)
	}
	return trimmed(ids[:length]), nil
}

// CellIDsFromPoints are the leaves at many points, in one call. A PlaceError with ErrArgument: one is on no face. Since
// 0.2.
func CellIDsFromPoints(points []Point) ([]CellID, error) {
	leaves := make([]CellID, len(points))
	if len(points) == 0 {
		return leaves, nil
	}
	var bad C.size_t
	out, room := pointerTo(leaves)
	answer(C.s2u_from_points((*C.s2u_point)(unsafe.Pointer(&points[0])), C.size_t(len(points)), out, room, &bad))
	if int(bad) < len(points) {
		return nil, &PlaceError{int(bad), ErrArgument}
	}
	return leaves, nil
}

type forEach func(at *C.uint64_t, n C.size_t, out *C.uint64_t, room C.size_t, bad *C.size_t) C.int32_t

// each is what a call answers for each cell.
func each(ids []CellID, call forEach) ([]CellID, error) {
	made := make([]CellID, len(ids))
	var bad C.size_t
	at, n := pointerTo(ids)
	out, room := pointerTo(made)
	answer(call(at, n, out, room, &bad))
	return found(made, ids, bad)
}

// found is what a call made for each cell, if each has an answer; bad is the place of the first that has none.
func found[T any](made []T, ids []CellID, bad C.size_t) ([]T, error) {
	switch {
	case int(bad) == len(ids):
		return made, nil
	case ids[bad].IsValid():
		return nil, &PlaceError{int(bad), ErrArgument}
	default:
		return nil, noCellAt(bad)
	}
}
