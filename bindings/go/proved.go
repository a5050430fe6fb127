package s2union

// #include <s2union.h>
import "C"

// answers are what the library answers about one cell, and another: the tests compare the methods of CellID with them,
// which are in Go since a call of C takes thirty times as long as they do.
type answers struct {
	level, face, isCell, contains, intersects                   int32
	rangeMin, rangeMax, size, next, prev, commonAncestor, other uint64
	parents                                                     [31]uint64
	children                                                    [4]uint64
}

func answersOf(id, other CellID) answers {
	x, y := C.uint64_t(id), C.uint64_t(other)
	found := answers{
		level: int32(C.s2u_level(x)), face: int32(C.s2u_face(x)), isCell: int32(C.s2u_is_cell(x)),
		contains: int32(C.s2u_cell_contains(x, y)), intersects: int32(C.s2u_cell_intersects(x, y)),
		rangeMin: uint64(C.s2u_range_min(x)), rangeMax: uint64(C.s2u_range_max(x)), size: uint64(C.s2u_size(x)),
		next: uint64(C.s2u_next(x)), prev: uint64(C.s2u_prev(x)),
		commonAncestor: uint64(C.s2u_common_ancestor(x, y)), other: uint64(y),
	}
	for level := range found.parents {
		found.parents[level] = uint64(C.s2u_parent(x, C.uint32_t(level)))
	}
	for k := range found.children {
		found.children[k] = uint64(C.s2u_child(x, C.uint32_t(k)))
	}
	return found
}
