package s2union

// #include <s2union.h>
import "C"

import "unsafe"

// Direction is one from the center of the sphere, to a point of the sphere: each number is less than 2^31 in size, and
// not all are 0. That of a unit vector is its coordinates times 2^31 - 1, rounded. X is along the axis through latitude
// 0 and longitude 0, Y through longitude 90, Z through latitude 90.
type Direction struct {
	X, Y, Z int64
}

// Polygon is rings of corners, with a leaf that is known to lie outside. Rings may cross, touch, nest and repeat each
// other: what is crossed an odd number of times on the way from the leaf outside lies inside. Nothing is rounded.
type Polygon struct {
	Corners []Direction // ring after ring: the first corner of a ring follows its last
	Ends    []int       // how many corners there are up to the end of each ring
	Outside CellID      // a leaf that lies outside
	Margin  uint64      // how near an edge has to come to a leaf to touch it: at most 2^60, of 6 * 2^60 for a face's side
}

// Covering is the union of the cells of a level that have an outer leaf: one inside, or one that an edge touches.
// ErrArgument: the level is above 30, the margin above 2^60, or Outside is not a leaf. ErrCorner, ErrRing: a corner is
// no direction or lies opposite the next one, a ring has a wrong end or fewer than three corners; a PlaceError says
// which. ErrMemory. ErrMany: there would be more than `most` cells, or more than MostCovering; or edges touch more than
// 4,000,000 cells of the level, and the margin is wider than a cell. Since 1.4.
func (polygon Polygon) Covering(level, most int) (CellUnion, error) {
	ends := polygon.ends()
	return made(roomOfPolygonOuter(), func(out *C.uint64_t, room C.size_t, length *C.size_t) C.int32_t {
		corners, n, at, rings := polygon.pointers(ends)
		return C.s2u_polygon_outer(corners, n, at, rings, C.uint64_t(polygon.Outside), C.uint64_t(polygon.Margin),
			narrowed(level), atLeastZero(most), out, room, length)
	})
}

// InteriorCovering is the union of the cells of a level that have inner leaves alone: leaves inside that no edge
// touches. Errors are those of Covering; ErrMany for what edges touch with any margin. Since 1.4.
func (polygon Polygon) InteriorCovering(level, most int) (CellUnion, error) {
	ends := polygon.ends()
	return made(roomOfPolygonInner(), func(out *C.uint64_t, room C.size_t, length *C.size_t) C.int32_t {
		corners, n, at, rings := polygon.pointers(ends)
		return C.s2u_polygon_inner(corners, n, at, rings, C.uint64_t(polygon.Outside), C.uint64_t(polygon.Margin),
			narrowed(level), atLeastZero(most), out, room, length)
	})
}

// CoveringUpTo is at most this many cells, or 6 if that is more, that have all outer leaves, each with one, none deeper
// than `deepest`; those larger than cells of level `least` are then cut to that level, so that there may be more. They
// ascend, and are normalized if `least` is 0. ErrArgument also if `least` is above `deepest`; otherwise errors are
// those of Covering. Since 1.4.
func (polygon Polygon) CoveringUpTo(least, deepest, cells int) ([]CellID, error) {
	ends := polygon.ends()
	return listed(roomOfPolygonOuterUpTo(), func(out *C.uint64_t, room C.size_t, length *C.size_t) C.int32_t {
		corners, n, at, rings := polygon.pointers(ends)
		return C.s2u_polygon_outer_up_to(corners, n, at, rings, C.uint64_t(polygon.Outside), C.uint64_t(polygon.Margin),
			narrowed(least), narrowed(deepest), atLeastZero(cells), out, room, length)
	})
}

// InteriorCoveringUpTo is at most this many cells that have inner leaves alone, none deeper than `deepest`; otherwise
// as CoveringUpTo. Since 1.4.
func (polygon Polygon) InteriorCoveringUpTo(least, deepest, cells int) ([]CellID, error) {
	ends := polygon.ends()
	return listed(roomOfPolygonInnerUpTo(), func(out *C.uint64_t, room C.size_t, length *C.size_t) C.int32_t {
		corners, n, at, rings := polygon.pointers(ends)
		return C.s2u_polygon_inner_up_to(corners, n, at, rings, C.uint64_t(polygon.Outside), C.uint64_t(polygon.Margin),
			narrowed(least), narrowed(deepest), atLeastZero(cells), out, room, length)
	})
}

// ends are those of the rings, as the library takes them. One below 0 is beyond all corners.
func (polygon Polygon) ends() []C.size_t {
	ends := make([]C.size_t, len(polygon.Ends))
	for k, end := range polygon.Ends {
		ends[k] = C.size_t(end)
	}
	return ends
}

// pointers are what the library takes for the corners and for the ends of rings.
func (polygon Polygon) pointers(ends []C.size_t) (*C.s2u_direction, C.size_t, *C.size_t, C.size_t) {
	var corners *C.s2u_direction
	var at *C.size_t
	if len(polygon.Corners) > 0 {
		corners = (*C.s2u_direction)(unsafe.Pointer(&polygon.Corners[0]))
	}
	if len(ends) > 0 {
		at = &ends[0]
	}
	return corners, C.size_t(len(polygon.Corners)), at, C.size_t(len(ends))
}
