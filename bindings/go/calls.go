package s2union // made by tools/calls

// #include <s2union.h>
import "C"

// The faults of texts and bytes that are no shape of polygons.
const (
	FaultTruncated FaultName = C.S2U_FAULT_TRUNCATED  // the bytes end too early
	FaultTrailing  FaultName = C.S2U_FAULT_TRAILING   // bytes follow the geometry
	FaultOrder     FaultName = C.S2U_FAULT_ORDER      // the byte that says the order of bytes is neither 0 nor 1
	FaultType      FaultName = C.S2U_FAULT_TYPE       // there is no geometry of this type
	FaultUncovered FaultName = C.S2U_FAULT_UNCOVERED  // a curve, a surface or a triangle, which have no covering
	FaultSRID      FaultName = C.S2U_FAULT_SRID       // the coordinates are no degrees: the SRID is neither 0 nor 4326
	FaultMember    FaultName = C.S2U_FAULT_MEMBER     // a geometry in a list of points, lines or polygons is none of them
	FaultDeep      FaultName = C.S2U_FAULT_DEEP       // a collection lies in more than 32 collections
	FaultCount     FaultName = C.S2U_FAULT_COUNT      // a count is greater than the bytes that follow it allow
	FaultFew       FaultName = C.S2U_FAULT_FEW        // a ring has one to three positions
	FaultOpen      FaultName = C.S2U_FAULT_OPEN       // the last position of a ring is not its first
	FaultNotFinite FaultName = C.S2U_FAULT_NOT_FINITE // a coordinate is infinite or not a number
	FaultUTF8      FaultName = C.S2U_FAULT_UTF8       // the text is no UTF-8
	FaultJSON      FaultName = C.S2U_FAULT_JSON       // the text is no JSON
	FaultTwice     FaultName = C.S2U_FAULT_TWICE      // an object of the text has a member twice
	FaultNoType    FaultName = C.S2U_FAULT_NO_TYPE    // a value that has to be an object with a type is none
	FaultMissing   FaultName = C.S2U_FAULT_MISSING    // a list of coordinates, geometries or features is missing
	FaultPosition  FaultName = C.S2U_FAULT_POSITION   // a position is not a list that begins with two numbers
	FaultRange     FaultName = C.S2U_FAULT_RANGE      // a longitude is beyond 540 degrees, or a latitude beyond 90
	FaultNoInside  FaultName = C.S2U_FAULT_NO_INSIDE  // a part is a point or a line, which has no inside
	FaultNoMap     FaultName = C.S2U_FAULT_NO_MAP     // a position or a ring is none on the map; no shape read is so
	FaultLongEdge  FaultName = C.S2U_FAULT_LONG_EDGE  // a geodesic edge of a polygon is 128 degrees or longer
	FaultSpread    FaultName = C.S2U_FAULT_SPREAD     // the corners of a polygon are too far apart for geodesic edges
)

// LeafCellsCovered is how many leaves the union has. It takes n steps. It is 0 to 6 * 4^30. Since 0.2.
func (cu CellUnion) LeafCellsCovered() int64 {
	at, n := pointerTo(cu.ids)
	return int64(C.s2u_leaf_count(at, n))
}

// LeafCellsCovered is how many leaves the union in a file has. It takes n steps. It is 0 to 6 * 4^30. Since 0.2.
func (f UnionFile) LeafCellsCovered() int64 {
	at, n := pointerToBytes(f.file)
	var found C.uint64_t
	answer(C.s2u_file_leaf_count(at, n, &found))
	return int64(found)
}

// ContainsCellID is whether all leaves of a cell are in the union. It takes log n steps. Since 0.2.
func (cu CellUnion) ContainsCellID(id CellID) bool {
	at, n := pointerTo(cu.ids)
	return answer(C.s2u_contains_cell(at, n, C.uint64_t(id)))
}

// IntersectsCellID is whether the union shares a leaf with a cell. It takes log n steps. Since 0.2.
func (cu CellUnion) IntersectsCellID(id CellID) bool {
	at, n := pointerTo(cu.ids)
	return answer(C.s2u_intersects_cell(at, n, C.uint64_t(id)))
}

// IntersectsCellID is whether the union in a file shares a leaf with a cell. It takes log n steps. Since 0.2.
func (f UnionFile) IntersectsCellID(id CellID) bool {
	at, n := pointerToBytes(f.file)
	return answer(C.s2u_file_intersects_cell(at, n, C.uint64_t(id)))
}

// ContainsCellIDs is whether all leaves of each cell are in it, in one call, which is quickest if they ascend. A
// PlaceError has the place of the first number that is no cell. Since 0.2.
func (cu CellUnion) ContainsCellIDs(ids ...CellID) ([]bool, error) {
	at, n := pointerTo(cu.ids)
	return asked(ids, func(cells *C.uint64_t, m C.size_t, answers *C.uint8_t, bad *C.size_t) C.int32_t {
		return C.s2u_contains_cells(at, n, cells, m, answers, m, bad)
	})
}

// IntersectsCellIDs is whether it shares a leaf with each cell, in one call, which is quickest if they ascend. A
// PlaceError has the place of the first number that is no cell. Since 0.2.
func (cu CellUnion) IntersectsCellIDs(ids ...CellID) ([]bool, error) {
	at, n := pointerTo(cu.ids)
	return asked(ids, func(cells *C.uint64_t, m C.size_t, answers *C.uint8_t, bad *C.size_t) C.int32_t {
		return C.s2u_intersects_cells(at, n, cells, m, answers, m, bad)
	})
}

// Contains is whether all leaves of the other are in it. Since 0.2.
func (cu CellUnion) Contains(other CellUnion) bool {
	xs, nx := pointerTo(cu.ids)
	ys, ny := pointerTo(other.ids)
	return answer(C.s2u_contains(xs, nx, ys, ny))
}

// Intersects is whether two unions share a leaf. Since 0.2.
func (cu CellUnion) Intersects(other CellUnion) bool {
	xs, nx := pointerTo(cu.ids)
	ys, ny := pointerTo(other.ids)
	return answer(C.s2u_intersects(xs, nx, ys, ny))
}

// Intersects is whether the unions in two files share a leaf. Since 0.2.
func (f UnionFile) Intersects(other UnionFile) bool {
	xs, nx := pointerToBytes(f.file)
	ys, ny := pointerToBytes(other.file)
	return answer(C.s2u_file_intersects(xs, nx, ys, ny))
}

// CellUnionFromIntersection is the union of the leaves that both have. Since 0.2.
func CellUnionFromIntersection(x, y CellUnion) CellUnion {
	return x.with(y, roomOfIntersection, func(xs *C.uint64_t, nx C.size_t, ys *C.uint64_t, ny C.size_t,
		out *C.uint64_t, room C.size_t, length *C.size_t) C.int32_t {
		return C.s2u_intersection(xs, nx, ys, ny, out, room, length)
	})
}

// CellUnionFromDifference is the union of the leaves of x that y doesn't have. Since 0.2.
func CellUnionFromDifference(x, y CellUnion) CellUnion {
	return x.with(y, roomOfDifference, func(xs *C.uint64_t, nx C.size_t, ys *C.uint64_t, ny C.size_t,
		out *C.uint64_t, room C.size_t, length *C.size_t) C.int32_t {
		return C.s2u_difference(xs, nx, ys, ny, out, room, length)
	})
}

// CellUnionFromSymmetricDifference is the union of the leaves that only one of them has. Since 1.1.
func CellUnionFromSymmetricDifference(x, y CellUnion) CellUnion {
	return x.with(y, roomOfSymmetricDifference, func(xs *C.uint64_t, nx C.size_t, ys *C.uint64_t, ny C.size_t,
		out *C.uint64_t, room C.size_t, length *C.size_t) C.int32_t {
		return C.s2u_symmetric_difference(xs, nx, ys, ny, out, room, length)
	})
}

// CellUnionFromComplement is the union of the leaves of the six faces that a union doesn't have. It takes n steps.
// Since 1.1.
func CellUnionFromComplement(x CellUnion) CellUnion {
	at, n := pointerTo(x.ids)
	most := roomOfComplement(len(x.ids))
	return always(made(most, func(out *C.uint64_t, room C.size_t, length *C.size_t) C.int32_t {
		return C.s2u_complement(at, n, out, room, length)
	}))
}

// Ancestors is a new list of its cells and all their ancestors, ascending, each once: the keys of an index. Two unions
// share a leaf if, and only if, a cell of one is among the keys of the other. Since 0.2.
func (cu CellUnion) Ancestors() []CellID {
	at, n := pointerTo(cu.ids)
	most := roomOfAncestors(len(cu.ids))
	return always(listed(most, func(out *C.uint64_t, room C.size_t, length *C.size_t) C.int32_t {
		return C.s2u_ancestors(at, n, out, room, length)
	}))
}

// Covering is the union of the cells of a level that share a leaf with a rectangle, normalized. It isn't the best few
// cells of several levels, as golang/geo's RegionCoverer finds them for regions of the sphere. level is 0, a face, to
// 30, a leaf. most is the most cells that there may be. ErrMemory: the library got no memory. ErrArgument: a number is
// out of range, or an end comes before its begin. ErrMany: there would be more than most cells, or than MostCovering.
// Since 0.2.
func (rect Rect) Covering(level, most int) (CellUnion, error) {
	corners := rect.corners()
	return made(roomOfOuter(), func(out *C.uint64_t, room C.size_t, length *C.size_t) C.int32_t {
		return C.s2u_outer(&corners, narrowed(level), atLeastZero(most), out, room, length)
	})
}

// InteriorCovering is the union of the cells of a level that lie in a rectangle, normalized. level is 0, a face, to 30,
// a leaf. most is the most cells that there may be. ErrMemory: the library got no memory. ErrArgument: a number is out
// of range, or an end comes before its begin. ErrMany: there would be more than most cells, or than MostCovering. Since
// 0.2.
func (rect Rect) InteriorCovering(level, most int) (CellUnion, error) {
	corners := rect.corners()
	return made(roomOfInner(), func(out *C.uint64_t, room C.size_t, length *C.size_t) C.int32_t {
		return C.s2u_inner(&corners, narrowed(level), atLeastZero(most), out, room, length)
	})
}

// Covering is the union of the cells of a level that share a leaf with a union, normalized. level is 0, a face, to 30,
// a leaf. most is the most cells that there may be. ErrArgument: the level is not from 0 to 30. ErrMany: there would be
// more than most cells, or than MostCovering. Since 0.2.
func (cu CellUnion) Covering(level, most int) (CellUnion, error) {
	at, n := pointerTo(cu.ids)
	return made(roomOfOuterOf(len(cu.ids)), func(out *C.uint64_t, room C.size_t, length *C.size_t) C.int32_t {
		return C.s2u_outer_of(at, n, narrowed(level), atLeastZero(most), out, room, length)
	})
}

// InteriorCovering is the union of the cells of a level that lie in it, normalized. level is 0, a face, to 30, a leaf.
// most is the most cells that there may be. ErrArgument: the level is not from 0 to 30. ErrMany: there would be more
// than most cells, or than MostCovering. Since 0.2.
func (cu CellUnion) InteriorCovering(level, most int) (CellUnion, error) {
	at, n := pointerTo(cu.ids)
	return made(roomOfInnerOf(len(cu.ids)), func(out *C.uint64_t, room C.size_t, length *C.size_t) C.int32_t {
		return C.s2u_inner_of(at, n, narrowed(level), atLeastZero(most), out, room, length)
	})
}

// CoveringIn is the union of the cells of a level that share a leaf with what a union and a rectangle share,
// normalized. Only the union's cells near the rectangle are read: those in at most four cells that are less than twice
// as wide as it is long. level is 0, a face, to 30, a leaf. most is the most cells that there may be. ErrMemory: the
// library got no memory. ErrArgument: a number is out of range, or an end comes before its begin. ErrMany: there would
// be more than most cells, or than MostCovering. Since 1.0.
func (cu CellUnion) CoveringIn(rect Rect, level, most int) (CellUnion, error) {
	at, n := pointerTo(cu.ids)
	corners := rect.corners()
	return made(roomOfOuterIn(), func(out *C.uint64_t, room C.size_t, length *C.size_t) C.int32_t {
		return C.s2u_outer_in(at, n, &corners, narrowed(level), atLeastZero(most), out, room, length)
	})
}

// InteriorCoveringIn is the union of the cells of a level that lie in what it shares with a rectangle of a face,
// normalized. level is 0, a face, to 30, a leaf. most is the most cells that there may be. ErrMemory: the library got
// no memory. ErrArgument: a number is out of range, or an end comes before its begin. ErrMany: there would be more than
// most cells, or than MostCovering. Since 1.0.
func (cu CellUnion) InteriorCoveringIn(rect Rect, level, most int) (CellUnion, error) {
	at, n := pointerTo(cu.ids)
	corners := rect.corners()
	return made(roomOfInnerIn(), func(out *C.uint64_t, room C.size_t, length *C.size_t) C.int32_t {
		return C.s2u_inner_in(at, n, &corners, narrowed(level), atLeastZero(most), out, room, length)
	})
}

// Ancestors is a new list of its cells and all their ancestors, ascending, each once: the keys of an index. Two unions
// share a leaf if, and only if, a cell of one is among the keys of the other. Since 0.2.
func (f UnionFile) Ancestors() []CellID {
	at, n := pointerToBytes(f.file)
	most := roomOfFileAncestors(len(f.file))
	return always(listed(most, func(out *C.uint64_t, room C.size_t, length *C.size_t) C.int32_t {
		return C.s2u_file_ancestors(at, n, out, room, length)
	}))
}

// ContainsCellID is whether all leaves of a cell are in the union in a file. It takes log n steps. Since 0.2.
func (f UnionFile) ContainsCellID(id CellID) bool {
	at, n := pointerToBytes(f.file)
	return answer(C.s2u_file_contains_cell(at, n, C.uint64_t(id)))
}

// ContainsCellIDs is whether all leaves of each cell are in it, in one call, which is quickest if they ascend. A
// PlaceError has the place of the first number that is no cell. Since 1.3.
func (f UnionFile) ContainsCellIDs(ids ...CellID) ([]bool, error) {
	at, n := pointerToBytes(f.file)
	return asked(ids, func(cells *C.uint64_t, m C.size_t, answers *C.uint8_t, bad *C.size_t) C.int32_t {
		return C.s2u_file_contains_cells(at, n, cells, m, answers, m, bad)
	})
}

// Contains is whether all leaves of the other are in it. Since 0.2.
func (f UnionFile) Contains(other UnionFile) bool {
	xs, nx := pointerToBytes(f.file)
	ys, ny := pointerToBytes(other.file)
	return answer(C.s2u_file_contains(xs, nx, ys, ny))
}
