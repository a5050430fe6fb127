package s2union

// #cgo CFLAGS: -std=c11
// #cgo LDFLAGS: -lm
// #pragma STDC FP_CONTRACT OFF
// #include <s2union_cover.h>
import "C"

import (
	"context"
	"unsafe"
)

// EdgeNeighbors are the four cells of the cell's level that share an edge with it: the one below it on its face, and
// then counterclockwise. Since 1.4.
func (id CellID) EdgeNeighbors() (neighbors [4]CellID) {
	answer(C.s2u_geo_edge_neighbors(C.uint64_t(id), (*C.uint64_t)(unsafe.Pointer(&neighbors[0]))))
	return neighbors
}

// VertexNeighbors are the cells of a level around the corner that is nearest to the cell, of those of its parent there:
// four, or three at a corner of the cube. The first has the cell. It panics with ErrArgument if the level is not above
// the cell's. Since 1.4.
func (id CellID) VertexNeighbors(level int) []CellID {
	var neighbors [4]CellID
	var count C.size_t
	answer(C.s2u_geo_vertex_neighbors(C.uint64_t(id), narrowed(level), (*C.uint64_t)(unsafe.Pointer(&neighbors[0])),
		&count))
	return neighbors[:count]
}

// AllNeighbors are the cells of a level that touch the cell, at an edge or a corner, each once: of its own level eight,
// seven at a corner of the cube, and four of a face. Errors are ErrArgument for a level above the cell's or beyond 30,
// ErrMany for more than 1,000,000, and ErrMemory. Since 1.4.
func (id CellID) AllNeighbors(level int) (CellUnion, error) {
	var cells C.s2u_cover_cells
	status := C.s2u_cover_neighbors(C.uint64_t(id.sure()), narrowed(level), &cells)
	return taken(&cells), refused(status)
}

// ExpandedAtLevel is the union with the cells of a level that touch it: golang/geo's ExpandAtLevel. Cells that are
// deeper are replaced by those of the level that have them. Errors are ErrArgument, ErrMany for more than 4,000,000
// cells around it and nine for each of its own, and ErrMemory. Since 1.4.
func (cu CellUnion) ExpandedAtLevel(level int) (CellUnion, error) {
	return cu.ExpandedAtLevelContext(context.Background(), level)
}

// Area is that of the union in square kilometers, on a sphere with the earth's mean radius: golang/geo's ExactArea,
// which is on a sphere of radius 1. The earth is flattened, so an area there differs by less than 1 percent. Since 1.5.
func (cu CellUnion) Area() float64 {
	at, n := pointerTo(cu.ids)
	return float64(C.s2u_geo_area(at, n))
}

// RectBound is the narrowest box of degrees in which the union lies. East is less than West if it crosses the date
// line. With a pole, or without a gap, it has all longitudes, from -180 to 180. That of no cell has a South of 90 and a
// North of -90. The one error is ErrMemory. Since 1.4.
func (cu CellUnion) RectBound() (Box, error) {
	var box C.s2u_cover_bounds
	at, n := pointerTo(cu.ids)
	status := C.s2u_cover_rect_bound(at, n, &box)
	return Box{float64(box.west), float64(box.south), float64(box.east), float64(box.north)}, refused(status)
}
