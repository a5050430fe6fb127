package s2union

// #include <s2union.h>
import "C"

// MapWork is work for CoverGeoJSON and CoverWKB if you have no better bound: a second for a shape of a country, and
// some seconds for any text. Of texts of strangers 1<<24 is enough for a country at level 10.
const MapWork uint64 = C.S2U_MAP_WORK

// mapping is a call that makes both coverings.
type mapping func(out *C.uint64_t, room C.size_t, length, first *C.size_t, fault *C.s2u_shape_fault) C.int32_t

// CoverGeoJSON is the outer and the inner covering of the polygons in a text of GeoJSON, of those as they are written,
// edges straight on the map: a geometry, a feature, or a collection of either. Proved: no place inside is missing from
// the outer covering, and no place outside is in the inner one. No cell is deeper than the level, 0 to 30. ErrArgument:
// the level is out of range. ErrShape, in a ShapeError: the text has a fault, or a part of the shape is a point or a
// line. ErrMany: the search over cells would take more than `work`. ErrMemory. Since 1.5.
func CoverGeoJSON(text []byte, level int, work uint64) (outer, inner CellUnion, err error) {
	call := func(out *C.uint64_t, room C.size_t, n, first *C.size_t, fault *C.s2u_shape_fault) C.int32_t {
		at, size := pointerToText(text)
		return C.s2u_map_geojson(at, size, narrowed(level), C.uint64_t(work), out, room, n, first, fault)
	}
	return mapped(roomOfMapGeojson(), call)
}

// CoverWKB is the same of bytes of WKB or EWKB, in either order of bytes. Since 1.5.
func CoverWKB(wkb []byte, level int, work uint64) (outer, inner CellUnion, err error) {
	call := func(out *C.uint64_t, room C.size_t, n, first *C.size_t, fault *C.s2u_shape_fault) C.int32_t {
		at, size := pointerToBytes(wkb)
		return C.s2u_map_wkb(at, size, narrowed(level), C.uint64_t(work), out, room, n, first, fault)
	}
	return mapped(roomOfMapWkb(), call)
}

// MostFew is the most cells that count of a covering by CoverGeoJSONUpTo or CoverWKBUpTo. Since 1.5.
const MostFew = C.S2U_MOST_FEW

// CoverGeoJSONUpTo is the outer and the inner covering of the polygons in a text of GeoJSON by few cells: at most
// `most` each, or 6 in the outer one if that is more, none of them deeper than a level, 0 to 30. Above MostFew, `most`
// counts as MostFew. Proved of both is what is proved of those of CoverGeoJSON. ErrArgument: the level is out of range,
// or `most` below 0. ErrShape, in a ShapeError: the text has a fault, or a part of the shape is a point or a line.
// ErrMemory. Since 1.5.
func CoverGeoJSONUpTo(text []byte, deepest, most int) (outer, inner CellUnion, err error) {
	if most < 0 {
		return CellUnion{}, CellUnion{}, ErrArgument
	}
	call := func(out *C.uint64_t, room C.size_t, n, first *C.size_t, fault *C.s2u_shape_fault) C.int32_t {
		at, size := pointerToText(text)
		return C.s2u_map_geojson_up_to(at, size, narrowed(deepest), C.size_t(most), out, room, n, first, fault)
	}
	return mapped(roomOfMapGeojsonUpTo(), call)
}

// CoverWKBUpTo is the same of bytes of WKB or EWKB, in either order of bytes. Since 1.5.
func CoverWKBUpTo(wkb []byte, deepest, most int) (outer, inner CellUnion, err error) {
	if most < 0 {
		return CellUnion{}, CellUnion{}, ErrArgument
	}
	call := func(out *C.uint64_t, room C.size_t, n, first *C.size_t, fault *C.s2u_shape_fault) C.int32_t {
		at, size := pointerToBytes(wkb)
		return C.s2u_map_wkb_up_to(at, size, narrowed(deepest), C.size_t(most), out, room, n, first, fault)
	}
	return mapped(roomOfMapWkbUpTo(), call)
}

// CoverGeodesicGeoJSON is the outer and the inner covering of the polygons in a text of GeoJSON, whose edges are
// geodesics, the short ways on the sphere: the cells of a level, 0 to 30. Proved: no leaf that a polygon touches or has
// inside is missing from the outer covering, and each leaf of the inner one lies inside a polygon. ErrArgument: the
// level is out of range, or `most` below 0. ErrShape, in a ShapeError: the text has a fault, a part of the shape is a
// point or a line, or the corners of a polygon are too far apart. ErrMany: the coverings of all polygons together have
// more cells than `most`, or the edges of one touch too many. ErrMemory. Since 1.5.
func CoverGeodesicGeoJSON(text []byte, level, most int) (outer, inner CellUnion, err error) {
	if most < 0 {
		return CellUnion{}, CellUnion{}, ErrArgument
	}
	call := func(out *C.uint64_t, room C.size_t, n, first *C.size_t, fault *C.s2u_shape_fault) C.int32_t {
		at, size := pointerToText(text)
		return C.s2u_geodesic_geojson(at, size, narrowed(level), C.size_t(most), out, room, n, first, fault)
	}
	return mapped(roomOfGeodesicGeojson(), call)
}

// CoverGeodesicWKB is the same of bytes of WKB or EWKB, in either order of bytes. Since 1.5.
func CoverGeodesicWKB(wkb []byte, level, most int) (outer, inner CellUnion, err error) {
	if most < 0 {
		return CellUnion{}, CellUnion{}, ErrArgument
	}
	call := func(out *C.uint64_t, room C.size_t, n, first *C.size_t, fault *C.s2u_shape_fault) C.int32_t {
		at, size := pointerToBytes(wkb)
		return C.s2u_geodesic_wkb(at, size, narrowed(level), C.size_t(most), out, room, n, first, fault)
	}
	return mapped(roomOfGeodesicWkb(), call)
}

// mapped is the two unions that a call makes, one after the other.
func mapped(room int, call mapping) (outer, inner CellUnion, err error) {
	var first C.size_t
	var fault C.s2u_shape_fault
	ids, err := listed(room, func(out *C.uint64_t, room C.size_t, length *C.size_t) C.int32_t {
		return call(out, room, length, &first, &fault)
	})
	if err == ErrShape {
		err = &ShapeError{Ring: int(fault.ring), Position: int(fault.position), Refusal: ErrShape,
			Fault: FaultName(fault.name), Byte: int(fault.byte), Part: int(fault.part)}
	}
	if err != nil {
		return CellUnion{}, CellUnion{}, err
	}
	return CellUnion{trimmed(ids[:first:first])}, CellUnion{trimmed(append([]CellID(nil), ids[first:]...))}, nil
}

// FaultName says why a text of GeoJSON, or bytes of WKB, are no shape of polygons.
type FaultName int

// String says it in a few words. Since 1.5.
func (name FaultName) String() string { return C.GoString(C.s2u_fault_text(C.size_t(name))) }
