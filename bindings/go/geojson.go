package s2union

// #include <s2union_cover.h>
import "C"

import (
	"bytes"
	"encoding/json"
	"errors"
	"fmt"
	"strconv"
	"unsafe"
)

// ErrGeoJSON is the refusal of a text that isn't GeoJSON of polygons, lines and points.
var ErrGeoJSON = errors.New("s2union: not GeoJSON of polygons, lines and points")

// geoJSONError says why a text isn't GeoJSON: an ErrGeoJSON with a ShapeError.
type geoJSONError struct{ *ShapeError }

// Error says in a few words what was refused, and where. Since 1.5.
func (err geoJSONError) Error() string {
	return fmt.Sprintf("%v: %v: part %d, ring %d, position %d", ErrGeoJSON, err.Fault, err.Part, err.Ring, err.Position)
}

// Is answers whether it is an ErrGeoJSON, as which it counts. Since 1.5.
func (err geoJSONError) Is(target error) bool { return target == ErrGeoJSON }

// Unwrap answers the ShapeError. Since 1.5.
func (err geoJSONError) Unwrap() error { return err.ShapeError }

// UnmarshalJSON takes GeoJSON: a geometry, a feature, or a collection of them, in the order of its polygons, lines and
// points; a line of one position is a point. A proved call reads it. If there is an error, which wraps ErrGeoJSON and
// is a ShapeError with a fault, the shape stays as it was. Other errors are ErrMemory. Since 1.4.
func (shape *Shape) UnmarshalJSON(text []byte) error {
	var reader C.s2u_cover_reader
	var found C.s2u_cover_shape
	var fault C.s2u_cover_fault
	if string(bytes.TrimSpace(text)) == "null" {
		return nil
	}
	at, n := pointerToBytes(text)
	status := C.s2u_cover_open(unsafe.Pointer(at), n, 1, &reader, &found, &fault)
	defer C.s2u_cover_close(&reader)
	if status == C.S2U_MEMORY {
		return ErrMemory
	}
	if status != C.S2U_OK {
		return geoJSONError{&ShapeError{Ring: int(fault.ring), Position: int(fault.position), Refusal: ErrShape,
			Fault: FaultName(fault.name), Part: int(fault.part)}}
	}
	positions := unsafe.Slice((*Position)(unsafe.Pointer(found.positions)), int(reader.positions.count))
	*shape = shapeOf(append([]Position(nil), positions...), unsafe.Slice(found.rings, int(found.count)))
	return nil
}

// shapeOf is the shape of rings, lines and points, whose positions stand one after the other.
func shapeOf(positions []Position, rings []C.s2u_cover_ring) (shape Shape) {
	begin := 0
	for k, ring := range rings {
		end := int(ring.end)
		line := positions[begin:end:end]
		begin = end
		switch {
		case ring.polygon == C.S2U_COVER_LINE && len(line) == 1:
			shape.Points = append(shape.Points, line[0])
		case ring.polygon == C.S2U_COVER_LINE:
			shape.Lines = append(shape.Lines, line)
		case k > 0 && rings[k-1].polygon == ring.polygon:
			last := &shape.Polygons[len(shape.Polygons)-1]
			*last = append(*last, line)
		default:
			shape.Polygons = append(shape.Polygons, [][]Position{line})
		}
	}
	return shape
}

// UnmarshalJSON takes a longitude and a latitude, and passes over what follows them. Since 1.4.
func (position *Position) UnmarshalJSON(text []byte) error {
	list, end := bytes.TrimPrefix(text, []byte("[")), []byte("]")
	longitude, rest, isPair := bytes.Cut(bytes.TrimSuffix(list, end), []byte(","))
	latitude, _, _ := bytes.Cut(rest, []byte(","))
	x, wrong := strconv.ParseFloat(string(bytes.TrimSpace(longitude)), 64)
	y, err := strconv.ParseFloat(string(bytes.TrimSpace(latitude)), 64)
	if len(list) == len(text) || !isPair || wrong != nil || err != nil {
		return fmt.Errorf("%w: a position is a longitude and a latitude: %.99s", ErrGeoJSON, text)
	}
	*position = Position{x, y}
	return nil
}

// MarshalJSON makes the geometry in GeoJSON, a collection if there are several kinds. A number that isn't one is an
// error. Since 1.4.
func (shape Shape) MarshalJSON() ([]byte, error) {
	type geometry struct {
		Type        string `json:"type"`
		Coordinates any    `json:"coordinates"`
	}
	parts := []geometry{}
	if shape.Polygons != nil {
		parts = append(parts, geometry{"MultiPolygon", shape.Polygons})
	}
	if shape.Lines != nil {
		parts = append(parts, geometry{"MultiLineString", shape.Lines})
	}
	if shape.Points != nil {
		parts = append(parts, geometry{"MultiPoint", shape.Points})
	}
	if len(parts) == 1 {
		return json.Marshal(parts[0])
	}
	return json.Marshal(struct {
		Type       string     `json:"type"`
		Geometries []geometry `json:"geometries"`
	}{"GeometryCollection", parts})
}
