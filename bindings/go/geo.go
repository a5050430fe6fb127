package s2union

// #cgo CFLAGS: -std=c11
// #cgo LDFLAGS: -lm
// #pragma STDC FP_CONTRACT OFF
// #include <s2union_host.h>
// #if defined(__GLIBC__)
// static __thread const int32_t* go_done __attribute__((tls_model("initial-exec")));
// #elif defined(__linux__)
// static __thread const int32_t* go_done;
// #else
// static const int32_t* go_done;
// #endif
// static int go_is_done(void* of) { return of && __atomic_load_n((const int32_t*)of, __ATOMIC_RELAXED); }
// #define S2U_IS_CANCELLED() go_is_done((void*)go_done)
// #include <s2union_join.h>
// #include <s2union_outline.h>
//
// // From now on, calls in this thread end soon after *flag isn't 0; or go on, if it is NULL.
// static void end_when(s2u_heap_asked* asked, int32_t* flag) {
// #ifdef __linux__
//   asked->is_cancelled = go_is_done, asked->of = flag;
//   go_done = flag;
//   s2u_heap_ask(flag ? asked : NULL);
// #endif
// }
//
// static int32_t cover(const s2u_cover_options* options, const double* positions, const s2u_cover_ring* rings,
//                      size_t count, s2u_cover_cells* outer, s2u_cover_cells* inner, s2u_cover_fault* fault) {
//   s2u_cover_shape shape = {positions, rings, count};
//   return s2u_cover(&shape, options, outer, inner, fault);
// }
//
// static int32_t add(s2u_join_zones* zones, const double* positions, const s2u_cover_ring* rings, size_t count,
//                    s2u_cover_fault* fault) {
//   s2u_cover_shape shape = {positions, rings, count};
//   return s2u_join_add_shape(zones, &shape, fault);
// }
//
// static size_t leaves(const double* positions, size_t n, uint64_t* leaves) {
//   size_t k = 0;
//   while (k < n && (leaves[k] = s2u_geo_leaf(positions[2 * k], positions[2 * k + 1]))) k++;
//   return k;
// }
import "C"

import (
	"context"
	"fmt"
	"runtime"
	"sync"
	"sync/atomic"
	"unsafe"
)

// The refusals of shapes in degrees. Those about a place in a shape come in a ShapeError.
const (
	ErrShapeNumber   Error = C.S2U_COVER_NUMBER   // a longitude or a latitude is out of range, or not a number
	ErrShapeFew      Error = C.S2U_COVER_FEW      // a ring has fewer than four positions, or a line none
	ErrShapeOpen     Error = C.S2U_COVER_OPEN     // the last position of a ring is not its first
	ErrShapePieces   Error = C.S2U_COVER_PIECES   // the edges are too long for the number of positions
	ErrShapeOutside  Error = C.S2U_COVER_OUTSIDE  // no place was found that is outside of the shape
	ErrShapeOpposite Error = C.S2U_COVER_OPPOSITE // a position and the next one lie opposite each other on the sphere
	ErrShapeOption   Error = C.S2U_COVER_OPTION   // a number of cells, a level, meters or a kind of edges out of range
	ErrShapeWKB      Error = C.S2U_COVER_WKB      // the bytes are no WKB
	ErrShapeType     Error = C.S2U_COVER_TYPE     // the WKB has a type of geometry that has no covering
	ErrShapeSRID     Error = C.S2U_COVER_SRID     // the coordinates of the WKB are no degrees
	ErrShapeDeep     Error = C.S2U_COVER_DEEP     // the WKB has collections in more than 32 collections
)

// ShapeError is an error with a place in a shape: the ring or line, counted over all polygons, then lines, then
// points, and the position in it. Of WKB that can't be read, Position is a byte, and Ring is 0. Of ErrShape it has a
// fault and how many bytes of WKB, points, lines and polygons (parts), rings and positions of its ring come before it.
type ShapeError struct {
	Ring, Position int
	Refusal        Error // ErrShapeNumber, ErrShapeFew, ErrShapeOpen, ErrShapeOpposite, one of those of WKB, or ErrShape
	Fault          FaultName
	Byte, Part     int
}

// Error says in a few words what was refused, and where. Since 1.4.
func (refusal *ShapeError) Error() string {
	if refusal.Refusal == ErrShape {
		return fmt.Sprintf("s2union: %v: byte %d, part %d, ring %d, position %d", refusal.Fault, refusal.Byte,
			refusal.Part, refusal.Ring, refusal.Position)
	}
	if refusal.Refusal.isOfBytes() {
		return fmt.Sprintf("%v: at byte %d", refusal.Refusal, refusal.Position)
	}
	return fmt.Sprintf("%v: ring %d, position %d", refusal.Refusal, refusal.Ring, refusal.Position)
}

// Unwrap answers the refusal. Since 1.4.
func (refusal *ShapeError) Unwrap() error { return refusal.Refusal }

func (refusal Error) isOfBytes() bool { return C.s2u_cover_is_of_byte(C.int32_t(refusal)) != 0 }

// text says what a status means.
func (refusal Error) text() string { return C.GoString(C.s2u_cover_status_text(C.int32_t(refusal))) }

// Position is a longitude, from -540 to 540 degrees, and a latitude, from -90 to 90: the longitude comes first.
type Position [2]float64

// CellIDFromPosition is the leaf at a position: golang/geo's CellIDFromLatLng, which takes the latitude first. The one
// error is ErrShapeNumber. Since 1.4.
func CellIDFromPosition(position Position) (CellID, error) {
	leaf := C.s2u_geo_leaf(C.double(position[0]), C.double(position[1]))
	if leaf == 0 {
		return 0, ErrShapeNumber
	}
	return CellID(leaf), nil
}

// CellIDsFromPositions are the leaves at many positions, in one call. A PlaceError with ErrShapeNumber: one is out of
// range. Since 1.4.
func CellIDsFromPositions(positions []Position) ([]CellID, error) {
	leaves := make([]CellID, len(positions))
	out, n := pointerTo(leaves)
	made := C.leaves(pointerToPositions(positions), n, out)
	if made < n {
		return nil, &PlaceError{int(made), ErrShapeNumber}
	}
	return leaves, nil
}

// Position is the middle of the cell, with a longitude from -180 to 180: golang/geo's LatLng. Since 1.4.
func (id CellID) Position() Position {
	var longitude, latitude C.double
	answer(C.s2u_geo_middle(C.uint64_t(id), &longitude, &latitude))
	return Position{float64(longitude), float64(latitude)}
}

// Edges say which lines lead from a position to the next one.
type Edges int

// The kinds of edges.
const (
	EdgesOnMap    Edges = C.S2U_COVER_MAP      // straight in longitude and latitude, as in GeoJSON
	EdgesGeodesic Edges = C.S2U_COVER_GEODESIC // shortest ways on the sphere, and of each ring the smaller side
	EdgesLeft     Edges = C.S2U_COVER_LEFT     // shortest ways, and what the rings have on their left
)

// RegionCoverer makes coverings of regions in degrees. Its zero value is ready to use. Its names are those of
// golang/geo's RegionCoverer, and its coverings are normalized.
type RegionCoverer struct {
	MaxCells int     // the most cells, at most 1,000,000; 0 stands for 200, or for 1,000,000 if Within is given
	MinLevel int     // cells at the border are at least as deep, even if there are more than MaxCells then
	MaxLevel int     // no cell is deeper; 0 stands for 30
	Within   float64 // meters: no place is farther from the region and its margin, if MaxCells allows it; 0: no such wish
	Margin   float64 // meters, to 300,000, beyond polygons, and inside for an interior; of lines and points, a corridor
	Edges    Edges   // of shapes, WKB and boxes
}

// Region is what a RegionCoverer covers, and what Zones have: a Shape, WKB, a Box, or a Circle, which is no zone.
type Region interface {
	cover(options *C.s2u_cover_options, outer, inner *C.s2u_cover_cells, fault *C.s2u_cover_fault) C.int32_t
	addTo(zones *C.s2u_join_zones, fault *C.s2u_cover_fault) C.int32_t
}

// Shape is polygons, lines and points. A polygon is rings, each of which ends with its first position. A place is
// inside if a way to it from outside crosses the rings an odd number of times; rings may cross. On the map polygons may
// overlap. A ring goes on beyond 180 degrees where it crosses the date line.
type Shape struct {
	Polygons [][][]Position
	Lines    [][]Position
	Points   []Position
}

// WKB is the bytes of polygons, lines, points and collections of them, in either order of bytes. Z and M are passed
// over. An SRID is 0 or 4326.
type WKB []byte

// Circle is the places that are at most Radius meters, 0 to 20,000,000, from a center, on a sphere with the earth's
// mean radius: golang/geo's Cap.
type Circle struct {
	Center Position
	Radius float64
}

// Box is the places between two meridians and two parallels. One that ends west of where it begins crosses the date
// line. One that ends south of where it begins, as the RectBound of no cell does, has no covering: ErrArgument.
type Box struct {
	West, South, East, North float64
}

// Covering is a union that contains all of a region. Errors are ErrMemory, ErrShapeOption, ErrShapePieces,
// ErrShapeOutside, ErrMany if the least level asks for more than 1,000,000 cells at the border, and a ShapeError. Since
// 1.4.
func (rc RegionCoverer) Covering(region Region) (CellUnion, error) {
	return rc.CoveringContext(context.Background(), region)
}

// CoveringContext is Covering until a context is done, whose error it then answers within about a second; on other
// systems than Linux when the work is done. Since 1.4.1.
func (rc RegionCoverer) CoveringContext(ctx context.Context, region Region) (CellUnion, error) {
	var outer C.s2u_cover_cells
	err := rc.cover(ctx, region, &outer, nil)
	return taken(&outer), err
}

// InteriorCovering is a union of cells that lie in the polygons, the circle or the box. Lines and points have nothing
// inside. Errors are those of Covering. Since 1.4.
func (rc RegionCoverer) InteriorCovering(region Region) (CellUnion, error) {
	return rc.InteriorCoveringContext(context.Background(), region)
}

// InteriorCoveringContext is InteriorCovering until a context is done, as CoveringContext. Since 1.4.1.
func (rc RegionCoverer) InteriorCoveringContext(ctx context.Context, region Region) (CellUnion, error) {
	var inner C.s2u_cover_cells
	err := rc.cover(ctx, region, nil, &inner)
	return taken(&inner), err
}

// Coverings are both: Covering and InteriorCovering. Since 1.4.
func (rc RegionCoverer) Coverings(region Region) (outer, inner CellUnion, err error) {
	return rc.CoveringsContext(context.Background(), region)
}

// CoveringsContext are Coverings until a context is done, as CoveringContext. Since 1.4.1.
func (rc RegionCoverer) CoveringsContext(ctx context.Context, region Region) (outer, inner CellUnion, err error) {
	var outside, inside C.s2u_cover_cells
	err = rc.cover(ctx, region, &outside, &inside)
	return taken(&outside), taken(&inside), err
}

// within makes a call of the library until a context is done. The calls of a goroutine are in one thread meanwhile,
// which the library asks before it takes memory.
func within(ctx context.Context, call func() C.int32_t) (status C.int32_t, err error) {
	if ctx.Done() == nil {
		return call(), nil
	}
	if err := ctx.Err(); err != nil {
		return C.S2U_MEMORY, err
	}
	runtime.LockOSThread()
	defer runtime.UnlockOSThread()
	flag := (*C.int32_t)(C.calloc(1, C.sizeof_int32_t))
	asked := (*C.s2u_heap_asked)(C.calloc(1, C.sizeof_s2u_heap_asked))
	defer C.free(unsafe.Pointer(flag))
	defer C.free(unsafe.Pointer(asked))
	if flag == nil || asked == nil {
		return C.S2U_MEMORY, nil
	}
	ended, watched := make(chan struct{}), make(chan struct{})
	go func() {
		defer close(watched)
		select {
		case <-ctx.Done():
			atomic.StoreInt32((*int32)(flag), 1)
		case <-ended:
		}
	}()
	C.end_when(asked, flag)
	status = call()
	C.end_when(asked, nil)
	close(ended)
	<-watched
	if status == C.S2U_MEMORY {
		err = ctx.Err()
	}
	return status, err
}

// cover makes the coverings that are wanted. After an error there are none.
func (rc RegionCoverer) cover(ctx context.Context, region Region, outer, inner *C.s2u_cover_cells) error {
	options, err := rc.options()
	if err != nil {
		return err
	}
	var fault C.s2u_cover_fault
	status, err := within(ctx, func() C.int32_t { return region.cover(&options, outer, inner, &fault) })
	if err != nil {
		return err
	}
	for _, cells := range []*C.s2u_cover_cells{outer, inner} {
		if status != C.S2U_OK && cells != nil {
			C.s2u_cover_free(cells)
		}
	}
	return refusedShape(Error(status), &fault)
}

func (rc RegionCoverer) options() (options C.s2u_cover_options, err error) {
	most, deepest := rc.MaxCells, rc.MaxLevel
	if most == 0 && rc.Within == 0 {
		most = 200
	} else if most == 0 {
		most = C.S2U_COVER_MOST_CELLS
	}
	if deepest == 0 {
		deepest = 30
	}
	options = C.s2u_cover_options{max_cells: C.uint64_t(narrowed(most)), min_level: narrowed(rc.MinLevel),
		max_level: narrowed(deepest), edges: narrowed(int(rc.Edges)), margin: C.double(rc.Margin)}
	if rc.Within != 0 {
		err = refused(C.s2u_cover_keep_within(&options, C.double(rc.Within)))
	}
	return options, err
}

// refusedShape is the error of a status, with its place if it has one.
func refusedShape(status Error, fault *C.s2u_cover_fault) error {
	switch {
	case status == C.S2U_OK:
		return nil
	case status == ErrShapeNumber, status == ErrShapeFew, status == ErrShapeOpen, status == ErrShapeOpposite,
		status.isOfBytes():
		return &ShapeError{Ring: int(fault.ring), Position: int(fault.position), Refusal: status}
	default:
		return status
	}
}

// taken is the union of cells that the library gives away.
func taken(cells *C.s2u_cover_cells) CellUnion {
	defer C.s2u_cover_free(cells)
	return CellUnion{append([]CellID(nil), unsafe.Slice((*CellID)(unsafe.Pointer(cells.ids)), int(cells.count))...)}
}

func pointerToPositions(positions []Position) *C.double {
	if len(positions) == 0 {
		return nil
	}
	return (*C.double)(unsafe.Pointer(&positions[0]))
}

func pointerToRings(rings []C.s2u_cover_ring) (*C.s2u_cover_ring, C.size_t) {
	if len(rings) == 0 {
		return nil, 0
	}
	return &rings[0], C.size_t(len(rings))
}

func (shape Shape) cover(options *C.s2u_cover_options, outer, inner *C.s2u_cover_cells,
	fault *C.s2u_cover_fault) C.int32_t {
	positions, rings := shape.flat()
	at, n := pointerToRings(rings)
	return C.cover(options, pointerToPositions(positions), at, n, outer, inner, fault)
}

func (shape Shape) addTo(zones *C.s2u_join_zones, fault *C.s2u_cover_fault) C.int32_t {
	positions, rings := shape.flat()
	at, n := pointerToRings(rings)
	return C.add(zones, pointerToPositions(positions), at, n, fault)
}

// flat are all positions in one list, and where each ring and line ends.
func (shape Shape) flat() (positions []Position, rings []C.s2u_cover_ring) {
	add := func(line []Position, polygon C.uint64_t) {
		positions = append(positions, line...)
		rings = append(rings, C.s2u_cover_ring{C.uint64_t(len(positions)), polygon})
	}
	for number, polygon := range shape.Polygons {
		for _, ring := range polygon {
			add(ring, C.uint64_t(number))
		}
	}
	for _, line := range shape.Lines {
		add(line, C.S2U_COVER_LINE)
	}
	for k := range shape.Points {
		add(shape.Points[k:k+1], C.S2U_COVER_LINE)
	}
	return positions, rings
}

func (wkb WKB) cover(options *C.s2u_cover_options, outer, inner *C.s2u_cover_cells,
	fault *C.s2u_cover_fault) C.int32_t {
	at, n := pointerToBytes(wkb)
	return C.s2u_cover_wkb(at, n, options, outer, inner, fault)
}

func (wkb WKB) addTo(zones *C.s2u_join_zones, fault *C.s2u_cover_fault) C.int32_t {
	at, n := pointerToBytes(wkb)
	return C.s2u_join_add_wkb(zones, at, n, fault)
}

func (circle Circle) cover(options *C.s2u_cover_options, outer, inner *C.s2u_cover_cells,
	fault *C.s2u_cover_fault) C.int32_t {
	return C.s2u_cover_circle(C.double(circle.Center[0]), C.double(circle.Center[1]), C.double(circle.Radius), options,
		outer, inner, fault)
}

func (circle Circle) addTo(zones *C.s2u_join_zones, fault *C.s2u_cover_fault) C.int32_t {
	return C.S2U_ARGUMENT
}

func (box Box) cover(options *C.s2u_cover_options, outer, inner *C.s2u_cover_cells,
	fault *C.s2u_cover_fault) C.int32_t {
	return C.s2u_cover_box(C.double(box.West), C.double(box.South), C.double(box.East), C.double(box.North), options,
		outer, inner, fault)
}

func (box Box) addTo(zones *C.s2u_join_zones, fault *C.s2u_cover_fault) C.int32_t {
	return C.s2u_join_add_box(zones, C.double(box.West), C.double(box.South), C.double(box.East), C.double(box.North),
		fault)
}

// Outline is the union as polygons on a map: for each part that hangs together a ring around it, counterclockwise, and
// then its holes, clockwise. The date line cuts polygons in two, and one with a pole goes along the map's edge. The one
// error is ErrMemory. Since 1.4.
func (cu CellUnion) Outline() (Shape, error) {
	return cu.OutlineContext(context.Background())
}

// OutlineContext is Outline until a context is done, as CoveringContext of a RegionCoverer. Since 1.4.1.
func (cu CellUnion) OutlineContext(ctx context.Context) (Shape, error) {
	lines, ends, err := cu.rings(ctx, func(at *C.uint64_t, n C.size_t, rings *C.s2u_geo_rings) C.int32_t {
		return C.s2u_geo_outline(at, n, rings)
	})
	var shape Shape
	begin := 0
	for _, end := range ends {
		shape.Polygons = append(shape.Polygons, lines[begin:end:end])
		begin = end
	}
	return shape, err
}

// Boundary is closed lines through corners of cells, with the union on their left: those of S2's
// InitToCellUnionBorder. A line goes on beyond 180 or -180 degrees. The one error is ErrMemory. Since 1.4.
func (cu CellUnion) Boundary() (Shape, error) {
	lines, _, err := cu.rings(context.Background(), func(at *C.uint64_t, n C.size_t, rings *C.s2u_geo_rings) C.int32_t {
		return C.s2u_geo_boundary(at, n, rings)
	})
	return Shape{Lines: lines}, err
}

// rings are the lines that a call makes of the union, and how many there are up to the end of each polygon.
func (cu CellUnion) rings(ctx context.Context,
	call func(*C.uint64_t, C.size_t, *C.s2u_geo_rings) C.int32_t) ([][]Position, []int, error) {
	var rings C.s2u_geo_rings
	at, n := pointerTo(cu.ids)
	status, err := within(ctx, func() C.int32_t { return call(at, n, &rings) })
	if err == nil && status != C.S2U_OK {
		err = Error(status)
	}
	if err != nil {
		return nil, nil, err
	}
	defer C.s2u_geo_free(&rings)
	lines, begin := make([][]Position, rings.rings), C.size_t(0)
	for k, end := range unsafe.Slice(rings.ring_ends, rings.rings) {
		from := (*Position)(unsafe.Add(unsafe.Pointer(rings.positions), 16*begin))
		lines[k] = append([]Position(nil), unsafe.Slice(from, end-begin)...)
		begin = end
	}
	ends := make([]int, rings.polygons)
	for k, end := range unsafe.Slice(rings.polygon_ends, rings.polygons) {
		ends[k] = int(end)
	}
	return lines, ends, nil
}

// ExpandedAtLevelContext is ExpandedAtLevel until a context is done, as CoveringContext of a RegionCoverer. Since
// 1.4.1.
func (cu CellUnion) ExpandedAtLevelContext(ctx context.Context, level int) (CellUnion, error) {
	var cells C.s2u_cover_cells
	at, n := pointerTo(cu.ids)
	status, err := within(ctx, func() C.int32_t { return C.s2u_cover_expanded(at, n, narrowed(level), &cells) })
	if err == nil {
		err = refused(status)
	}
	return taken(&cells), err
}

// ---- which zones have which places

// Zones are polygons that are asked which of them have which places, exactly, also beside their borders. They take a
// copy of each. Edges are straight on the map. Goroutines may share zones, and ask them one after the other. The zero
// value has none.
type Zones struct {
	mutex sync.Mutex
	made  C.s2u_join_zones
}

// Pair is a place and a zone that has it, by their numbers.
type Pair struct {
	Place, Zone int
}

// Add adds a zone and answers its number, which is 0 for the first. Errors are ErrArgument of a Circle, ErrMemory, and
// a ShapeError; then the zones are as they were. Since 1.5.
func (zones *Zones) Add(region Region) (int, error) {
	zones.mutex.Lock()
	defer zones.mutex.Unlock()
	if zones.made.zones.unit == 0 {
		zones.made = C.s2u_join_none()
		runtime.SetFinalizer(zones, func(zones *Zones) { C.s2u_join_free(&zones.made) })
	}
	var fault C.s2u_cover_fault
	number := int(zones.made.zones.count)
	return number, refusedShape(Error(region.addTo(&zones.made, &fault)), &fault)
}

// Pairs are each place and each zone that has it, in the order of places, and of zones for each: an exact join, by
// s2u_join_pairs_of. With borders a place on a border is in the zone; without, it is in none of the polygons that have
// that border, and lines have no place. Errors are ErrArgument if there are more longitudes than latitudes or fewer,
// ErrMemory, and a PlaceError with ErrShapeNumber: a place is out of range. A place takes a step for each zone in whose
// box it lies, and for each edge there at its longitude. Since 1.5.
func (zones *Zones) Pairs(longitudes, latitudes []float64, borders bool) ([]Pair, error) {
	return zones.PairsContext(context.Background(), longitudes, latitudes, borders)
}

// PairsContext are Pairs until a context is done, as CoveringContext of a RegionCoverer. Since 1.5.
func (zones *Zones) PairsContext(ctx context.Context, longitudes, latitudes []float64, borders bool) ([]Pair, error) {
	if len(longitudes) != len(latitudes) {
		return nil, ErrArgument
	}
	zones.mutex.Lock()
	defer zones.mutex.Unlock()
	if zones.made.zones.unit == 0 || len(longitudes) == 0 {
		return nil, nil
	}
	var on C.int
	if borders {
		on = 1
	}
	var found C.s2u_cover_list
	var wrong C.size_t
	status, err := within(ctx, func() C.int32_t {
		return C.s2u_join_pairs_of(&zones.made, (*C.double)(unsafe.Pointer(&longitudes[0])),
			(*C.double)(unsafe.Pointer(&latitudes[0])), C.size_t(len(longitudes)), on, &found, &wrong)
	})
	defer C.free(unsafe.Pointer(found.at))
	if err == nil && status == C.S2U_ARGUMENT {
		err = &PlaceError{int(wrong), ErrShapeNumber}
	} else if err == nil {
		err = refused(status)
	}
	if err != nil || found.count == 0 {
		return nil, err
	}
	pairs := make([]Pair, int(found.count))
	for k, pair := range unsafe.Slice((*C.s2u_join_pair)(unsafe.Pointer(found.at)), len(pairs)) {
		pairs[k] = Pair{int(pair.point), int(pair.zone)}
	}
	return pairs, nil
}
