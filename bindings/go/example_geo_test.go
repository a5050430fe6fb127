package s2union_test

import (
	"context"
	"encoding/json"
	"errors"
	"fmt"
	"strings"
	"time"

	s2union "not-published.invalid/s2union/bindings/go"
)

// Where is a place: surely in the park, surely not, or near its border?
func Example_geofence() {
	park := s2union.Shape{Polygons: [][][]s2union.Position{
		{{{2.23, 48.85}, {2.28, 48.85}, {2.28, 48.88}, {2.23, 48.88}, {2.23, 48.85}}},
	}}
	outer, inner, err := s2union.RegionCoverer{MaxCells: 100}.Coverings(park)
	if err != nil {
		panic(err)
	}
	for _, place := range []s2union.Position{{2.25, 48.86}, {2.35, 48.86}, {2.23, 48.86}} {
		leaf, _ := s2union.CellIDFromPosition(place)
		fmt.Println(place, "inside:", inner.ContainsCellID(leaf), "outside:", !outer.ContainsCellID(leaf))
	}
	// Output:
	// [2.25 48.86] inside: true outside: false
	// [2.35 48.86] inside: false outside: true
	// [2.23 48.86] inside: false outside: false
}

func ExampleCellIDFromPosition() {
	paris, err := s2union.CellIDFromPosition(s2union.Position{2.3522, 48.8566})
	fmt.Println(paris.ToToken(), err)
	_, err = s2union.CellIDFromPosition(s2union.Position{48.8566, 102.3522})
	fmt.Println(err)
	// Output:
	// 47e66e1d8f8be23b <nil>
	// s2union: a longitude is from -540 to 540 and a latitude from -90 to 90 (the longitude first)
}

func ExampleCellIDsFromPositions() {
	leaves, err := s2union.CellIDsFromPositions([]s2union.Position{{2.3522, 48.8566}, {0, 90}})
	fmt.Println(leaves[0].ToToken(), leaves[1].ToToken(), err)
	// Output: 47e66e1d8f8be23b 5000000000000001 <nil>
}

func ExampleCellID_Position() {
	cell, _ := s2union.CellIDFromToken("89c25")
	fmt.Printf("%.4f\n", cell.Position())
	// Output: [-74.0300 40.6431]
}

func ExampleRegionCoverer_Covering() {
	circle := s2union.Circle{Center: s2union.Position{2.3522, 48.8566}, Radius: 1000}
	fmt.Println(s2union.RegionCoverer{MaxCells: 8}.Covering(circle))
	_, err := s2union.RegionCoverer{MaxCells: 8, Margin: 1e6}.Covering(circle)
	fmt.Println(errors.Is(err, s2union.ErrShapeOption))
	// Output:
	// 47e66e04 47e66e1c 47e66e21 47e66e23 47e66e27 47e671dc 47e671e4 47e671fc <nil>
	// true
}

func ExampleRegionCoverer_CoveringContext() {
	ctx, cancel := context.WithTimeout(context.Background(), time.Minute)
	circle := s2union.Circle{Center: s2union.Position{2.3522, 48.8566}, Radius: 1000}
	fmt.Println(s2union.RegionCoverer{MaxCells: 4}.CoveringContext(ctx, circle))
	cancel()
	fmt.Println(s2union.RegionCoverer{MaxCells: 4}.CoveringContext(ctx, circle))
	// Output:
	// 47e66e1 47e66e24 47e671dc 47e671f <nil>
	//  context canceled
}

func ExampleRegionCoverer_InteriorCoveringContext() {
	box := s2union.Box{West: 2, South: 48, East: 3, North: 49}
	fmt.Println(s2union.RegionCoverer{MaxCells: 4}.InteriorCoveringContext(context.Background(), box))
	// Output: 47e5c 47e604 47e60c 47e674 <nil>
}

func ExampleRegionCoverer_CoveringsContext() {
	box := s2union.Box{West: 2, South: 48, East: 3, North: 49}
	fmt.Println(s2union.RegionCoverer{MaxCells: 4}.CoveringsContext(context.Background(), box))
	// Output: 47e5 47e7 47e8b 47ef 47e5c 47e604 47e60c 47e674 <nil>
}

func ExampleCellUnion_OutlineContext() {
	union, _ := s2union.CellUnionFromTokens("1")
	shape, _ := union.OutlineContext(context.Background())
	fmt.Printf("%.4f\n", shape.Polygons[0][0][:2])
	// Output: [[-45.0000 -35.2644] [-22.6199 -42.7094]]
}

func ExampleCellUnion_ExpandedAtLevelContext() {
	cells, _ := s2union.CellUnionFromTokens("3 9")
	fmt.Println(cells.ExpandedAtLevelContext(context.Background(), 0))
	// Output: 1 3 5 7 9 b <nil>
}

func ExampleRegionCoverer_InteriorCovering() {
	box := s2union.Box{West: 2, South: 48, East: 3, North: 49}
	fmt.Println(s2union.RegionCoverer{MaxCells: 4}.InteriorCovering(box))
	// Output: 47e5c 47e604 47e60c 47e674 <nil>
}

func ExampleRegionCoverer_Coverings() {
	wkb := s2union.WKB("\x01\x01\x00\x00\x00" + strings.Repeat("\x00", 13) + "\x80\x56\x40")
	pole, none, err := s2union.RegionCoverer{MaxLevel: 2}.Coverings(wkb)
	fmt.Println(pole, none.Len(), err)
	_, _, err = s2union.RegionCoverer{}.Coverings(wkb[:9])
	fmt.Println(err)
	// Output:
	// 45 4f 51 5b 0 <nil>
	// s2union: the bytes are no WKB: at byte 5
}

func ExampleCellUnion_Outline() {
	union, _ := s2union.CellUnionFromTokens("1")
	shape, _ := union.Outline()
	fmt.Printf("%.4f\n", shape.Polygons[0][0][:3])
	// Output: [[-45.0000 -35.2644] [-22.6199 -42.7094] [0.0000 -45.0000]]
}

func ExampleCellUnion_Boundary() {
	union, _ := s2union.CellUnionFromTokens("1")
	shape, _ := union.Boundary()
	fmt.Printf("%.4f\n", shape.Lines[0])
	// Output: [[-45.0000 -35.2644] [45.0000 -35.2644] [45.0000 35.2644] [-45.0000 35.2644] [-45.0000 -35.2644]]
}

func ExampleShape_UnmarshalJSON() {
	var feature struct {
		Properties map[string]string
		Geometry   s2union.Shape
	}
	text := `{"type": "Feature", "properties": {"name": "pole"}, "geometry": {"type": "Point", "coordinates": [0, 90]}}`
	err := json.Unmarshal([]byte(text), &feature)
	fmt.Println(feature.Properties["name"], feature.Geometry.Points, err)
	// Output: pole [[0 90]] <nil>
}

func ExampleShape_MarshalJSON() {
	text, err := json.Marshal(s2union.Shape{Lines: [][]s2union.Position{{{0, 0}, {10, 5}}}})
	fmt.Println(string(text), err)
	// Output: {"type":"MultiLineString","coordinates":[[[0,0],[10,5]]]} <nil>
}

func ExamplePosition_UnmarshalJSON() {
	var track []s2union.Position
	fmt.Println(json.Unmarshal([]byte("[[2.35, 48.85, 35], [2.36, 48.86, 36]]"), &track), track)
	fmt.Println(errors.Is(json.Unmarshal([]byte("[[2.35]]"), &track), s2union.ErrGeoJSON))
	// Output:
	// <nil> [[2.35 48.85] [2.36 48.86]]
	// true
}

func ExampleCellID_EdgeNeighbors() {
	face, _ := s2union.CellIDFromToken("1")
	for _, cell := range face.EdgeNeighbors() {
		fmt.Print(cell.ToToken(), " ")
	}
	// Output: b 3 5 9
}

func ExampleCellID_VertexNeighbors() {
	cell, _ := s2union.CellIDFromToken("89c25")
	for _, each := range append(cell.VertexNeighbors(3), cell.Children()[0].VertexNeighbors(0)...) {
		fmt.Print(each.ToToken(), " ")
	}
	// Output: 89c 4cc 884 4d4 9 5 1
}

func ExampleCellID_AllNeighbors() {
	cell, _ := s2union.CellIDFromToken("89c25")
	fmt.Println(cell.AllNeighbors(8))
	_, err := cell.AllNeighbors(7)
	fmt.Println(err)
	_, err = cell.AllNeighbors(28)
	fmt.Println(err)
	// Output:
	// 89c21 89c23 89c27 89c29 89c2f 89c31 89c3b 89c3d <nil>
	// s2union: argument out of range
	// s2union: too many cells
}

func ExampleCellUnion_ExpandedAtLevel() {
	cells, _ := s2union.CellUnionFromTokens("3 9")
	fmt.Println(cells.ExpandedAtLevel(0))
	_, err := cells.ExpandedAtLevel(30)
	fmt.Println(err)
	// Output:
	// 1 3 5 7 9 b <nil>
	// s2union: too many cells
}

func ExampleCellUnion_Area() {
	face, _ := s2union.CellUnionFromTokens("1")
	fmt.Printf("%.0f %v\n", face.Area(), s2union.CellUnion{}.Area())
	// Output: 85011012 0
}

func ExampleCellUnion_RectBound() {
	cells, _ := s2union.CellUnionFromTokens("7")
	box, err := cells.RectBound()
	fmt.Printf("%.6f %.6f %.6f %.6f %v\n", box.West, box.South, box.East, box.North, err)
	box, _ = s2union.CellUnion{}.RectBound()
	fmt.Println(box.South > box.North)
	// Output:
	// 135.000000 -45.000000 -135.000000 45.000000 <nil>
	// true
}

func ExampleZones_Add() {
	var zones s2union.Zones
	fmt.Println(zones.Add(s2union.Box{West: 177, South: -19, East: -179, North: -16}))
	fmt.Println(zones.Add(s2union.WKB{1, 3}))
	// Output:
	// 0 <nil>
	// 1 s2union: the bytes are no WKB: at byte 0
}

func ExampleZones_Pairs() {
	var zones s2union.Zones
	zones.Add(s2union.Shape{Polygons: [][][]s2union.Position{{{{2, 48}, {3, 48}, {3, 49}, {2, 49}, {2, 48}}}}})
	zones.Add(s2union.Box{West: 2.5, South: 48, East: 4, North: 50})
	longitudes, latitudes := []float64{2.7, 0, 2.2}, []float64{48.5, 0, 48}
	fmt.Println(zones.Pairs(longitudes, latitudes, true))
	fmt.Println(zones.Pairs(longitudes, latitudes, false))
	// Output:
	// [{0 0} {0 1} {2 0}] <nil>
	// [{0 0} {0 1}] <nil>
}

func ExampleZones_PairsContext() {
	var zones s2union.Zones
	zones.Add(s2union.Box{West: 2, South: 48, East: 3, North: 49})
	ctx, cancel := context.WithCancel(context.Background())
	cancel()
	fmt.Println(zones.PairsContext(ctx, []float64{2.5}, []float64{48.5}, true))
	// Output: [] context canceled
}
