package s2union_test

import (
	"bytes"
	"encoding/json"
	"errors"
	"fmt"
	s2union "not-published.invalid/s2union/bindings/go"
)

func ExampleCellIDFromToken() {
	cell, err := s2union.CellIDFromToken("0C")
	fmt.Println(cell, err)
	_, err = s2union.CellIDFromToken("xyz")
	fmt.Println(err)
	// Output:
	// 0/1 <nil>
	// s2union: not a cell
}

func ExampleCellIDFromString() {
	cell, err := s2union.CellIDFromString("0/1")
	fmt.Println(cell.ToToken(), err)
	// Output: 0c <nil>
}

func ExampleCellIDFromFace() {
	cell, err := s2union.CellIDFromFace(4)
	fmt.Println(cell, err)
	_, err = s2union.CellIDFromFace(6)
	fmt.Println(err)
	// Output:
	// 4/ <nil>
	// s2union: argument out of range
}

func ExampleCellIDFromFaceIJ() {
	cell, err := s2union.CellIDFromFaceIJ(0, 0, 0)
	fmt.Println(cell.ToToken(), err)
	// Output: 0000000000000001 <nil>
}

func ExampleCellID_IsValid() {
	fmt.Println(s2union.CellID(1).IsValid(), s2union.CellID(2).IsValid())
	// Output: true false
}

func ExampleCellID_Level() {
	cell, _ := s2union.CellIDFromToken("89c25")
	fmt.Println(cell.Level())
	// Output: 8
}

func ExampleCellID_Face() {
	cell, _ := s2union.CellIDFromToken("89c25")
	fmt.Println(cell.Face())
	// Output: 4
}

func ExampleCellID_IsLeaf() {
	cell, _ := s2union.CellIDFromToken("89c25")
	fmt.Println(cell.IsLeaf())
	// Output: false
}

func ExampleCellID_IsFace() {
	cell, _ := s2union.CellIDFromToken("1")
	fmt.Println(cell.IsFace())
	// Output: true
}

func ExampleCellID_Parent() {
	cell, _ := s2union.CellIDFromToken("89c25")
	fmt.Println(cell.Parent(5).ToToken())
	// Output: 89c4
}

func ExampleCellID_Children() {
	cell, _ := s2union.CellIDFromToken("1")
	fmt.Println(cell.Children())
	// Output: [0/0 0/1 0/2 0/3]
}

func ExampleCellID_RangeMin() {
	cell, _ := s2union.CellIDFromToken("04")
	fmt.Println(cell.RangeMin().ToToken())
	// Output: 0000000000000001
}

func ExampleCellID_RangeMax() {
	cell, _ := s2union.CellIDFromToken("04")
	fmt.Println(cell.RangeMax().ToToken())
	// Output: 07ffffffffffffff
}

func ExampleCellID_LeafCellsCovered() {
	cell, _ := s2union.CellIDFromToken("04")
	fmt.Println(cell.LeafCellsCovered() == 1<<58)
	// Output: true
}

func ExampleCellID_Next() {
	cell, _ := s2union.CellIDFromToken("1c")
	fmt.Println(cell.Next().ToToken())
	// Output: 24
}

func ExampleCellID_Prev() {
	cell, _ := s2union.CellIDFromToken("24")
	fmt.Println(cell.Prev().ToToken())
	// Output: 1c
}

func ExampleCellID_Contains() {
	cell, _ := s2union.CellIDFromToken("1")
	other, _ := s2union.CellIDFromToken("04")
	fmt.Println(cell.Contains(other))
	// Output: true
}

func ExampleCellID_Intersects() {
	cell, _ := s2union.CellIDFromToken("04")
	other, _ := s2union.CellIDFromToken("14")
	fmt.Println(cell.Intersects(other))
	// Output: false
}

func ExampleCellID_CommonAncestor() {
	cell, _ := s2union.CellIDFromToken("04")
	other, _ := s2union.CellIDFromToken("14")
	fmt.Println(cell.CommonAncestor(other))
	// Output: 0/ true
}

func ExampleCellID_CommonAncestorLevel() {
	cell, _ := s2union.CellIDFromToken("04")
	other, _ := s2union.CellIDFromToken("14")
	fmt.Println(cell.CommonAncestorLevel(other))
	// Output: 0 true
}

func ExampleCellID_Square() {
	cell, _ := s2union.CellIDFromToken("14")
	fmt.Println(cell.Square())
	// Output: 0 536870912 536870912 536870912
}

func ExampleCellID_ToToken() {
	cell, _ := s2union.CellIDFromToken("0c")
	fmt.Println(cell.ToToken())
	// Output: 0c
}

func ExampleCellID_String() {
	cell, _ := s2union.CellIDFromToken("0c")
	fmt.Println(cell.String())
	// Output: 0/1
}

func ExampleCellID_MarshalText() {
	cell, _ := s2union.CellIDFromToken("0c")
	text, err := json.Marshal(cell)
	fmt.Println(string(text), err)
	// Output: "0c" <nil>
}

func ExampleCellID_UnmarshalText() {
	var cell s2union.CellID
	fmt.Println(cell.UnmarshalText([]byte("0/1")), cell)
	// Output: <nil> 0/1
}

func ExampleCellID_UnmarshalJSON() {
	var cell s2union.CellID
	fmt.Println(json.Unmarshal([]byte("864691128455135232"), &cell), cell)
	// Output: <nil> 0/1
}

func ExampleCellID_Value() {
	cell, _ := s2union.CellIDFromToken("89c25")
	fmt.Println(cell.Value())
	// Output: -8520159584101335040 <nil>
}

func ExampleCellID_Scan() {
	var cell s2union.CellID
	fmt.Println(cell.Scan(int64(-8520159584101335040)), cell.ToToken())
	// Output: <nil> 89c25
}

func ExampleLevels() {
	cells, _ := s2union.CellIDsFromTokens("1 04")
	fmt.Println(s2union.Levels(cells))
	_, err := s2union.Levels([]s2union.CellID{1, 2})
	fmt.Println(err)
	// Output:
	// [0 1] <nil>
	// s2union: not a cell at place 1
}

func ExampleParents() {
	cells, _ := s2union.CellIDsFromTokens("1 04")
	fmt.Println(s2union.Parents(cells, 0))
	_, err := s2union.Parents(cells, 1)
	fmt.Println(err)
	// Output:
	// [0/ 0/] <nil>
	// s2union: argument out of range at place 0
}

func ExampleRangeMins() {
	cells, _ := s2union.CellIDsFromTokens("1 04")
	leaves, err := s2union.RangeMins(cells)
	fmt.Println(leaves[1].ToToken(), err)
	// Output: 0000000000000001 <nil>
}

func ExampleRangeMaxes() {
	cells, _ := s2union.CellIDsFromTokens("1 04")
	leaves, err := s2union.RangeMaxes(cells)
	fmt.Println(leaves[1].ToToken(), err)
	// Output: 07ffffffffffffff <nil>
}

func ExampleTokens() {
	cells, _ := s2union.CellIDsFromTokens("1 04")
	fmt.Println(s2union.Tokens(cells))
	// Output: [1 04] <nil>
}

func ExampleCellIDsFromTokens() {
	fmt.Println(s2union.CellIDsFromTokens("1c, 0/0"))
	_, err := s2union.CellIDsFromTokens("1c, x")
	fmt.Println(err)
	// Output:
	// [0/3 0/0] <nil>
	// s2union: not a cell at place 4
}

func ExampleCellIDsFromPoints() {
	leaves, err := s2union.CellIDsFromPoints([]s2union.Point{{Face: 0, I: 0, J: 0}})
	fmt.Println(leaves[0].ToToken(), err)
	// Output: 0000000000000001 <nil>
}

func ExampleCellUnionFromNormalized() {
	union, err := s2union.CellUnionFromNormalized[uint64](0x0400000000000000)
	fmt.Println(union, err)
	_, err = s2union.CellUnionFromNormalized[uint64](5, 1)
	fmt.Println(err)
	// Output:
	// 04 <nil>
	// s2union: not a normalized list of cells
}

func ExampleCellUnionFromRange() {
	face, _ := s2union.CellIDFromFace(0)
	fmt.Println(s2union.CellUnionFromRange(face.RangeMin(), face.RangeMin()+4))
	// Output: 0000000000000001 0000000000000003 <nil>
}

func ExampleRangeUnion() {
	first, _ := s2union.CellIDFromToken("0c")
	last, _ := s2union.CellIDFromToken("3")
	fmt.Println(s2union.RangeUnion(first, last))
	// Output: 0c 14 1c 3 <nil>
}

func ExampleWholeSphere() {
	fmt.Println(s2union.WholeSphere())
	// Output: 1 3 5 7 9 b
}

func ExampleCellUnionFromIntersectionWithCellID() {
	union, _ := s2union.CellUnionFromTokens("04 3")
	face, _ := s2union.CellIDFromFace(0)
	fmt.Println(s2union.CellUnionFromIntersectionWithCellID(union, face))
	// Output: 04
}

func ExampleCellUnion_Len() {
	union, _ := s2union.CellUnionFromTokens("04 0c")
	fmt.Println(union.Len())
	// Output: 2
}

func ExampleCellUnion_CellID() {
	union, _ := s2union.CellUnionFromTokens("04 0c")
	fmt.Println(union.CellID(1))
	// Output: 0/1
}

func ExampleCellUnion_CellIDs() {
	union, _ := s2union.CellUnionFromTokens("04 0c")
	fmt.Println(union.CellIDs())
	// Output: [0/0 0/1]
}

func ExampleCellIDsAs() {
	union, _ := s2union.CellUnionFromTokens("04")
	fmt.Println(s2union.CellIDsAs[int64](union))
	// Output: [288230376151711744]
}

func ExampleCellUnion_IsValid() {
	union, _ := s2union.CellUnionFromTokens("04")
	fmt.Println(union.IsValid())
	// Output: true
}

func ExampleCellUnion_IsNormalized() {
	union, _ := s2union.CellUnionFromTokens("04")
	fmt.Println(union.IsNormalized())
	// Output: true
}

func ExampleCellUnion_Equal() {
	x, _ := s2union.CellUnionFromTokens("1")
	y, _ := s2union.CellUnionFromTokens("04 0c 14 1c")
	fmt.Println(x.Equal(y))
	// Output: true
}

func ExampleCellUnion_Compare() {
	x, _ := s2union.CellUnionFromTokens("04")
	y, _ := s2union.CellUnionFromTokens("0c")
	fmt.Println(x.Compare(y))
	// Output: -1
}

func ExampleCellUnion_CellIDsAt() {
	union, _ := s2union.CellUnionFromTokens("04 0c 3")
	cell, _ := s2union.CellIDFromToken("1")
	fmt.Println(union.CellIDsAt(cell))
	// Output: [0/0 0/1]
}

func ExampleCellUnion_String() {
	union, _ := s2union.CellUnionFromTokens("0c 04")
	fmt.Println(union.String())
	// Output: 04 0c
}

func ExampleCellUnion_MarshalText() {
	union, _ := s2union.CellUnionFromTokens("04 0c")
	text, err := union.MarshalText()
	fmt.Println(string(text), err)
	// Output: 04 0c <nil>
}

func ExampleCellUnion_UnmarshalText() {
	var union s2union.CellUnion
	fmt.Println(union.UnmarshalText([]byte("0c 04")), union)
	// Output: <nil> 04 0c
}

func ExampleCellUnion_UnmarshalBinary() {
	union, _ := s2union.CellUnionFromTokens("04")
	file, _ := union.MarshalBinary()
	var again s2union.CellUnion
	fmt.Println(again.UnmarshalBinary(file), again)
	// Output: <nil> 04
}

func ExampleCellUnion_Encode() {
	union, _ := s2union.CellUnionFromTokens("04")
	var file bytes.Buffer
	fmt.Println(union.Encode(&file), file.Len())
	// Output: <nil> 17
}

func ExampleCellUnion_Decode() {
	union, _ := s2union.CellUnionFromTokens("04")
	var file bytes.Buffer
	_ = union.Encode(&file)
	var again s2union.CellUnion
	fmt.Println(again.Decode(&file), again)
	// Output: <nil> 04
}

func ExampleCellUnion_Value() {
	union, _ := s2union.CellUnionFromTokens("04")
	file, err := union.Value()
	fmt.Printf("%x %v\n", file, err)
	// Output: 0101000000000000000000000000000004 <nil>
}

func ExampleCellUnion_Scan() {
	var union s2union.CellUnion
	fmt.Println(union.Scan("0c 04"), union)
	// Output: <nil> 04 0c
}

func ExampleIsNormalized() {
	fmt.Println(s2union.IsNormalized([]s2union.CellID{1, 5}), s2union.IsNormalized([]s2union.CellID{5, 1}))
	// Output: true false
}

func ExampleNormalize() {
	fmt.Println(s2union.Normalize([]uint64{5, 1, 5}))
	// Output: [1 5] <nil>
}

func ExampleVersion() {
	fmt.Println(len(s2union.Version()) > 4)
	// Output: true
}

func ExampleNewUnionFile() {
	union, _ := s2union.CellUnionFromTokens("04")
	bytes, _ := union.MarshalBinary()
	_, err := s2union.NewUnionFile(bytes[:16])
	fmt.Println(err)
	// Output: s2union: union file: bytes are missing
}

func ExampleUnionFile_Len() {
	union, _ := s2union.CellUnionFromTokens("04 0c")
	bytes, _ := union.MarshalBinary()
	file, _ := s2union.NewUnionFile(bytes)
	fmt.Println(file.Len())
	// Output: 2
}

func ExampleUnionFile_CellID() {
	union, _ := s2union.CellUnionFromTokens("04 0c")
	bytes, _ := union.MarshalBinary()
	file, _ := s2union.NewUnionFile(bytes)
	fmt.Println(file.CellID(1))
	// Output: 0/1
}

func ExampleUnionFile_CellUnion() {
	union, _ := s2union.CellUnionFromTokens("04 0c")
	bytes, _ := union.MarshalBinary()
	file, _ := s2union.NewUnionFile(bytes)
	fmt.Println(file.CellUnion())
	// Output: 04 0c
}

func triangle() s2union.Polygon {
	corners := []s2union.Direction{{10, 1, 1}, {10, 9, 1}, {10, 1, 9}}
	outside, _ := s2union.CellIDFromFaceIJ(3, 0, 0)
	return s2union.Polygon{Corners: corners, Ends: []int{3}, Outside: outside}
}

func ExamplePolygon_Covering() {
	fmt.Println(triangle().Covering(3, 100))
	// Output: 11 13 144 17 <nil>
}

func ExamplePolygon_InteriorCovering() {
	fmt.Println(triangle().InteriorCovering(3, 100))
	// Output: 114 <nil>
}

func ExamplePolygon_CoveringUpTo() {
	fmt.Println(triangle().CoveringUpTo(0, 30, 4))
	// Output: [0/20 0/21 0/220 0/23] <nil>
}

func ExamplePolygon_InteriorCoveringUpTo() {
	polygon := triangle()
	polygon.Ends = []int{2}
	cells, err := polygon.InteriorCoveringUpTo(0, 4, 4)
	fmt.Println(cells, errors.Is(err, s2union.ErrRing))
	// Output: [] true
}

func ExampleCoverGeoJSON() {
	square := `{"type": "Polygon", "coordinates": [[[0,0], [20,0], [20,20], [0,20], [0,0]]]}`
	outer, inner, err := s2union.CoverGeoJSON([]byte(square), 6, s2union.MapWork)
	middle, _ := s2union.CellIDFromPosition(s2union.Position{10, 10})
	fmt.Println(outer.ContainsCellID(middle), inner.ContainsCellID(middle), outer.Contains(inner), err)
	// Output: true true true <nil>
}

func ExampleCoverWKB() {
	_, _, err := s2union.CoverWKB([]byte{0, 0, 0, 0, 6, 0, 0}, 6, s2union.MapWork)
	var shape *s2union.ShapeError
	isFound := errors.As(err, &shape) && errors.Is(err, s2union.ErrShape)
	fmt.Println(isFound && shape.Fault == s2union.FaultTruncated, shape.Byte)
	fmt.Println(err)
	// Output:
	// true 5
	// s2union: bytes are missing: byte 5, part 0, ring 0, position 0
}

func ExampleCoverGeoJSONUpTo() {
	square := `{"type": "Polygon", "coordinates": [[[0,0], [20,0], [20,20], [0,20], [0,0]]]}`
	outer, inner, err := s2union.CoverGeoJSONUpTo([]byte(square), 30, 8)
	fmt.Println(outer.Len() <= 8, inner.Len() <= 8, outer.Contains(inner), err)
	// Output: true true true <nil>
}

func ExampleCoverWKBUpTo() {
	outer, _, err := s2union.CoverWKBUpTo([]byte{0, 0, 0, 0, 6, 0, 0, 0, 0}, 30, 8)
	fmt.Println(outer.Len(), err)
	// Output: 0 <nil>
}

func ExampleCoverGeodesicGeoJSON() {
	square := `{"type": "Polygon", "coordinates": [[[0,0], [20,0], [20,20], [0,20], [0,0]]]}`
	outer, inner, err := s2union.CoverGeodesicGeoJSON([]byte(square), 6, 1000)
	middle, _ := s2union.CellIDFromPosition(s2union.Position{10, 10})
	fmt.Println(outer.ContainsCellID(middle), inner.ContainsCellID(middle), outer.Contains(inner), err)
	// Output: true true true <nil>
}

func ExampleCoverGeodesicWKB() {
	outer, _, err := s2union.CoverGeodesicWKB([]byte{0, 0, 0, 0, 6, 0, 0, 0, 0}, 6, 1000)
	fmt.Println(outer.Len(), err)
	// Output: 0 <nil>
}

func ExampleFaultName_String() {
	fmt.Println(s2union.FaultOpen)
	// Output: a ring is open: its last position is not its first
}
