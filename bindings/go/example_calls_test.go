package s2union_test // made by tools/calls

import (
	"fmt"
	s2union "not-published.invalid/s2union/bindings/go"
)

func ExampleCellUnion_LeafCellsCovered() {
	union, _ := s2union.CellUnionFromTokens("1")
	fmt.Println(union.LeafCellsCovered() == 1<<60)
	// Output: true
}

func ExampleUnionFile_LeafCellsCovered() {
	union, _ := s2union.CellUnionFromTokens("1")
	bytes, _ := union.MarshalBinary()
	file, _ := s2union.NewUnionFile(bytes)
	fmt.Println(file.LeafCellsCovered() == 1<<60)
	// Output: true
}

func ExampleCellUnion_IntersectsCellID() {
	union, _ := s2union.CellUnionFromTokens("0401")
	cell, _ := s2union.CellIDFromToken("04")
	fmt.Println(union.IntersectsCellID(cell))
	// Output: true
}

func ExampleUnionFile_IntersectsCellID() {
	union, _ := s2union.CellUnionFromTokens("0401")
	bytes, _ := union.MarshalBinary()
	file, _ := s2union.NewUnionFile(bytes)
	cell, _ := s2union.CellIDFromToken("04")
	fmt.Println(file.IntersectsCellID(cell))
	// Output: true
}

func ExampleCellUnion_ContainsCellIDs() {
	union, _ := s2union.CellUnionFromTokens("04")
	cells, _ := s2union.CellIDsFromTokens("0401 14")
	fmt.Println(union.ContainsCellIDs(cells...))
	fmt.Println(union.ContainsCellIDs(1, 2))
	// Output:
	// [true false] <nil>
	// [] s2union: not a cell at place 1
}

func ExampleCellUnion_IntersectsCellIDs() {
	union, _ := s2union.CellUnionFromTokens("0401")
	cells, _ := s2union.CellIDsFromTokens("04")
	fmt.Println(union.IntersectsCellIDs(cells...))
	// Output: [true] <nil>
}

func ExampleCellUnion_Contains() {
	x, _ := s2union.CellUnionFromTokens("1")
	y, _ := s2union.CellUnionFromTokens("04")
	fmt.Println(x.Contains(y))
	// Output: true
}

func ExampleCellUnion_Intersects() {
	x, _ := s2union.CellUnionFromTokens("1")
	y, _ := s2union.CellUnionFromTokens("04")
	fmt.Println(x.Intersects(y))
	// Output: true
}

func ExampleUnionFile_Intersects() {
	x, _ := s2union.CellUnionFromTokens("1")
	bytes, _ := x.MarshalBinary()
	file, _ := s2union.NewUnionFile(bytes)
	y, _ := s2union.CellUnionFromTokens("04")
	bytesOfY, _ := y.MarshalBinary()
	other, _ := s2union.NewUnionFile(bytesOfY)
	fmt.Println(file.Intersects(other))
	// Output: true
}

func ExampleCellUnionFromIntersection() {
	x, _ := s2union.CellUnionFromTokens("1")
	y, _ := s2union.CellUnionFromTokens("04 3")
	fmt.Println(s2union.CellUnionFromIntersection(x, y))
	// Output: 04
}

func ExampleCellUnionFromSymmetricDifference() {
	x, _ := s2union.CellUnionFromTokens("04 0c")
	y, _ := s2union.CellUnionFromTokens("0c 14")
	fmt.Println(s2union.CellUnionFromSymmetricDifference(x, y))
	// Output: 04 14
}

func ExampleCellUnionFromComplement() {
	union, _ := s2union.CellUnionFromTokens("04 0c 1c")
	fmt.Println(s2union.CellUnionFromComplement(union))
	// Output: 14 3 5 7 9 b
}

func ExampleRect_InteriorCovering() {
	edge := s2union.Rect{Face: 0, I0: 0, I1: 1<<30 - 1, J0: 0, J1: 0}
	covering, err := edge.InteriorCovering(1, 10)
	fmt.Println(covering.Len(), err)
	// Output: 0 <nil>
}

func ExampleCellUnion_Covering() {
	union, _ := s2union.CellUnionFromTokens("0401")
	fmt.Println(union.Covering(1, 10))
	// Output: 04 <nil>
}

func ExampleCellUnion_InteriorCovering() {
	union, _ := s2union.CellUnionFromTokens("04 1401")
	fmt.Println(union.InteriorCovering(1, 10))
	// Output: 04 <nil>
}

func ExampleCellUnion_CoveringIn() {
	union, _ := s2union.CellUnionFromTokens("1")
	edge := s2union.Rect{Face: 0, I0: 0, I1: 1<<30 - 1, J0: 0, J1: 0}
	fmt.Println(union.CoveringIn(edge, 1, 10))
	_, err := union.CoveringIn(edge, 30, 10)
	fmt.Println(err)
	// Output:
	// 04 1c <nil>
	// s2union: too many cells
}

func ExampleCellUnion_InteriorCoveringIn() {
	union, _ := s2union.CellUnionFromTokens("1")
	edge := s2union.Rect{Face: 0, I0: 0, I1: 1<<30 - 1, J0: 0, J1: 0}
	covering, err := union.InteriorCoveringIn(edge, 1, 10)
	fmt.Println(covering.Len(), err)
	// Output: 0 <nil>
}

func ExampleUnionFile_Ancestors() {
	union, _ := s2union.CellUnionFromTokens("04")
	bytes, _ := union.MarshalBinary()
	file, _ := s2union.NewUnionFile(bytes)
	fmt.Println(s2union.Tokens(file.Ancestors()))
	// Output: [04 1] <nil>
}

func ExampleUnionFile_ContainsCellID() {
	union, _ := s2union.CellUnionFromTokens("04")
	bytes, _ := union.MarshalBinary()
	file, _ := s2union.NewUnionFile(bytes)
	cell, _ := s2union.CellIDFromToken("0401")
	fmt.Println(file.ContainsCellID(cell))
	// Output: true
}

func ExampleUnionFile_ContainsCellIDs() {
	union, _ := s2union.CellUnionFromTokens("04")
	bytes, _ := union.MarshalBinary()
	file, _ := s2union.NewUnionFile(bytes)
	cells, _ := s2union.CellIDsFromTokens("0401 14")
	fmt.Println(file.ContainsCellIDs(cells...))
	fmt.Println(file.ContainsCellIDs(1, 2))
	// Output:
	// [true false] <nil>
	// [] s2union: not a cell at place 1
}

func ExampleUnionFile_Contains() {
	x, _ := s2union.CellUnionFromTokens("1")
	bytes, _ := x.MarshalBinary()
	file, _ := s2union.NewUnionFile(bytes)
	y, _ := s2union.CellUnionFromTokens("04")
	bytesOfY, _ := y.MarshalBinary()
	other, _ := s2union.NewUnionFile(bytesOfY)
	fmt.Println(file.Contains(other))
	// Output: true
}
