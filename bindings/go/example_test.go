package s2union_test

import (
	"fmt"

	s2union "not-published.invalid/s2union/bindings/go"
)

func ExampleNewCellUnion() {
	// Four siblings are their parent, in any order and if one comes twice.
	park, err := s2union.NewCellUnion[uint64](0x1400000000000000, 0x0400000000000000, 0x0c00000000000000,
		0x0400000000000000, 0x1c00000000000000)
	fmt.Println(park, park.Len(), err)
	_, err = s2union.NewCellUnion[int64](0x1400000000000000, 2)
	fmt.Println(err)
	// Output:
	// 1 1 <nil>
	// s2union: not a cell at place 1
}

func ExampleCellUnionFromTokens() {
	union, err := s2union.CellUnionFromTokens("0c, 04 0/2")
	fmt.Println(union, err)
	_, err = s2union.CellUnionFromTokens("0c, x")
	fmt.Println(err)
	// Output:
	// 04 0c 14 <nil>
	// s2union: not a cell at place 4
}

func ExampleCellUnionFromDifference() {
	park, _ := s2union.CellUnionFromTokens("1")
	pond, _ := s2union.CellUnionFromTokens("14")
	lawn := s2union.CellUnionFromDifference(park, pond)
	fmt.Println(lawn)
	fmt.Println(s2union.CellUnionFromUnion(lawn, pond).Equal(park), lawn.Intersects(pond), park.Contains(lawn))
	// Output:
	// 04 0c 1c
	// true false true
}

func ExampleCellUnionFromUnion() {
	var quarters []s2union.CellUnion
	for _, token := range []string{"04", "0c", "14", "1c"} {
		quarter, _ := s2union.CellUnionFromTokens(token)
		quarters = append(quarters, quarter)
	}
	fmt.Println(s2union.CellUnionFromUnion(quarters...), s2union.CellUnionFromUnion(quarters[1:]...))
	// Output: 1 0c 14 1c
}

func ExampleCellUnion_ContainsCellID() {
	lawn, _ := s2union.CellUnionFromTokens("04 0c 1c")
	tree, _ := s2union.CellIDFromToken("0401")
	face, _ := s2union.CellIDFromFace(0)
	fmt.Println(lawn.ContainsCellID(tree), lawn.ContainsCellID(face), lawn.IntersectsCellID(face))
	fmt.Println(lawn.ContainsCellIDs(tree, face))
	// Output:
	// true false true
	// [true false] <nil>
}

func ExampleCellUnion_Denormalize() {
	face, _ := s2union.CellUnionFromTokens("1")
	list, err := face.Denormalize(1, 1, 100)
	fmt.Println(list, s2union.IsNormalized(list), err)
	_, err = face.Denormalize(30, 1, 100)
	fmt.Println(err)
	// Output:
	// [0/0 0/1 0/2 0/3] false <nil>
	// s2union: too many cells
}

func ExampleCellUnion_MarshalBinary() {
	union, _ := s2union.CellUnionFromTokens("04")
	file, _ := union.MarshalBinary()
	fmt.Printf("%x\n", file)
	var again s2union.CellUnion
	fmt.Println(again.UnmarshalBinary(file), again)
	fmt.Println(again.UnmarshalBinary(file[:16]))
	// Output:
	// 0101000000000000000000000000000004
	// <nil> 04
	// s2union: union file: bytes are missing
}

func ExampleUnionFile() {
	union, _ := s2union.CellUnionFromTokens("04 0c")
	bytes, _ := union.MarshalBinary()
	file, err := s2union.NewUnionFile(bytes) // of a mapped file, or of a row of a table
	cell, _ := s2union.CellIDFromToken("0401")
	fmt.Println(file.Len(), file.ContainsCellID(cell), err)
	// Output: 2 true <nil>
}

func ExampleCellUnion_Ancestors() {
	pond, _ := s2union.CellUnionFromTokens("14")
	fmt.Println(pond.Ancestors())
	// Output: [0/ 0/2]
}

func ExampleRect_Covering() {
	covering, err := s2union.Rect{Face: 0, I0: 0, I1: 1<<30 - 1, J0: 0, J1: 0}.Covering(1, 10)
	fmt.Println(covering, err)
	// Output: 04 1c <nil>
}
