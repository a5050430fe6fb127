package s2union

import (
	"math"
	"math/rand"
	"testing"
)

// ofMethods are what the methods of CellID answer, as the library does; 0 or a status where they panic.
func ofMethods(id, other CellID) answers {
	found := answers{
		isCell: boolean(id.IsValid()), rangeMin: cell(id.RangeMin), rangeMax: cell(id.RangeMax), next: cell(id.Next),
		prev: cell(id.Prev), size: cell(func() CellID { return CellID(id.LeafCellsCovered()) }), other: uint64(other),
		level: status(func() int32 { return int32(id.Level()) }), face: status(func() int32 { return int32(id.Face()) }),
		contains:   status(func() int32 { return boolean(id.Contains(other)) }),
		intersects: status(func() int32 { return boolean(id.Intersects(other)) }),
		commonAncestor: cell(func() CellID {
			ancestor, _ := id.CommonAncestor(other)
			return ancestor
		}),
	}
	for level := range found.parents {
		found.parents[level] = cell(func() CellID { return id.Parent(level) })
	}
	for k := range found.children {
		found.children[k] = cell(func() CellID { return id.Children()[k] })
	}
	return found
}

func boolean(is bool) int32 {
	if is {
		return 1
	}
	return 0
}

func status(ask func() int32) (found int32) {
	defer func() {
		if refusal, ok := recover().(Error); ok {
			found = int32(refusal)
		}
	}()
	return ask()
}

func cell(ask func() CellID) (found uint64) {
	defer func() { recover() }()
	return uint64(ask())
}

// TestCellsBesideTheLibrary asks about cells of all levels, their neighbors and parents, and about numbers that are
// none: each method, and the library.
func TestCellsBesideTheLibrary(t *testing.T) {
	random := rand.New(rand.NewSource(30))
	ids := []CellID{0, 1, 2, 3, math.MaxUint64, math.MaxUint64 - 1, 6 << 61, 6<<61 | 1, 1 << 63, 7<<61 | 1<<60}
	for face := CellID(0); face < 6; face++ {
		for level := 0; level <= 30; level++ {
			lowest := CellID(1) << (60 - 2*level)
			leaf := face<<61 | CellID(random.Int63n(1<<60))<<1 | 1
			ids = append(ids, face<<61|lowest, (face+1)<<61-lowest, leaf&-lowest|lowest, lowest<<1, leaf<<1)
		}
	}
	for k := 0; k < 2000; k++ {
		ids = append(ids, CellID(random.Uint64()), CellID(random.Uint64())<<random.Intn(64))
	}
	for place, id := range ids {
		others := []CellID{id, ids[random.Intn(len(ids))], ids[(place+1)%len(ids)]}
		if id.IsValid() {
			above := id.Parent(random.Intn(id.Level() + 1))
			others = append(others, above, above.RangeMin(), above.RangeMax(), above.Next(), id.Prev())
		}
		for _, other := range others {
			if found, want := ofMethods(id, other), answersOf(id, other); found != want {
				t.Fatalf("%#x and %#x: %+v, not %+v", uint64(id), uint64(other), found, want)
			}
		}
	}
}
