// The time of operations of the package for Go on 2 cells and many: calls [ROUNDS]. A row has the nanoseconds of a
// call, the least of the rounds; each repeats until it takes 20 ms. A row counts only if its answer is that of plain
// code.
package main

import (
	"fmt"
	"math/rand"
	"os"
	"reflect"
	"sort"
	"strconv"
	"time"

	s2union "MODULE"
)

type CellUnion = s2union.CellUnion

var and, xor = s2union.CellUnionFromIntersection, s2union.CellUnionFromSymmetricDifference

// best is the least time of a call.
func best(rounds int, call func()) float64 {
	least, turns := 0.0, 1
	for round := 0; round < rounds; {
		begun := time.Now()
		for k := 0; k < turns; k++ {
			call()
		}
		taken := time.Since(begun)
		if taken < 20*time.Millisecond {
			turns *= 2
			continue
		}
		round++
		if each := float64(taken.Nanoseconds()) / float64(turns); least == 0 || each < least {
			least = each
		}
	}
	return least
}

func must[T any](made T, err error) T {
	if err != nil {
		panic(err)
	}
	return made
}

// random is a cell of levels from one to another, anywhere.
func random(from *rand.Rand, least, most int) s2union.CellID {
	leaf := must(s2union.CellIDFromFaceIJ(from.Intn(6), from.Intn(1<<30), from.Intn(1<<30)))
	return leaf.Parent(least + from.Intn(most-least+1))
}

// without are the cells of one without a leaf: three beside each cell from the leaf up.
func without(id, leaf s2union.CellID) []s2union.CellID {
	var beside []s2union.CellID
	for level := leaf.Level(); level > id.Level(); level-- {
		for _, child := range leaf.Parent(level - 1).Children() {
			if child != leaf.Parent(level) {
				beside = append(beside, child)
			}
		}
	}
	sort.Slice(beside, func(a, b int) bool { return beside[a] < beside[b] })
	return beside
}

// with is a list with a cell more.
func with(ids []s2union.CellID, id s2union.CellID) []s2union.CellID {
	place := sort.Search(len(ids), func(k int) bool { return ids[k] > id })
	return joined(ids[:place], []s2union.CellID{id}, ids[place:])
}

func joined(lists ...[]s2union.CellID) []s2union.CellID {
	var made []s2union.CellID
	for _, list := range lists {
		made = append(made, list...)
	}
	return made
}

func main() {
	rounds, wrong := 5, 0
	if len(os.Args) > 1 {
		rounds = must(strconv.Atoi(os.Args[1]))
	}
	for _, count := range []int{1000, 100000, 1000000} {
		from := rand.New(rand.NewSource(4))
		drawn := make([]s2union.CellID, count)
		for k := range drawn {
			drawn[k] = random(from, 14, 20)
		}
		large := must(s2union.NewCellUnion(drawn...))
		ids, apart := large.CellIDs(), random(from, 24, 24)
		for large.IntersectsCellID(apart) {
			apart = random(from, 24, 24)
		}
		holder := len(ids) / 2
		inside := ids[holder].RangeMin()
		small := must(s2union.NewCellUnion(inside, apart))
		rest := joined(ids[:holder], without(ids[holder], inside), ids[holder+1:])
		for _, row := range []struct {
			name string
			call func() CellUnion
			want []s2union.CellID
		}{
			{"small_intersection", func() CellUnion { return and(small, large) }, with(nil, inside)},
			{"large_intersection", func() CellUnion { return and(large, small) }, with(nil, inside)},
			{"small_difference", func() CellUnion { return s2union.CellUnionFromDifference(small, large) }, with(nil, apart)},
			{"large_difference", func() CellUnion { return s2union.CellUnionFromDifference(large, small) }, rest},
			{"small_union", func() CellUnion { return s2union.CellUnionFromUnion(small, large) }, with(ids, apart)},
			{"small_symmetric_difference", func() CellUnion { return xor(small, large) }, with(rest, apart)},
		} {
			said := ""
			if !reflect.DeepEqual(row.call().CellIDs(), row.want) {
				wrong, said = wrong+1, "  THE ANSWERS DIFFER"
			}
			fmt.Printf("%-36s %12.1f ns%s\n", fmt.Sprintf("%s_%d", row.name, count), best(rounds, func() { row.call() }), said)
		}
	}
	if wrong > 0 {
		os.Exit(1)
	}
}
