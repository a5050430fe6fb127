package s2union_test

import (
	"bytes"
	"encoding/gob"
	"encoding/json"
	"errors"
	"fmt"
	"io"
	"math"
	"reflect"
	"runtime"
	"strconv"
	"strings"
	"sync"
	"testing"
	"testing/iotest"

	s2union "not-published.invalid/s2union/bindings/go"
)

const face CellID = 0x1000000000000000

func check(t *testing.T, holds bool, what string) {
	t.Helper()
	if !holds {
		t.Error(what)
	}
}

func panics(t *testing.T, want error, what string, call func()) {
	t.Helper()
	defer func() {
		if said := recover(); said != want {
			t.Errorf("%s: panics with %v, not %v", what, said, want)
		}
	}()
	call()
}

// refusalOf is what a method panics with, or the error that it returns.
func refusalOf(method reflect.Value, arguments []reflect.Value) (err error) {
	defer func() {
		if said := recover(); said != nil {
			err = said.(error)
		}
	}()
	call := method.Call
	if method.Type().IsVariadic() {
		call = method.CallSlice
	}
	for _, result := range call(arguments) {
		if found, isError := result.Interface().(error); isError {
			err = found
		}
	}
	return err
}

// TestACellThatIsNone asks each method about a number that is no cell: each of a cell, and each that takes one.
func TestACellThatIsNone(t *testing.T) {
	union := must(s2union.NewCellUnion(face))
	file := must(s2union.NewUnionFile(must(union.MarshalBinary())))
	for _, id := range []CellID{0, 2, 12 * face, math.MaxUint64} {
		asked := 0
		for place, of := range []any{id, face, union, file} {
			value, given := reflect.ValueOf(of), map[reflect.Type]any{reflect.TypeOf(id): id}
			if place == 0 {
				given[reflect.TypeOf(id)] = face
			}
			given[reflect.TypeOf([]CellID{})] = []CellID{id}
			for k := 0; k < value.NumMethod(); k++ {
				name, method := value.Type().Method(k).Name, value.Method(k)
				isAbout, arguments := place == 0 && name != "IsValid" && name != "String", []reflect.Value{}
				for n := 0; n < method.Type().NumIn(); n++ {
					argument := reflect.Zero(method.Type().In(n))
					if cell, isCell := given[argument.Type()]; isCell {
						argument, isAbout = reflect.ValueOf(cell), true
					}
					arguments = append(arguments, argument)
				}
				if isAbout {
					asked++
					err := refusalOf(method, arguments)
					check(t, errors.Is(err, s2union.ErrNoCell), fmt.Sprintf("%T.%s: %v", of, name, err))
				}
			}
		}
		check(t, asked >= 30, fmt.Sprintf("%d methods are found", asked))
		panics(t, s2union.ErrNoCell, "IntersectionWithCellID", func() {
			s2union.CellUnionFromIntersectionWithCellID(union, id)
		})
		check(t, !id.IsValid() && strings.HasPrefix(id.String(), "Invalid: "), "String")
		_, err := s2union.RangeUnion(id, face)
		check(t, err == s2union.ErrNoCell, "RangeUnion")
		_, err = union.ContainsCellIDs(face, id)
		check(t, err.Error() == "s2union: not a cell at place 1", "its text")
	}
	check(t, CellID(254).String() == "Invalid: fe" && CellID(0).String() == "Invalid: 0", "a text of no cell")
	for _, level := range []int{-1, 1, 31, math.MaxInt, math.MinInt, 1 << 32} {
		panics(t, s2union.ErrArgument, "Parent", func() { face.Parent(level) })
	}
	panics(t, s2union.ErrArgument, "Children", func() { face.RangeMin().Children() })
	for _, place := range []int{1, -1, math.MaxInt, math.MinInt} {
		panics(t, s2union.ErrArgument, "CellID", func() { union.CellID(place) })
		panics(t, s2union.ErrArgument, "file's CellID", func() { file.CellID(place) })
	}
	panics(t, s2union.ErrFileShort, "a file that was not made", func() { new(s2union.UnionFile).Len() })
}

func TestCellsCallNoC(t *testing.T) {
	before := runtime.NumCgoCall()
	for _, ask := range []func(){
		func() { face.Parent(0) }, func() { face.Children() }, func() { face.RangeMin() }, func() { face.RangeMax() },
		func() { face.LeafCellsCovered() }, func() { face.Next() }, func() { (3 * face).Prev() },
		func() { face.CommonAncestor(face) }, func() { face.Level() }, func() { face.Contains(face) },
	} {
		ask()
	}
	check(t, runtime.NumCgoCall() == before, "no call of C")
}

func TestNumbersOutOfRange(t *testing.T) {
	union := must(s2union.NewCellUnion(face))
	for _, wrong := range []int{-1, 31, math.MaxInt, math.MinInt, 1 << 32} {
		_, err := union.Denormalize(wrong, 1, most)
		check(t, err == s2union.ErrArgument, "a level")
		_, err = union.Covering(wrong, most)
		check(t, err == s2union.ErrArgument, "a level of a covering")
		_, err = s2union.Rect{Face: 0, I0: 0, I1: wrong - 31, J0: 0, J1: 0}.Covering(30, most)
		check(t, wrong == 31 || err == s2union.ErrArgument, "a corner")
		_, err = union.CoveringIn(s2union.Rect{}, wrong, most)
		check(t, err == s2union.ErrArgument, "a level of a covering in a rectangle")
		_, err = s2union.CellIDFromFace(wrong)
		check(t, err == s2union.ErrArgument, "a face")
	}
	for _, modulus := range []int{-1, 0, 4, 1<<32 + 1} {
		_, err := union.Denormalize(0, modulus, most)
		check(t, err == s2union.ErrArgument, "a modulus")
	}
	for limit, want := range map[int]error{4: nil, 3: s2union.ErrMany, 0: s2union.ErrMany, -1: s2union.ErrMany} {
		list, err := union.Denormalize(1, 1, limit)
		check(t, err == want && (len(list) == 4) == (err == nil), "a limit")
		_, err = must(union.Covering(0, most)).InteriorCovering(3, limit)
		check(t, (err == s2union.ErrMany) == (limit < 1), "a limit of a covering")
	}
	_, err := union.Denormalize(30, 1, math.MaxInt32)
	check(t, err == s2union.ErrMany, "4^30 cells")
	for _, level := range []int{22, 23, 30} {
		_, err = union.Denormalize(level, 1, math.MaxInt)
		check(t, err == s2union.ErrMemory, "more memory than there is")
	}
	_, err = s2union.Rect{Face: 0, I0: 0, I1: 1<<30 - 1}.Covering(30, math.MaxInt)
	check(t, err == s2union.ErrMany, "a row of leaves")
}

func TestRanges(t *testing.T) {
	const end CellID = 0xc000000000000001
	check(t, must(s2union.CellUnionFromRange(1, end)).Equal(s2union.WholeSphere()), "all leaves")
	for _, id := range []CellID{1, 7, end} {
		check(t, must(s2union.CellUnionFromRange(id, id)).Len() == 0, "nothing")
	}
	for _, wrong := range [][2]CellID{
		{3, 1}, {5, 3}, {face, end}, {1, face}, {end, 1}, {end, end - 2}, {0, 1}, {1, 0}, {1, end + 2},
		{2, 2}, {0, 0}, {face, face}, {end + 2, end + 2},
	} {
		_, err := s2union.CellUnionFromRange(wrong[0], wrong[1])
		check(t, err == s2union.ErrArgument, "a range")
	}
}

func TestOtherTypesOfCells(t *testing.T) {
	type theirs uint64 // as golang/geo's CellID
	wood := must(s2union.CellUnionFromTokens("9 64c"))
	signed := s2union.CellIDsAs[int64](wood)
	check(t, signed[0] == 0x64c0000000000000 && signed[1] == -0x7000000000000000, "numbers with a sign")
	check(t, must(s2union.NewCellUnion(signed[1], signed[0], signed[1])).Equal(wood), "from numbers with a sign")
	check(t, must(s2union.CellUnionFromNormalized(s2union.CellIDsAs[theirs](wood)...)).Equal(wood), "another package's")
	list := []theirs{0x1400000000000000, 0x0c00000000000000, 0x1c00000000000000, 0x0400000000000000, 0x1400000000000000}
	list, err := s2union.Normalize(list)
	check(t, err == nil && len(list) == 1 && list[0] == theirs(face) && s2union.IsNormalized(list), "Normalize")
	wrong := []theirs{0x1400000000000000, 3, 2, 1}
	list, err = s2union.Normalize(wrong)
	check(t, errors.Is(err, s2union.ErrNoCell) && len(list) == 4 && list[0] == 0x1400000000000000, "Normalize of 2")
	_, err = s2union.NewCellUnion(int64(face), -1)
	check(t, errors.Is(err, s2union.ErrNoCell), "-1")
	_, err = s2union.CellUnionFromNormalized(face, face)
	check(t, err == s2union.ErrNotNormalized, "not normalized")
}

func TestUnionsNeverChange(t *testing.T) {
	given := []CellID{face, 3 * face}
	union := must(s2union.NewCellUnion(given...))
	same := must(s2union.CellUnionFromNormalized(given...))
	given[0] = 0
	union.CellIDs()[0] = 0
	union.CellIDsAt(face)[0] = 0
	must(union.Denormalize(0, 1, most))[0] = 0
	check(t, union.String() == "1 3" && same.Equal(union) && union.IsValid() && union.IsNormalized(), "the union")
	var zero CellUnion
	check(t, zero.Len() == 0 && zero.String() == "" && zero.Equal(s2union.CellUnionFromUnion()), "the empty union")
	check(t, s2union.CellUnionFromUnion(union).Equal(union) && union.Contains(zero), "of one")
	var all sync.WaitGroup
	for turn := 0; turn < 8; turn++ {
		all.Add(1)
		go func() {
			defer all.Done()
			for round := 0; round < 200; round++ {
				rest := s2union.CellUnionFromDifference(s2union.WholeSphere(), union)
				check(t, !rest.Intersects(union) && rest.Len() == 4, "in several goroutines")
			}
		}()
	}
	all.Wait()
}

// TestOneEmptyUnion makes empty unions in all ways: they are the same value, also for what compares by reflection.
func TestOneEmptyUnion(t *testing.T) {
	var none, fromText, fromFile, fromStream CellUnion
	union := must(s2union.NewCellUnion(face))
	check(t, fromText.UnmarshalText(nil) == nil, "UnmarshalText")
	check(t, fromFile.UnmarshalBinary(must(none.MarshalBinary())) == nil, "UnmarshalBinary")
	check(t, fromStream.Decode(bytes.NewReader(must(none.MarshalBinary()))) == nil, "Decode")
	file := must(s2union.NewUnionFile(must(none.MarshalBinary())))
	unions := map[string]CellUnion{
		"NewCellUnion": must(s2union.NewCellUnion[CellID]()), "of a list": must(s2union.NewCellUnion([]CellID{}...)),
		"CellUnionFromNormalized": must(s2union.CellUnionFromNormalized([]CellID{}...)),
		"CellUnionFromTokens":     must(s2union.CellUnionFromTokens(" ,\n")), "UnmarshalText": fromText,
		"UnmarshalBinary": fromFile, "Decode": fromStream, "of a file": file.CellUnion(),
		"CellUnionFromRange":        must(s2union.CellUnionFromRange(7, 7)),
		"CellUnionFromUnion":        s2union.CellUnionFromUnion(none, none, none),
		"of two":                    s2union.CellUnionFromUnion(none, fromFile),
		"CellUnionFromIntersection": s2union.CellUnionFromIntersection(union, must(s2union.NewCellUnion(3*face))),
		"with a cell":               s2union.CellUnionFromIntersectionWithCellID(union, 3*face),
		"CellUnionFromDifference":   s2union.CellUnionFromDifference(union, union),
		"Covering":                  must(none.Covering(3, most)),
		"InteriorCovering":          must(must(s2union.CellUnionFromTokens("04")).InteriorCovering(0, most)),
		"CoveringIn":                must(union.CoveringIn(s2union.Rect{Face: 3}, 3, most)),
	}
	for what, made := range unions {
		check(t, reflect.DeepEqual(made, CellUnion{}), what)
	}
}

// heap is how many bytes of memory are in use.
func heap() int {
	var stats runtime.MemStats
	runtime.GC()
	runtime.ReadMemStats(&stats)
	return int(stats.HeapAlloc)
}

func TestUnionsHaveMemoryOfTheirSize(t *testing.T) {
	const count = 1 << 18
	before := heap()
	same := must(s2union.CellUnionFromTokens(strings.Repeat("1 ", count)))
	ids := make([]CellID, count)
	for place := range ids {
		ids[place] = face
	}
	one := must(s2union.NewCellUnion(ids...))
	for place := range ids {
		ids[place] = CellID(8*place + 1)
	}
	text := must(s2union.NewCellUnion(ids...)).String()
	many := must(s2union.CellUnionFromTokens(text))
	cells := must(s2union.CellIDsFromTokens(text))
	check(t, len(cells) == count && cap(cells) < count*3/2, "a list of cells")
	ids, text, cells = nil, "", nil
	check(t, same.Len() == 1 && one.Equal(same) && many.Len() == count, "the unions")
	check(t, heap()-before < 8*count*3/2, "their memory")
	runtime.KeepAlive([]CellUnion{same, one, many})
}

// A union of half the cells that were given has no more than half as much memory again as it needs.
func TestUnionsOfFewerCellsHaveMemoryOfTheirSize(t *testing.T) {
	const count = 1 << 18
	before := heap()
	ids := make([]CellID, count)
	for place := range ids {
		ids[place] = CellID(place/2*16 + 1)
	}
	half := must(s2union.NewCellUnion(ids...))
	ids = nil
	check(t, half.Len() == count/2, "the union")
	check(t, heap()-before < 8*count*3/4, "its memory")
	runtime.KeepAlive(half)
}

// scattered is a union of some cells on two faces, which a number picks; the empty union for each fifth one.
func scattered(number int) CellUnion {
	var ids []CellID
	for k := 0; k < number%5*3; k++ {
		place := int(uint32(16*number+k) * 0x9e3779b9 >> 2)
		leaf := must(s2union.CellIDFromFaceIJ(place%2, place, int(uint32(place)*13>>2)))
		ids = append(ids, leaf.Parent(3+place%4))
	}
	return must(s2union.NewCellUnion(ids...))
}

func TestTheUnionOfMany(t *testing.T) {
	var unions []CellUnion
	var inPairs CellUnion
	for count := 0; count <= 40; count++ {
		check(t, s2union.CellUnionFromUnion(unions...).Equal(inPairs), "of many, as in pairs")
		next := scattered(count + 1)
		unions, inPairs = append(unions, next), s2union.CellUnionFromUnion(inPairs, next)
	}
	check(t, inPairs.Len() > 50, "there are many cells")
	check(t, s2union.CellUnionFromUnion(make([]CellUnion, 40)...).Len() == 0, "of empty unions")
	for k, union := range unions {
		check(t, union.Equal(scattered(k+1)), "what is given stays")
	}
}

func TestFiles(t *testing.T) {
	union := must(s2union.CellUnionFromTokens("04 0c"))
	file := must(union.MarshalBinary())
	var stream bytes.Buffer
	check(t, union.Encode(&stream) == nil && union.Encode(&stream) == nil && stream.Len() == 50, "Encode")
	var read CellUnion
	for round := 0; round < 2; round++ {
		check(t, read.Decode(iotest.OneByteReader(&stream)) == nil && read.Equal(union), "Decode")
	}
	check(t, read.Decode(&stream) == io.EOF && read.Equal(union), "Decode of nothing")
	for wrong, want := range map[string]error{
		"\x02" + string(file[1:]): s2union.ErrFileVersion, string(file[:24]): s2union.ErrFileShort,
		string(file[:8]): s2union.ErrFileShort, "\x01" + strings.Repeat("\xff", 24): s2union.ErrFileShort,
		"\x01\xff\xff\xff\xff\xff\xff\xff\x07" + string(file): s2union.ErrFileShort,
	} {
		check(t, read.Decode(strings.NewReader(wrong)) == want && read.Equal(union), "Decode of what is wrong")
		check(t, read.UnmarshalBinary([]byte(wrong)) == want && read.Equal(union), "UnmarshalBinary of what is wrong")
	}
	check(t, read.Decode(strings.NewReader("\x02"+string(file[1:20]))) == s2union.ErrFileVersion, "Decode of version 2")
	broken := errors.New("broken")
	check(t, read.Decode(iotest.ErrReader(broken)) == broken, "a reader that fails")
	check(t, union.Encode(brokenWriter{}) == io.ErrClosedPipe, "a writer that fails")
	check(t, gob.NewEncoder(&stream).Encode(union) == nil, "gob's encoder")
	var again CellUnion
	check(t, gob.NewDecoder(&stream).Decode(&again) == nil && again.Equal(union), "gob's decoder")
	check(t, s2union.Error(-99).Error() == "s2union: unknown refusal", "an unknown refusal")
}

func TestTexts(t *testing.T) {
	parks := map[string]CellUnion{"lawn": must(s2union.CellUnionFromTokens("04 0c 1c")), "none": {}}
	text := must(json.Marshal(parks))
	check(t, string(text) == `{"lawn":"04 0c 1c","none":""}`, "as JSON has them")
	var again map[string]CellUnion
	check(t, json.Unmarshal(text, &again) == nil && len(again) == 2, "JSON is read")
	for name, park := range parks {
		check(t, again[name].Equal(park), name)
	}
	union := parks["lawn"]
	err := json.Unmarshal([]byte(`"04 x"`), &union)
	check(t, errors.Is(err, s2union.ErrNoCell) && union.Equal(parks["lawn"]), "a text that names no cell")
}

// TestCellsInJSON sends cells of all levels and faces through what rounds numbers to 53 bits, as JavaScript and jq do.
func TestCellsInJSON(t *testing.T) {
	var cells []CellID
	numbers := "["
	for place := 0; place < 31*200; place++ {
		leaf := must(s2union.CellIDFromFaceIJ(place%6, place*7919%(1<<30), place*104729%(1<<30)))
		cells = append(cells, leaf.Parent(place%31))
		numbers += strconv.FormatUint(uint64(cells[place]), 10) + ","
	}
	var rounded any
	check(t, json.Unmarshal(must(json.Marshal(cells)), &rounded) == nil, "JSON is read")
	var again, fromNumbers []CellID
	check(t, json.Unmarshal(must(json.Marshal(rounded)), &again) == nil && reflect.DeepEqual(again, cells), "tokens")
	document := []byte(strings.TrimSuffix(numbers, ",") + "]")
	check(t, json.Unmarshal(document, &fromNumbers) == nil && reflect.DeepEqual(fromNumbers, cells), "numbers")
	names := map[CellID]*CellID{face: &cells[0], 3 * face: nil}
	text := must(json.Marshal(names))
	check(t, string(text) == `{"1":"`+cells[0].ToToken()+`","3":null}`, "keys, and no cell")
	var keys map[CellID]*CellID
	check(t, json.Unmarshal(text, &keys) == nil && reflect.DeepEqual(keys, names), "keys are read")
	id := face
	check(t, json.Unmarshal([]byte("-8070450532247928832"), &id) == nil && id == 9*face, "a number with a sign")
	id = face
	check(t, json.Unmarshal([]byte("null"), &id) == nil && id == face, "null")
	for _, wrong := range []string{
		"1152921504606847002", "1.152921504606847e+18", "2", "0", "-1", "18446744073709551616", `"x"`, `""`, "true", "[1]",
	} {
		err := json.Unmarshal([]byte(wrong), &id)
		check(t, errors.Is(err, s2union.ErrNoCell) && id == face, wrong)
	}
	_, err := json.Marshal([]CellID{face, 0})
	check(t, errors.Is(err, s2union.ErrNoCell), "a number that is no cell is not written")
}

type brokenWriter struct{}

func (brokenWriter) Write([]byte) (int, error) { return 0, io.ErrClosedPipe }

func TestManyCellsOneOfWhichHasNoAnswer(t *testing.T) {
	ids := []CellID{face, 2, 0}
	_, levels := s2union.Levels(ids)
	_, parents := s2union.Parents(ids, 0)
	_, first := s2union.RangeMins(ids)
	_, last := s2union.RangeMaxes(ids)
	_, tokens := s2union.Tokens(ids)
	for what, err := range map[string]error{
		"Levels": levels, "Parents": parents, "RangeMins": first, "RangeMaxes": last, "Tokens": tokens,
	} {
		var refusal *s2union.PlaceError
		check(t, errors.As(err, &refusal) && refusal.Place == 1, what)
	}
	outOfRange := func(ids []CellID, err error, place int, what string) {
		t.Helper()
		var refusal *s2union.PlaceError
		check(t, errors.As(err, &refusal) && refusal.Place == place && errors.Is(err, s2union.ErrArgument), what)
		check(t, ids == nil && !errors.Is(err, s2union.ErrNoCell), what)
	}
	for _, level := range []int{1, 31, -1} {
		made, err := s2union.Parents(ids[:1], level)
		outOfRange(made, err, 0, "Parents below the cell")
	}
	made, err := s2union.Parents([]CellID{face.Children()[0], face, 2}, 1)
	outOfRange(made, err, 1, "Parents below one of the cells")
	check(t, err.Error() == "s2union: argument out of range at place 1", "its text")
	for _, point := range []s2union.FacePoint{{Face: 6}, {I: 1 << 30}, {J: 1 << 30}} {
		made, err := s2union.CellIDsFromPoints([]s2union.FacePoint{{}, point})
		outOfRange(made, err, 1, "CellIDsFromPoints")
	}
	none, err := s2union.CellIDsFromPoints(nil)
	check(t, len(none) == 0 && err == nil && len(must(s2union.Tokens(nil))) == 0, "none")
}
