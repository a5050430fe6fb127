package s2union_test

import (
	"encoding/binary"
	"encoding/hex"
	"encoding/json"
	"errors"
	"fmt"
	"math"
	"reflect"
	"strconv"
	"strings"
	"testing"

	s2union "not-published.invalid/s2union/bindings/go"
)

type (
	Position      = s2union.Position
	Shape         = s2union.Shape
	RegionCoverer = s2union.RegionCoverer
)

// TestShapes asks the questions of tests/model/shapes.py, in the file that S2UNION_SHAPES names, and compares the
// answers.
func TestShapes(t *testing.T) {
	asked := map[string]int{}
	for _, fields := range questionsIn(t, "S2UNION_SHAPES") {
		found, wanted := answersOf(fields)
		if found != wanted {
			t.Errorf("%.200q is %.200q, not %.200q", fields, found, wanted)
		}
		asked[fields[0]]++
	}
	if len(asked) != 16 {
		t.Fatal(asked)
	}
}

// answersOf are the answers to a question, and those that it should have.
func answersOf(fields []string) (found, wanted string) {
	wanted = strings.Join(fields[2:], "\t")
	switch fields[0] {
	case "leaf":
		cell, err := s2union.CellIDFromPosition(positionsIn(fields[1])[0])
		return shown(cell, err), wanted
	case "middle":
		return shownPositions(given(fields[1:]).cell(0).Position()), wanted
	case "outline":
		shape, err := given(fields[1:]).union(0).Outline()
		return shown(shownShape(shape), err), wanted
	case "boundary":
		shape, err := given(fields[1:]).union(0).Boundary()
		return shown(shownShape(shape), err), wanted
	case "neighbors", "edge_neighbors", "vertex_neighbors", "expanded", "bounds", "area":
		return around(fields), fields[len(fields)-1]
	case "zones":
		return zonesAsked(fields), fields[5]
	case "holds":
		outer, inner, err := covererIn(fields[2]).Coverings(shapeIn(fields[1]))
		return fmt.Sprint(hasEach(outer, fields[3], true), hasEach(inner, fields[4], false), err), "true true <nil>"
	default:
		wanted = strings.Join(fields[3:], "\t")
		return coverings(covererIn(fields[2]), regionIn(fields[0], fields[1])), wanted
	}
}

// zonesAsked are the pairs of zones and places, twice the same.
func zonesAsked(fields []string) (found string) {
	var zones s2union.Zones
	for k, text := range strings.Split(fields[1], "|") {
		kind, words, _ := strings.Cut(text, ":")
		if kind != "wkb" && kind != "box" {
			kind, words = "rings", text
		}
		number, err := zones.Add(regionIn(kind, words))
		if err != nil {
			return shown("", err)
		} else if number != k {
			return fmt.Sprint("zone ", k, " has the number ", number)
		}
	}
	for turn := 0; turn < 2; turn++ {
		words := []string{}
		pairs, err := zones.Pairs(numbersIn(fields[3]), numbersIn(fields[4]), fields[2] == "1")
		for _, pair := range pairs {
			words = append(words, fmt.Sprintf("%d:%d", pair.Place, pair.Zone))
		}
		found = strings.Join(words, " ")
		if err != nil {
			found = shown("", err)
		}
	}
	return found
}

// around is the answer to a question about the cells around others.
func around(fields []string) (found string) {
	defer func() {
		if err, ok := recover().(error); ok {
			found = shown("", err)
		}
	}()
	union, level := given(fields[1:]).union(0), 0
	if len(fields) > 3 {
		level, _ = strconv.Atoi(fields[2])
	}
	switch fields[0] {
	case "edge_neighbors":
		four := given(fields[1:]).cell(0).EdgeNeighbors()
		return shown(four[:])
	case "vertex_neighbors":
		return shown(given(fields[1:]).cell(0).VertexNeighbors(level))
	case "neighbors":
		cells, err := given(fields[1:]).cell(0).AllNeighbors(level)
		return shown(shown(cells), err)
	case "expanded":
		cells, err := union.ExpandedAtLevel(level)
		return shown(shown(cells), err)
	case "area":
		return fmt.Sprintf("%016x", math.Float64bits(union.Area()))
	}
	box, err := union.RectBound()
	if box.South > box.North {
		return "none"
	}
	return shown(shownPositions(Position{box.West, box.South}, Position{box.East, box.North}), err)
}

// coverings are both, if each alone is the same.
func coverings(coverer RegionCoverer, region s2union.Region) string {
	outer, inner, err := coverer.Coverings(region)
	first, one := coverer.Covering(region)
	second, other := coverer.InteriorCovering(region)
	if !outer.Equal(first) || !inner.Equal(second) || fmt.Sprint(err) != fmt.Sprint(one) ||
		fmt.Sprint(err) != fmt.Sprint(other) || err != nil && outer.Len()+inner.Len() > 0 {
		return fmt.Sprint("they differ: ", outer, first, inner, second, err, one, other)
	}
	return shown(shown(outer)+"\t"+shown(inner), err)
}

func bytesIn(text string) []byte {
	data, err := hex.DecodeString(text)
	if err != nil {
		panic(err)
	}
	return data
}

func numbersIn(text string) []float64 {
	data, numbers := bytesIn(text), []float64{}
	for ; len(data) > 0; data = data[8:] {
		numbers = append(numbers, math.Float64frombits(binary.BigEndian.Uint64(data)))
	}
	return numbers
}

func positionsIn(text string) []Position {
	positions, numbers := []Position{}, numbersIn(text)
	for ; len(numbers) > 0; numbers = numbers[2:] {
		positions = append(positions, Position{numbers[0], numbers[1]})
	}
	return positions
}

func shownPositions(positions ...Position) string {
	text := ""
	for _, position := range positions {
		text += fmt.Sprintf("%016x%016x", math.Float64bits(position[0]), math.Float64bits(position[1]))
	}
	return text
}

func shapeIn(text string) (shape Shape) {
	for _, word := range strings.Fields(text) {
		polygon, places, _ := strings.Cut(word, ":")
		ring := positionsIn(places)
		number, err := strconv.Atoi(polygon)
		switch {
		case err != nil && len(ring) == 1:
			shape.Points = append(shape.Points, ring[0])
		case err != nil:
			shape.Lines = append(shape.Lines, ring)
		case number == len(shape.Polygons):
			shape.Polygons = append(shape.Polygons, [][]Position{ring})
		default:
			shape.Polygons[number] = append(shape.Polygons[number], ring)
		}
	}
	return shape
}

func shownShape(shape Shape) string {
	words := []string{}
	for number, polygon := range shape.Polygons {
		for _, ring := range polygon {
			words = append(words, fmt.Sprintf("%d:%s", number, shownPositions(ring...)))
		}
	}
	for _, line := range shape.Lines {
		words = append(words, "-:"+shownPositions(line...))
	}
	return strings.Join(words, " ")
}

func covererIn(text string) (coverer RegionCoverer) {
	words := strings.Fields(text)
	numbers := [4]int{}
	for k := range numbers {
		numbers[k], _ = strconv.Atoi(words[k])
	}
	return RegionCoverer{MaxCells: numbers[0], MinLevel: numbers[1], MaxLevel: numbers[2],
		Edges: s2union.Edges(numbers[3]), Margin: numbersIn(words[4])[0], Within: numbersIn(words[5])[0]}
}

func regionIn(kind, text string) s2union.Region {
	switch kind {
	case "wkb":
		return s2union.WKB(bytesIn(text))
	case "circle":
		it := numbersIn(text)
		return s2union.Circle{Center: Position{it[0], it[1]}, Radius: it[2]}
	case "box":
		it := numbersIn(text)
		return s2union.Box{West: it[0], South: it[1], East: it[2], North: it[3]}
	default:
		return shapeIn(text)
	}
}

func hasEach(union CellUnion, places string, wanted bool) bool {
	leaves, err := s2union.CellIDsFromPositions(positionsIn(places))
	if err != nil {
		panic(err)
	}
	for k, has := range must(union.ContainsCellIDs(leaves...)) {
		if has != wanted || must(s2union.CellIDFromPosition(positionsIn(places)[k])) != leaves[k] {
			return false
		}
	}
	return len(leaves) > 0
}

// ---- what the questions don't ask

var square = Shape{Polygons: [][][]Position{{{{2, 48}, {3, 48}, {3, 49}, {2, 49}, {2, 48}}}}}

func TestUsualOptions(t *testing.T) {
	usual := must(RegionCoverer{}.Covering(square))
	check(t, usual.Equal(must(RegionCoverer{MaxCells: 200, MaxLevel: 30}.Covering(square))), "200 cells, and level 30")
	point := Shape{Points: []Position{{2.5, 48.5}}} // whose cells are as deep as may be
	check(t, must(RegionCoverer{}.Covering(point)).Equal(must(RegionCoverer{MaxLevel: 30}.Covering(point))), "level 30")
	within := must(RegionCoverer{Within: 500}.Covering(square))
	check(t, within.Equal(must(RegionCoverer{MaxCells: 1000000, Within: 500}.Covering(square))) && within.Len() > 200,
		"many cells within some meters")
	for _, wrong := range []RegionCoverer{
		{MaxCells: -1}, {MaxCells: math.MinInt}, {MaxCells: math.MaxInt}, {MaxCells: 1 << 32}, {MinLevel: -1},
		{MinLevel: 31}, {MaxLevel: -1}, {MaxLevel: 1 << 32}, {Edges: -1}, {Edges: 1 << 32}, {Within: math.Inf(-1)},
	} {
		for _, region := range []s2union.Region{square, s2union.WKB(nil), s2union.Circle{}, s2union.Box{}} {
			outer, err := wrong.Covering(region)
			_, isCircle := region.(s2union.Circle) // whose edges are its own
			is := err == s2union.ErrShapeOption || wrong.Within == 0 && errors.Is(err, s2union.ErrShapeWKB) ||
				isCircle && wrong.Edges != 0
			check(t, is && (err == nil || outer.Len() == 0), fmt.Sprint(wrong, region, err))
		}
	}
}

func TestZones(t *testing.T) {
	var none, zones s2union.Zones
	pairs, err := none.Pairs([]float64{1}, []float64{2}, true)
	check(t, len(pairs) == 0 && err == nil, "no zones")
	_, err = zones.Add(s2union.Circle{Radius: 9})
	check(t, err == s2union.ErrArgument, "a circle is no zone")
	for k := 0; k < 100; k++ {
		check(t, must(zones.Add(square)) == k, "its number")
	}
	_, err = zones.Pairs([]float64{1}, nil, true)
	check(t, err == s2union.ErrArgument, "no latitude")
	places := []float64{}
	for k := 0; k < 1000; k++ {
		places = append(places, 48.5)
	}
	wanted := len(must(zones.Pairs([]float64{2.5}, places[:1], false)))
	answers := make(chan int)
	for k := 0; k < 8; k++ {
		go func() { answers <- len(must(zones.Pairs(make([]float64, 1000), places, false))) }()
		go func() { answers <- len(must(zones.Pairs([]float64{2.5}, places[:1], false))) - wanted }()
	}
	for k := 0; k < 16; k++ {
		check(t, <-answers == 0, "goroutines")
	}
	check(t, wanted == 100, "a hundred times the same")
}

func TestTextsOfShapeErrors(t *testing.T) {
	open := Shape{Polygons: [][][]Position{square.Polygons[0], {square.Polygons[0][0][:4]}}}
	_, err := RegionCoverer{}.Covering(open)
	check(t, err.Error() == "s2union: a ring is open: its last position is not its first: ring 1, position 3", err.Error())
	_, err = RegionCoverer{}.Covering(s2union.WKB{1, 3, 0, 0, 0})
	check(t, err.Error() == "s2union: the bytes are no WKB: at byte 5" && errors.Is(err, s2union.ErrShapeWKB), err.Error())
	_, err = s2union.CellIDsFromPositions([]Position{{0, 0}, {0, 91}})
	var place *s2union.PlaceError
	check(t, errors.As(err, &place) && place.Place == 1 && place.Refusal == s2union.ErrShapeNumber, fmt.Sprint(err))
	none, err := s2union.CellIDsFromPositions(nil)
	check(t, len(none) == 0 && err == nil, "no positions")
}

func TestAMillionPositions(t *testing.T) {
	ring := make([]Position, 1000001)
	for k := range ring {
		turn := 2 * math.Pi * float64(k) / 1000000
		ring[k] = Position{10 * math.Cos(turn), 10 * math.Sin(turn)}
	}
	ring[1000000] = ring[0]
	outer, err := RegionCoverer{MaxCells: 50}.Covering(Shape{Polygons: [][][]Position{{ring}}})
	check(t, err == nil && outer.Len() <= 50 && outer.ContainsCellID(must(s2union.CellIDFromPosition(ring[7]))), "a ring")
	ring[1000000] = Position{}
	_, err = RegionCoverer{}.Covering(Shape{Polygons: [][][]Position{{ring}}})
	check(t, errors.Is(err, s2union.ErrShapeOpen), fmt.Sprint(err))
	outer, err = RegionCoverer{MaxCells: 20}.Covering(Shape{Points: ring[:100000]})
	check(t, err == nil && outer.Len() <= 20 && outer.ContainsCellID(must(s2union.CellIDFromPosition(ring[7]))), "points")
}

func TestGeoJSON(t *testing.T) {
	line := []Position{{0, 0}, {-1.5, 2e1}}
	for _, shape := range []Shape{square, {Lines: [][]Position{line}}, {Points: line}, {},
		{Polygons: square.Polygons, Lines: [][]Position{line}, Points: line}} {
		var again Shape
		text := must(json.Marshal(shape))
		check(t, json.Unmarshal(text, &again) == nil && reflect.DeepEqual(shape, again), string(text))
	}
	check(t, json.Unmarshal([]byte("null"), &square) == nil && square.Polygons != nil, "null")
	check(t, square.UnmarshalJSON([]byte(" null\n")) == nil && square.Polygons != nil, "null and blanks")
	_, err := json.Marshal(Shape{Points: []Position{{math.NaN(), 0}}})
	check(t, err != nil, "no number")
}

// TestReadings asks the texts and bytes of tests/model/readings.py, in the file that S2UNION_READINGS names.
func TestReadings(t *testing.T) {
	asked := 0
	for _, row := range linesOf(t, "S2UNION_READINGS") {
		fields := strings.SplitN(row, "\t", 3)
		data, _ := hex.DecodeString(fields[1])
		want := append(fields[2:], "")[0]
		shape, err := square, error(nil)
		if fields[0] == "wkb" && (want == "" || want[0] != '!') {
			continue // what a covering has is asked of WKB elsewhere
		}
		if fields[0] == "wkb" {
			_, err = RegionCoverer{}.Covering(s2union.WKB(data))
		} else if strings.TrimSpace(string(data)) != "null" {
			err = shape.UnmarshalJSON(data)
		}
		check(t, readingOf(t, shape, err, fields[0] == "wkb", want), row)
		asked++
	}
	check(t, asked > 400, fmt.Sprint(asked))
}

// readingOf is whether a shape is the one that is wanted, or an error is that of its fault.
func readingOf(t *testing.T, shape Shape, err error, isWKB bool, want string) bool {
	var wrong *s2union.ShapeError
	if want == "" || want[0] != '!' {
		return err == nil && reflect.DeepEqual(shape, wanted(want))
	}
	if !errors.As(err, &wrong) || isWKB {
		return strings.HasPrefix(want, "!no_type") && err == nil || wrong != nil && wrong.Refusal <= s2union.ErrShapeNumber
	}
	check(t, errors.Is(err, s2union.ErrGeoJSON) && strings.Contains(err.Error(), wrong.Fault.String()), err.Error())
	return reflect.DeepEqual(shape, square) && want == fmt.Sprint("!", faultNames[wrong.Fault-1], " 0 ", wrong.Part, " ",
		wrong.Ring, " ", wrong.Position)
}

// wanted is the shape of a row: the number of a polygon or '-', and longitudes and latitudes, of each ring.
func wanted(row string) (shape Shape) {
	before := ""
	for _, words := range strings.Fields(row) {
		polygon, numbers, _ := strings.Cut(words, ":")
		var line []Position
		for each := strings.Split(numbers, ","); len(each) > 0; each = each[2:] {
			line = append(line, Position{must(strconv.ParseFloat(each[0], 64)), must(strconv.ParseFloat(each[1], 64))})
		}
		switch {
		case polygon == "-" && len(line) == 1:
			shape.Points = append(shape.Points, line[0])
		case polygon == "-":
			shape.Lines = append(shape.Lines, line)
		case polygon == before:
			shape.Polygons[len(shape.Polygons)-1] = append(shape.Polygons[len(shape.Polygons)-1], line)
		default:
			shape.Polygons = append(shape.Polygons, [][]Position{line})
		}
		before = polygon
	}
	return shape
}
