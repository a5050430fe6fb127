package s2union_test

import (
	"bytes"
	"encoding/hex"
	"errors"
	"fmt"
	"io"
	"os"
	"reflect"
	"strconv"
	"strings"
	"testing"

	s2union "not-published.invalid/s2union/bindings/go"
)

type (
	CellID    = s2union.CellID
	CellUnion = s2union.CellUnion
)

// questionsIn are the lines of the file that a variable names, each with its fields. Without it the test is skipped.
func questionsIn(t *testing.T, variable string) [][]string {
	path := os.Getenv(variable)
	if path == "" {
		t.Skip(variable + " is not set")
	}
	text, err := os.ReadFile(path)
	if err != nil {
		t.Fatal(err)
	}
	var questions [][]string
	for _, line := range strings.Split(strings.TrimSuffix(string(text), "\n"), "\n") {
		questions = append(questions, strings.Split(line, "\t"))
	}
	return questions
}

// TestVectors asks the questions of tests/model/vectors.py and edges.py, in the file that S2UNION_VECTORS names, and
// compares the answers.
func TestVectors(t *testing.T) {
	asked, ways := map[string]bool{}, map[string][]func(given) string{}
	for _, each := range methods {
		ways[each.question] = append(ways[each.question], each.answer)
	}
	for question, answer := range questions {
		ways[question] = append(ways[question], answer)
	}
	for _, fields := range questionsIn(t, "S2UNION_VECTORS") {
		call, last := fields[0], len(fields)-1
		asked[call] = true
		if ways[call] == nil {
			t.Fatalf("there is no call %s", call)
		}
		for _, way := range ways[call] {
			if found := ask(way, fields[1:last]); found != fields[last] {
				t.Errorf("%s %q is %q, not %q", call, fields[1:last], found, fields[last])
			}
		}
	}
	if len(asked) != len(ways) {
		t.Errorf("%d calls were asked, of %d", len(asked), len(ways))
	}
}

// given are the arguments of a question.
type given []string

func (texts given) cell(place int) CellID {
	id, _ := strconv.ParseUint(texts[place], 16, 64)
	return CellID(id)
}

func (texts given) cells(place int) []CellID {
	ids := []CellID{}
	for _, text := range strings.Fields(texts[place]) {
		ids = append(ids, given{text}.cell(0))
	}
	return ids
}

func (texts given) union(place int) CellUnion {
	union, err := s2union.CellUnionFromNormalized(texts.cells(place)...)
	if err != nil {
		panic(fmt.Sprint(err, texts))
	}
	return union
}

func (texts given) file(place int) s2union.UnionFile {
	return must(s2union.NewUnionFile(must(texts.union(place).MarshalBinary())))
}

func (texts given) bytes(place int) []byte { return must(hex.DecodeString(texts[place])) }

func (texts given) numbers(place int) []int {
	numbers := []int{}
	for _, text := range strings.Fields(texts[place]) {
		numbers = append(numbers, must(strconv.Atoi(text)))
	}
	return numbers
}

func (texts given) rect(place int) s2union.Rect {
	corners := texts.numbers(place)
	return s2union.Rect{Face: corners[0], I0: corners[1], I1: corners[2], J0: corners[3], J1: corners[4]}
}

func must[T any](value T, err error) T {
	if err != nil {
		panic(err)
	}
	return value
}

// ask is the answer to a question. The only panics that are answers are those of cells that there are not, and of
// numbers that are no cells.
func ask(question func(given) string, texts given) (answer string) {
	defer func() {
		if said := recover(); said == s2union.ErrArgument {
			answer = "none"
		} else if said == s2union.ErrNoCell {
			answer = "!no_cell"
		} else if said != nil {
			panic(said)
		}
	}()
	return question(texts)
}

const most = 100_000 // cells of a list

// methods is what those that only forward answer, a union and its file each by itself.
var methods = []struct {
	question string
	answer   func(given) string
}{
	// questions: all but file_count
}

// questions is what is asked otherwise, and a further answer to some that are asked above.
var questions = map[string]func(given) string{
	"version": func(given) string { return s2union.Version() },
	"text_of": textOf,
	"is_cell": func(g given) string { return shown(g.cell(0).IsValid()) },
	"level":   level,
	"face": func(g given) string {
		face := g.cell(0).Face()
		return same(shown(face), shown(must(s2union.CellIDFromFace(face)).Face()))
	},
	"range_min":   func(g given) string { return shown(g.cell(0).RangeMin()) },
	"range_max":   func(g given) string { return shown(g.cell(0).RangeMax()) },
	"size":        func(g given) string { return shown(g.cell(0).LeafCellsCovered()) },
	"next":        func(g given) string { return shown(g.cell(0).Next()) },
	"previous":    func(g given) string { return shown(g.cell(0).Prev()) },
	"parent":      func(g given) string { return shown(g.cell(0).Parent(g.numbers(1)[0])) },
	"token":       func(g given) string { return g.cell(0).ToToken() },
	"debug":       debug,
	"from_token":  func(g given) string { return shown(s2union.CellIDFromToken(string(g.bytes(0)))) },
	"from_debug":  func(g given) string { return shown(s2union.CellIDFromString(string(g.bytes(0)))) },
	"contains":    func(g given) string { return shown(g.cell(0).Contains(g.cell(1))) },
	"intersects":  func(g given) string { return shown(g.cell(0).Intersects(g.cell(1))) },
	"normalise":   func(g given) string { return same(shown(s2union.NewCellUnion(g.cells(0)...)), normalised(g)) },
	"is_union":    isUnion,
	"tokens":      func(g given) string { return shown([]byte(g.union(0).String())) },
	"from_tokens": func(g given) string { return shown(s2union.CellUnionFromTokens(string(g.bytes(0)))) },
	"named":       func(g given) string { return shown(s2union.CellIDsFromTokens(string(g.bytes(0)))) },
	"compare":     func(g given) string { return shown(g.union(0).Compare(g.union(1))) },
	"cells_at":    func(g given) string { return shown(g.union(0).CellIDsAt(g.cell(1))) },
	"range":       func(g given) string { return shown(s2union.RangeUnion(g.cell(0), g.cell(1))) },
	"leaves":      func(g given) string { return shown(s2union.CellUnionFromRange(g.cell(0), g.cell(1))) },
	"union":       union,
	"encode":      func(g given) string { return same(shown(g.union(0).MarshalBinary()), encoded(g.union(0))) },
	"decode":      func(g given) string { return same(unmarshalled(g.bytes(0)), decoded(g.bytes(0))) },
	"intersection_with_cell": func(g given) string {
		return shown(s2union.CellUnionFromIntersectionWithCellID(g.union(0), g.cell(1)))
	},
	"symmetric_difference": func(g given) string {
		x, y := g.union(0), g.union(1)
		less, more := s2union.CellUnionFromDifference(x, y), s2union.CellUnionFromDifference(y, x)
		both := s2union.CellUnionFromUnion(less, CellUnion{}, more)
		return same(shown(s2union.CellUnionFromSymmetricDifference(x, y)), shown(both))
	},
	"complement": func(g given) string {
		whole := s2union.CellUnionFromDifference(s2union.WholeSphere(), g.union(0))
		return same(shown(s2union.CellUnionFromComplement(g.union(0))), shown(whole))
	},
	"children": func(g given) string {
		children := g.cell(0).Children()
		return shown(children[:])
	},
	"square": func(g given) string {
		face, i, j, side := g.cell(0).Square()
		return fmt.Sprint(face, i, j, side)
	},
	"from_face_ij": func(g given) string {
		numbers := g.numbers(0)
		return shown(s2union.CellIDFromFaceIJ(numbers[0], numbers[1], numbers[2]))
	},
	"common_ancestor": func(g given) string {
		ancestor, found := g.cell(0).CommonAncestor(g.cell(1))
		level, same := g.cell(0).CommonAncestorLevel(g.cell(1))
		if found != same || (found && level != ancestor.Level()) {
			return "another level"
		}
		return shown(ancestor)
	},
	"denormalised": func(g given) string {
		numbers := g.numbers(1)
		return shown(g.union(0).Denormalize(numbers[0], numbers[1], most))
	},
	"file_check": fileCheck,
	"levels": func(g given) string {
		levels, err := s2union.Levels(g.cells(0))
		if err != nil {
			return shown(levels, err)
		}
		texts := make([]string, len(levels))
		for k, level := range levels {
			texts[k] = strconv.Itoa(int(level))
		}
		return strings.Join(texts, " ")
	},
	"parents":     func(g given) string { return shown(s2union.Parents(g.cells(0), g.numbers(1)[0])) },
	"range_mins":  func(g given) string { return shown(s2union.RangeMins(g.cells(0))) },
	"range_maxes": func(g given) string { return shown(s2union.RangeMaxes(g.cells(0))) },
	"token_fields": func(g given) string {
		fields := []byte{}
		tokens, err := s2union.Tokens(g.cells(0))
		for _, token := range tokens {
			fields = append(append(fields, token...), make([]byte, 16-len(token))...)
		}
		return shown(fields, err)
	},
	"from_points": func(g given) string {
		numbers, points := g.numbers(0), []s2union.FacePoint{}
		for k := 0; k < len(numbers); k += 3 {
			face, i, j := uint32(numbers[k]), uint32(numbers[k+1]), uint32(numbers[k+2])
			points = append(points, s2union.FacePoint{Face: face, I: i, J: j})
		}
		return shown(s2union.CellIDsFromPoints(points))
	},
}

// debug is the text of a cell. That of a number that is none says so.
func debug(g given) string {
	text := g.cell(0).String()
	if text == "Invalid: "+g[0] {
		return "!no_cell"
	}
	return text
}

func level(g given) string {
	id := g.cell(0)
	if id.IsFace() != (id.Level() == 0) || id.IsLeaf() != (id.Level() == 30) {
		return "no level"
	}
	return shown(id.Level())
}

func union(g given) string {
	x, y := g.union(0), g.union(1)
	return same(shown(s2union.CellUnionFromUnion(x, y)), shown(s2union.CellUnionFromUnion(x, CellUnion{}, y)))
}

func same(one, other string) string {
	if one != other {
		return one + ", and " + other
	}
	return one
}

// normalised is what Normalize makes of a list. A list that is refused must be as it was.
func normalised(g given) string {
	ids := g.cells(0)
	made, err := s2union.Normalize(ids)
	if err != nil && shown(ids) != shown(g.cells(0)) {
		return "changed"
	}
	return shown(made, err)
}

func isUnion(g given) string {
	_, err := s2union.CellUnionFromNormalized(g.cells(0)...)
	return same(shown(s2union.IsNormalized(g.cells(0))), shown(err == nil))
}

func encoded(union CellUnion) string {
	var written bytes.Buffer
	err := union.Encode(&written)
	return shown(written.Bytes(), err)
}

func unmarshalled(file []byte) string {
	var union CellUnion
	err := union.UnmarshalBinary(file)
	return shown(union, err)
}

// decoded reads a file from a stream, where what follows it stays. No file at all is taken for one that is short.
func decoded(file []byte) string {
	var union CellUnion
	reader := bytes.NewReader(file)
	err := union.Decode(reader)
	if reader.Len() > 0 && (err == nil || err == s2union.ErrFileCell) {
		err = s2union.ErrFileTrailing
	} else if err == io.EOF && len(file) == 0 {
		err = s2union.ErrFileShort
	}
	return shown(union, err)
}

func fileCheck(g given) string {
	file, err := s2union.NewUnionFile(g.bytes(0))
	if err == s2union.ErrNotNormalized {
		return "no"
	}
	if err != nil {
		return shown(false, err)
	}
	union := file.CellUnion()
	for place := 0; place < file.Len(); place++ {
		if file.CellID(place) != union.CellID(place) {
			return "another cell"
		}
	}
	return shown(file.Len() == union.Len())
}

// textOf is what a refusal says, which has the name of the package before it.
func textOf(g given) string {
	refusal := s2union.Error(g.numbers(1)[0])
	if names[refusal] != g[0] {
		return "another refusal"
	}
	return strings.TrimPrefix(refusal.Error(), "s2union: ")
}

var names = map[s2union.Error]string{
	s2union.ErrMemory: "memory", s2union.ErrNoCell: "no_cell", s2union.ErrNotNormalized: "no_union",
	s2union.ErrArgument: "argument", s2union.ErrMany: "many",
	s2union.ErrFileShort: "file_short", s2union.ErrFileVersion: "file_version",
	s2union.ErrFileTrailing: "file_trailing", s2union.ErrFileCell: "file_cell",
	s2union.ErrCorner: "corner", s2union.ErrRing: "ring", s2union.ErrShapeNumber: "number",
	s2union.ErrShapeFew: "few", s2union.ErrShapeOpen: "open", s2union.ErrShapePieces: "pieces",
	s2union.ErrShapeOutside: "outside", s2union.ErrShapeOpposite: "opposite", s2union.ErrShapeOption: "option",
	s2union.ErrShapeWKB: "wkb", s2union.ErrShapeType: "type", s2union.ErrShapeSRID: "srid", s2union.ErrShapeDeep: "deep",
}

// shown is a value as vectors.py shows it, or an error that comes with it.
func shown(value any, errs ...error) string {
	for _, err := range errs {
		var refusal s2union.Error
		var place *s2union.PlaceError
		var shape *s2union.ShapeError
		if errors.As(err, &place) {
			return fmt.Sprintf("!%s %d", names[place.Refusal], place.Place)
		} else if errors.As(err, &shape) && shape.Refusal <= s2union.ErrShapeWKB {
			return fmt.Sprintf("!%s %d", names[shape.Refusal], shape.Position)
		} else if errors.As(err, &shape) {
			return fmt.Sprintf("!%s %d %d", names[shape.Refusal], shape.Ring, shape.Position)
		} else if errors.As(err, &refusal) {
			return "!" + names[refusal]
		} else if err != nil {
			return err.Error()
		}
	}
	switch value := value.(type) {
	case bool:
		if value {
			return "yes"
		}
		return "no"
	case CellID:
		if value == 0 {
			return "none"
		}
		return strconv.FormatUint(uint64(value), 16)
	case CellUnion:
		if value.Len() == 0 && !reflect.DeepEqual(value, CellUnion{}) {
			return "another empty union"
		}
		return shown(value.CellIDs())
	case []CellID:
		return joined(value)
	case []bool:
		return joined(value)
	case []byte:
		return hex.EncodeToString(value)
	default:
		return fmt.Sprint(value)
	}
}

func joined[T any](values []T) string {
	texts := []string{}
	for _, value := range values {
		texts = append(texts, shown(value))
	}
	return strings.Join(texts, " ")
}
