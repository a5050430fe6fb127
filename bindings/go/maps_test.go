package s2union_test

import (
	"encoding/hex"
	"errors"
	"fmt"
	"os"
	"strconv"
	"strings"
	"testing"

	s2union "not-published.invalid/s2union/bindings/go"
)

// The names of faults as the questions have them, in the order of their numbers.
var faultNames = strings.Fields("truncated trailing order type uncovered srid member deep count few open not_finite " +
	"utf8 json twice no_type missing position range no_inside no_map long_edge spread")

// The calls by their names in the questions, each with a bound of work or of cells.
var mapCalls = map[string]func([]byte, int, uint64) (s2union.CellUnion, s2union.CellUnion, error){
	"map_geojson": s2union.CoverGeoJSON,
	"map_wkb":     s2union.CoverWKB,
	"geodesic_geojson": func(data []byte, level int, most uint64) (s2union.CellUnion, s2union.CellUnion, error) {
		return s2union.CoverGeodesicGeoJSON(data, level, int(most))
	},
	"geodesic_wkb": func(data []byte, level int, most uint64) (s2union.CellUnion, s2union.CellUnion, error) {
		return s2union.CoverGeodesicWKB(data, level, int(most))
	},
	"map_geojson_up_to": func(data []byte, level int, most uint64) (s2union.CellUnion, s2union.CellUnion, error) {
		return s2union.CoverGeoJSONUpTo(data, level, int(most))
	},
	"map_wkb_up_to": func(data []byte, level int, most uint64) (s2union.CellUnion, s2union.CellUnion, error) {
		return s2union.CoverWKBUpTo(data, level, int(most))
	},
}

// TestMaps asks the texts and bytes of tests/model/maps.py, in the file that S2UNION_MAPS names.
func TestMaps(t *testing.T) {
	rows := linesOf(t, "S2UNION_MAPS")
	for _, row := range rows {
		fields := strings.Split(row, "\t")
		data, _ := hex.DecodeString(fields[1])
		level, _ := strconv.Atoi(fields[2])
		most, _ := strconv.ParseUint(fields[3], 10, 64)
		outer, inner, err := mapCalls[fields[0]](data, level, most)
		check(t, answerOf(outer, inner, err) == strings.Join(fields[4:], "\t"), row)
	}
	check(t, len(rows) > 500, fmt.Sprint(len(rows)))
}

// linesOf are the lines of the file that a variable of the environment names.
func linesOf(t *testing.T, variable string) []string {
	text, err := os.ReadFile(os.Getenv(variable))
	if err != nil {
		t.Skip(variable + " names no file")
	}
	return strings.Split(strings.TrimSuffix(string(text), "\n"), "\n")
}

func answerOf(outer, inner s2union.CellUnion, err error) string {
	var shape *s2union.ShapeError
	switch {
	case err == nil:
		return inHex(outer) + "\t" + inHex(inner)
	case errors.As(err, &shape) && shape.Refusal == s2union.ErrShape:
		place := fmt.Sprintf("byte %d, part %d, ring %d, position %d", shape.Byte, shape.Part, shape.Ring, shape.Position)
		if err.Error() != fmt.Sprintf("s2union: %v: %s", shape.Fault, place) {
			return err.Error()
		}
		return fmt.Sprint("!", faultNames[shape.Fault-1], " ", shape.Byte, " ", shape.Part, " ", shape.Ring, " ",
			shape.Position)
	default:
		return map[error]string{s2union.ErrMany: "!many", s2union.ErrArgument: "!argument"}[err]
	}
}

func inHex(union s2union.CellUnion) string {
	words := []string{}
	for _, id := range union.CellIDs() {
		words = append(words, strconv.FormatUint(uint64(id), 16))
	}
	return strings.Join(words, " ")
}
