package s2union_test

import (
	"database/sql"
	"database/sql/driver"
	"errors"
	"strings"
	"testing"

	s2union "not-published.invalid/s2union/bindings/go"
)

var (
	_ sql.Scanner   = (*s2union.CellID)(nil)
	_ sql.Scanner   = (*s2union.CellUnion)(nil)
	_ driver.Valuer = s2union.CellID(0)
	_ driver.Valuer = s2union.CellUnion{}
)

func TestColumnsOfDatabases(t *testing.T) {
	id := must(s2union.CellIDFromToken("89c25"))
	union := must(s2union.CellUnionFromTokens("04 0c"))
	check(t, must(id.Value()) == driver.Value(int64(id)), "a cell is a signed number")
	check(t, shown(must(union.Value())) == shown(must(union.MarshalBinary())), "a union is its file")
	for _, given := range []any{int64(id), "89c25", "89C25", []byte("89c25"), id.String()} {
		var found s2union.CellID
		check(t, found.Scan(given) == nil && found == id, "a cell is scanned")
	}
	for _, given := range []any{must(union.MarshalBinary()), "04 0c", []byte("0c, 04"), "0/0 0/1",
		[]byte("\n04 0c"), []byte("\t0c\r\n04"), []byte(" ,04,0c ")} {
		var found s2union.CellUnion
		check(t, found.Scan(given) == nil && found.Equal(union), "a union is scanned")
	}
	for _, given := range []any{must(CellUnion{}.MarshalBinary()), "", []byte{}} {
		found := union
		check(t, found.Scan(given) == nil && found.Len() == 0, "the empty union is scanned, as PostgreSQL writes it too")
	}
}

func TestColumnsThatAreRefused(t *testing.T) {
	id, union := must(s2union.CellIDFromToken("04")), must(s2union.CellUnionFromTokens("04"))
	for _, given := range []any{nil, int64(2), "x", []byte{}, 1.5, true} {
		err := id.Scan(given)
		check(t, errors.Is(err, s2union.ErrNoCell) && id.ToToken() == "04", "no cell is scanned")
	}
	check(t, strings.HasSuffix(id.Scan(int64(2)).Error(), ": int64 2"), "the number is named")
	check(t, strings.HasSuffix(id.Scan("x").Error(), `: "x"`), "the text is named")
	for _, given := range []any{nil, int64(1), "04 x", []byte{1, 2}} {
		check(t, union.Scan(given) != nil && union.String() == "04", "no union is scanned")
	}
	_, err := s2union.CellID(2).Value()
	check(t, errors.Is(err, s2union.ErrNoCell), "a number that is no cell has no value")
	check(t, must(s2union.CellUnion{}.Value()) != nil, "the empty union has a file")
}
