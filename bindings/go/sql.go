package s2union

import (
	"database/sql/driver"
	"fmt"
)

// Value is the cell as a database has it: a signed number of the same 64 bits. ErrNoCell. Since 1.1.
func (id CellID) Value() (driver.Value, error) {
	if err := id.checked(); err != nil {
		return nil, err
	}
	return int64(id), nil
}

// Scan takes a cell from a column of a database: a number, or a text that is a token or a debug text. NULL and all else
// is refused with an error that names it. Since 1.1.
func (id *CellID) Scan(value any) error {
	switch given := value.(type) {
	case int64:
		if found := CellID(given); found.IsValid() {
			*id = found
			return nil
		}
	case string:
		return id.scanText(given)
	case []byte:
		return id.scanText(string(given))
	}
	return fmt.Errorf("%w: %T %v", ErrNoCell, value, value)
}

func (id *CellID) scanText(text string) error {
	found, err := CellIDFromToken(text)
	if err != nil {
		found, err = CellIDFromString(text)
	}
	if err != nil {
		return fmt.Errorf("%w: %q", ErrNoCell, text)
	}
	*id = found
	return nil
}

// Value is the union file, as SQLite has a union, and as PostgreSQL takes it for one. Since 1.1.
func (cu CellUnion) Value() (driver.Value, error) { return cu.MarshalBinary() }

// Scan takes a union from a column of a database: its file, or a text of tokens, as PostgreSQL gives it. The first byte
// tells which: no text begins with the byte 1. NULL and all else is refused with an error that names it. Since 1.1.
func (cu *CellUnion) Scan(value any) error {
	switch given := value.(type) {
	case string:
		return cu.UnmarshalText([]byte(given))
	case []byte:
		if len(given) > 0 && given[0] == 1 {
			return cu.UnmarshalBinary(given)
		}
		return cu.UnmarshalText(given)
	}
	return fmt.Errorf("s2union: a union is a file or a text, not %T %v", value, value)
}
