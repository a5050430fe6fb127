package s2union

// #include <s2union.h>
import "C"

import (
	"encoding/json"
	"fmt"
	"math/bits"
	"strconv"
)

// CellID is the identifier of a cell. Any number may be one; IsValid says whether it is. All other methods panic with
// ErrNoCell if it isn't, except String.
type CellID uint64

// CellIDFromToken is the cell of a token, in either case. Since 0.2.
func CellIDFromToken(token string) (CellID, error) {
	var id C.uint64_t
	at, n := pointerToText([]byte(token))
	status := C.s2u_from_token(at, n, &id) // on a line of its own: Go leaves open when `id` is read beside a call
	return CellID(id), refused(status)
}

// CellIDFromString is the cell of a debug text, such as "4/032212". Since 0.2.
func CellIDFromString(text string) (CellID, error) {
	var id C.uint64_t
	at, n := pointerToText([]byte(text))
	status := C.s2u_from_debug(at, n, &id)
	return CellID(id), refused(status)
}

// CellIDFromFace is the cell of a whole face, 0 to 5. Since 0.2.
func CellIDFromFace(face int) (CellID, error) {
	leaf, err := CellIDFromFaceIJ(face, 0, 0)
	if err != nil {
		return 0, err
	}
	return leaf.Parent(0), nil
}

// CellIDFromFaceIJ is the leaf at a place of a face: i and j are below 2^30. Since 0.2.
func CellIDFromFaceIJ(face, i, j int) (CellID, error) {
	id := C.s2u_from_face_ij(narrowed(face), narrowed(i), narrowed(j))
	if id == 0 {
		return 0, ErrArgument
	}
	return CellID(id), nil
}

// IsValid is whether the number is the identifier of a cell. Since 0.2.
func (id CellID) IsValid() bool { return id>>61 < 6 && id.lowest()&0x1555555555555555 != 0 }

// lowest is the lowest bit of the number, which says the level of a cell: it is 4^(30 - level).
func (id CellID) lowest() CellID { return id & -id }

// sure is the number of a cell. It panics with ErrNoCell if it is none.
func (id CellID) sure() CellID {
	if !id.IsValid() {
		panic(ErrNoCell)
	}
	return id
}

// Level is 0 for a face, to 30 for a leaf. Since 0.2.
func (id CellID) Level() int { return 30 - bits.TrailingZeros64(uint64(id.sure()))/2 }

// Face is 0 to 5. Since 0.2.
func (id CellID) Face() int { return int(id.sure() >> 61) }

// IsLeaf is whether the cell is at level 30. Since 0.2.
func (id CellID) IsLeaf() bool { return id.Level() == 30 }

// IsFace is whether the cell is a whole face. Since 0.2.
func (id CellID) IsFace() bool { return id.Level() == 0 }

// Parent is the cell of a level that contains the cell; at its own level, itself. It panics with ErrArgument if the
// level is deeper. Since 0.2.
func (id CellID) Parent(level int) CellID {
	if level > id.Level() || level < 0 {
		panic(ErrArgument)
	}
	lowest := CellID(1) << (60 - 2*level)
	return id&-lowest | lowest
}

// Children are the four children along the curve. It panics with ErrArgument if the cell is a leaf. Since 0.2.
func (id CellID) Children() [4]CellID {
	if id.IsLeaf() {
		panic(ErrArgument)
	}
	quarter := id.lowest() / 4
	return [4]CellID{id - 3*quarter, id - quarter, id + quarter, id + 3*quarter}
}

// RangeMin is the first leaf of the cell: another cell is in it exactly if its number is not below RangeMin and not
// above RangeMax. Since 0.2.
func (id CellID) RangeMin() CellID { return id.sure() - (id.lowest() - 1) }

// RangeMax is the last leaf of the cell. Since 0.2.
func (id CellID) RangeMax() CellID { return id.sure() + (id.lowest() - 1) }

// LeafCellsCovered is how many leaves the cell has. Since 0.2.
func (id CellID) LeafCellsCovered() int64 { return int64(id.sure().lowest()) }

// Next is the next cell of the same level, across faces; 0, which is no cell, after the last one. Since 0.2.
func (id CellID) Next() CellID {
	if next := id.sure() + 2*id.lowest(); next.IsValid() {
		return next
	}
	return 0
}

// Prev is the cell of the same level before it, across faces; 0, which is no cell, before the first one. Since 0.2.
func (id CellID) Prev() CellID {
	if lowest := id.sure().lowest(); id != lowest {
		return id - 2*lowest
	}
	return 0
}

// Contains is whether all leaves of another cell are in the cell. Since 0.2.
func (id CellID) Contains(other CellID) bool {
	return id.RangeMin() <= other.sure() && other <= id.RangeMax()
}

// Intersects is whether two cells share a leaf. Since 0.2.
func (id CellID) Intersects(other CellID) bool {
	return id.RangeMin() <= other.RangeMax() && other.RangeMin() <= id.RangeMax()
}

// CommonAncestor is the smallest cell that contains both; false if they are on two faces. Since 0.2.
func (id CellID) CommonAncestor(other CellID) (CellID, bool) {
	if id.Face() != other.Face() {
		return 0, false
	}
	differ := id ^ other | id.lowest() | other.lowest()
	return id.Parent((61 - bits.Len64(uint64(differ))) / 2), true
}

// CommonAncestorLevel is the level of CommonAncestor. Since 0.2.
func (id CellID) CommonAncestorLevel(other CellID) (level int, ok bool) {
	if ancestor, ok := id.CommonAncestor(other); ok {
		return ancestor.Level(), true
	}
	return 0, false
}

// Square is the face, the least coordinates and the side of the cell, in leaves. Since 0.2.
func (id CellID) Square() (face, i, j, side int) {
	var square C.s2u_square
	answer(C.s2u_square_of(C.uint64_t(id), &square))
	return int(square.face), int(square.i), int(square.j), int(square.size)
}

// ToToken is the identifier in hexadecimal without the zeros at its end. Since 0.2.
func (id CellID) ToToken() string {
	return string(text(C.S2U_MOST_TOKEN, func(out *C.char, room C.size_t, length *C.size_t) C.int32_t {
		return C.s2u_token(C.uint64_t(id), out, room, length)
	}))
}

// String is the debug text, such as "4/032212", or a text that says that the number is no cell. Since 0.2.
func (id CellID) String() string {
	if !id.IsValid() {
		return "Invalid: " + strconv.FormatUint(uint64(id), 16)
	}
	return string(text(C.S2U_MOST_DEBUG, func(out *C.char, room C.size_t, length *C.size_t) C.int32_t {
		return C.s2u_debug(C.uint64_t(id), out, room, length)
	}))
}

// MarshalText makes the token, so a cell is a text in JSON. ErrNoCell of a number that is not a cell. JavaScript and jq
// round numbers above 2^53, so a number in JSON would become another cell there. Since 1.0.
func (id CellID) MarshalText() ([]byte, error) {
	if err := id.checked(); err != nil {
		return nil, err
	}
	return []byte(id.ToToken()), nil
}

// UnmarshalText takes a token or a debug text. If there is an error, ErrNoCell, the cell stays as it was. Since 1.0.
func (id *CellID) UnmarshalText(text []byte) error { return id.scanText(string(text)) }

// UnmarshalJSON takes a text as UnmarshalText does, and a number, as versions before 1.1 wrote it and as databases have
// it. If another program has rounded the number, it may be another cell now; ErrNoCell if it is none. Since 1.1.
func (id *CellID) UnmarshalJSON(value []byte) error {
	var text string
	if string(value) == "null" {
		return nil
	} else if json.Unmarshal(value, &text) == nil {
		return id.scanText(text)
	}
	number, err := strconv.ParseUint(string(value), 10, 64)
	if signed, isSigned := strconv.ParseInt(string(value), 10, 64); isSigned == nil {
		number, err = uint64(signed), nil
	}
	if err != nil || !CellID(number).IsValid() {
		return fmt.Errorf("%w: %s", ErrNoCell, value)
	}
	*id = CellID(number)
	return nil
}

// checked is an error that names the number if it is not a cell.
func (id CellID) checked() error {
	if id.IsValid() {
		return nil
	}
	return fmt.Errorf("%w: %#x", ErrNoCell, uint64(id))
}
