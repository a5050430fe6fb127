package s2union

// #include <s2union.h>
import "C"

import (
	"bytes"
	"encoding/binary"
	"errors"
	"io"
	"unsafe"
)

// ID is the identifier of a cell as other packages have it: golang/geo's CellID, and a database's BIGINT, whose 64 bits
// it is taken by. No cell can be read in two ways.
type ID interface{ ~uint64 | ~int64 }

// CellUnion is a set of leaves, as the one normalized list of cells that covers it.
type CellUnion struct {
	ids []CellID // normalized, and never written again
}

// NewCellUnion is the union of cells, in any order, repeated, or inside one another. It refuses numbers that are no
// cells, with a PlaceError. Since 0.2.
func NewCellUnion[N ID](ids ...N) (CellUnion, error) {
	return normalized(append([]CellID(nil), sameBits[CellID](ids)...))
}

// CellUnionFromNormalized is the union whose cells these are, or ErrNotNormalized. It takes as many steps as there are
// cells. Since 0.2.
func CellUnionFromNormalized[N ID](ids ...N) (CellUnion, error) {
	own := append([]CellID(nil), sameBits[CellID](ids)...) // which nobody writes while it is checked
	if !isNormalized(own) {
		return CellUnion{}, ErrNotNormalized
	}
	return CellUnion{own}, nil
}

// CellUnionFromTokens is the union of the cells that a text names, as CellIDsFromTokens. Since 0.2.
func CellUnionFromTokens(words string) (CellUnion, error) { return unionNamed([]byte(words)) }

// CellUnionFromRange is the union of the leaves from begin up to end, which is not one of them: a leaf, or the number
// after the last leaf, as CellID.Next makes it in S2. ErrArgument: one is no leaf, or end comes first. ErrMemory. Since
// 0.2.
func CellUnionFromRange(begin, end CellID) (CellUnion, error) {
	const afterLastLeaf CellID = 0xc000000000000001 // S2's CellIDFromFace(5).ChildEndAtLevel(30), which is no cell
	last := lastFace.RangeMax()
	for _, id := range []CellID{begin, end} {
		if id != afterLastLeaf && !(id.IsValid() && id.IsLeaf()) {
			return CellUnion{}, ErrArgument
		}
	}
	if begin == end {
		return CellUnion{}, nil
	}
	if end != afterLastLeaf {
		last = end.Prev()
	}
	if begin == afterLastLeaf || last == 0 {
		return CellUnion{}, ErrArgument
	}
	return RangeUnion(begin, last)
}

// RangeUnion is the union of all leaves from the first of one cell to the last of another, also across faces.
// ErrNoCell; ErrArgument: the last leaf comes before the first; ErrMemory. Since 0.2.
func RangeUnion(first, last CellID) (CellUnion, error) {
	return made(roomOfRange(), func(out *C.uint64_t, room C.size_t, length *C.size_t) C.int32_t {
		return C.s2u_range(C.uint64_t(first), C.uint64_t(last), out, room, length)
	})
}

// WholeSphere is the union of all leaves. Since 0.2.
func WholeSphere() CellUnion { return always(RangeUnion(firstFace, lastFace)) }

// CellUnionFromUnion is the union of any number of unions, in one call, which merges them in pairs. If there are more
// than two, it takes memory for four times their cells. Since 0.2.
func CellUnionFromUnion(unions ...CellUnion) CellUnion {
	switch len(unions) {
	case 0:
		return CellUnion{}
	case 1:
		return unions[0]
	case 2:
		x, y := unions[0], unions[1]
		return x.with(y, roomOfUnion, func(xs *C.uint64_t, nx C.size_t, ys *C.uint64_t, ny C.size_t,
			out *C.uint64_t, room C.size_t, length *C.size_t) C.int32_t {
			return C.s2u_union(xs, nx, ys, ny, out, room, length)
		})
	default:
		return unionOfMany(unions)
	}
}

// CellUnionFromIntersectionWithCellID is the union of the leaves of a cell that a union has. Since 0.2.
func CellUnionFromIntersectionWithCellID(x CellUnion, id CellID) CellUnion {
	if x.ContainsCellID(id) {
		return CellUnion{[]CellID{id}}
	}
	return CellUnion{x.CellIDsAt(id)}
}

// Len is the number of cells. Since 0.2.
func (cu CellUnion) Len() int { return len(cu.ids) }

// CellID is the cell at a place, in ascending order. It panics with ErrArgument if there is none. Since 0.2.
func (cu CellUnion) CellID(place int) CellID {
	if place < 0 || place >= len(cu.ids) {
		panic(ErrArgument)
	}
	return cu.ids[place]
}

// CellIDs is a new list of the cells, in ascending order. Since 0.2.
func (cu CellUnion) CellIDs() []CellID { return CellIDsAs[CellID](cu) }

// CellIDsAs is a new list of the cells in another type, such as golang/geo's CellID or int64. Since 0.2.
func CellIDsAs[N ID](cu CellUnion) []N { return append([]N(nil), sameBits[N](cu.ids)...) }

// IsValid is true: see IsNormalized for lists. Since 0.2.
func (cu CellUnion) IsValid() bool { return true }

// IsNormalized is true: see the function for lists. Since 0.2.
func (cu CellUnion) IsNormalized() bool { return true }

// Equal is whether two unions have the same leaves, and so the same cells. Since 0.2.
func (cu CellUnion) Equal(other CellUnion) bool { return cu.Compare(other) == 0 }

// Compare is -1, 0 or 1: the order of the lists of cells, cell by cell and then by length, to sort unions by. Which
// union contains another has nothing to do with it. Since 1.0.
func (cu CellUnion) Compare(other CellUnion) int {
	xs, nx := pointerTo(cu.ids)
	ys, ny := pointerTo(other.ids)
	return int(C.s2u_compare(xs, nx, ys, ny))
}

// CellIDsAt is a new list of the cells of the union that share a leaf with a cell. It takes log n steps. Since 0.2.
func (cu CellUnion) CellIDsAt(id CellID) []CellID {
	at, n := pointerTo(cu.ids)
	var first, count C.size_t
	answer(C.s2u_cells_at(at, n, C.uint64_t(id), &first, &count))
	return append([]CellID(nil), cu.ids[first:first+count]...)
}

// Denormalize is a new list of the cells, each cut to the least level that is at least its own and is minLevel or above
// it by a multiple of levelMod, which is 1 to 3; to leaves if there is none. ErrArgument. ErrMany: there would be more
// than most cells; a face has 4^30 leaves. So most bounds the memory, which has to be there: Go ends a program that
// asks for more than there is. ErrMemory: no process has as much. Since 0.2.
func (cu CellUnion) Denormalize(minLevel, levelMod, most int) ([]CellID, error) {
	at, n := pointerTo(cu.ids)
	min, mod := narrowed(minLevel), narrowed(levelMod)
	var length C.uint64_t
	if status := C.s2u_denormalised_len(at, n, min, mod, &length); status != C.S2U_OK {
		return nil, Error(status)
	}
	if length > C.uint64_t(atLeastZero(most)) {
		return nil, ErrMany
	}
	if length >= tooMany {
		return nil, ErrMemory
	}
	return listed(int(length), func(out *C.uint64_t, room C.size_t, made *C.size_t) C.int32_t {
		return C.s2u_denormalised(at, n, min, mod, out, room, made)
	})
}

// String is the tokens of the cells, with blanks between them. Since 0.2.
func (cu CellUnion) String() string { return string(cu.tokens()) }

func (cu CellUnion) tokens() []byte {
	at, n := pointerTo(cu.ids)
	return text(roomOfTokens(len(cu.ids)), func(out *C.char, room C.size_t, length *C.size_t) C.int32_t {
		return C.s2u_tokens(at, n, out, room, length)
	})
}

// MarshalText makes the tokens of the cells, as String. So a union is a text in JSON. Since 1.0.
func (cu CellUnion) MarshalText() ([]byte, error) { return cu.tokens(), nil }

// UnmarshalText makes the union that of the cells that a text names, as CellUnionFromTokens. If it is refused, the
// union stays as it was. Since 1.0.
func (cu *CellUnion) UnmarshalText(words []byte) error { return cu.become(unionNamed(words)) }

// MarshalBinary makes the union file: the bytes that S2's own Encode writes in C++, Go and Java. Equal unions have
// equal files. Since 0.2.
func (cu CellUnion) MarshalBinary() ([]byte, error) {
	at, n := pointerTo(cu.ids)
	file := make([]byte, roomOfEncode(len(cu.ids)))
	var length C.size_t
	out, room := pointerToBytes(file)
	if status := C.s2u_encode(at, n, out, room, &length); status != C.S2U_OK {
		return nil, Error(status)
	}
	return file, nil
}

// UnmarshalBinary makes the union that in a union file, whose cells may be in any order. If it is refused, the union
// stays as it was. Since 0.2.
func (cu *CellUnion) UnmarshalBinary(file []byte) error { return cu.become(unmarshalled(file)) }

// Encode writes the union file. Since 0.2.
func (cu CellUnion) Encode(w io.Writer) error {
	file, err := cu.MarshalBinary()
	if err == nil {
		_, err = w.Write(file)
	}
	return err
}

// Decode makes the union that in the union file which is read next; what follows it is not read. Refusals are those of
// UnmarshalBinary, and errors of the reader: io.EOF if there is no file. An end of the reader within the file is
// ErrFileShort. Since 0.2.
func (cu *CellUnion) Decode(r io.Reader) error {
	var file bytes.Buffer
	err := readMore(&file, r, int64(sizeOfFile(0)))
	if (err == nil || err == ErrFileShort) && file.Bytes()[0] != 1 {
		return ErrFileVersion
	}
	if err != nil {
		return err
	}
	cells := binary.LittleEndian.Uint64(file.Bytes()[1:])
	if cells >= 1<<59 {
		return ErrFileShort
	}
	if err := readMore(&file, r, int64(8*cells)); err != nil {
		return err
	}
	return cu.UnmarshalBinary(file.Bytes())
}

// ---- lists of cells

// IsNormalized is whether these are the cells of a union. It takes as many steps as there are cells. Since 0.2.
func IsNormalized[N ID](ids []N) bool { return isNormalized(sameBits[CellID](ids)) }

// Normalize normalizes a list of cells in place, and answers what it has become. A PlaceError has the place of the
// first number that is no cell, and then the list is as it was. Since 0.2.
func Normalize[N ID](ids []N) ([]N, error) {
	length, err := normalize(sameBits[CellID](ids))
	if err != nil {
		return ids, err
	}
	return ids[:length], nil
}

// ---- inside

const firstFace, lastFace CellID = 0x1000000000000000, 0xb000000000000000

// tooMany is how many cells no list can have: they take 2^47 bytes, which are all addresses that a process has.
const tooMany = 1 << 44

func isNormalized(ids []CellID) bool {
	at, n := pointerTo(ids)
	return answer(C.s2u_is_union(at, n))
}

// normalized is the union of a list, which becomes the union's own.
func normalized(ids []CellID) (CellUnion, error) {
	length, err := normalize(ids)
	if err != nil {
		return CellUnion{}, err
	}
	return CellUnion{trimmed(ids[:length])}, nil
}

// normalize normalizes a list in place, and answers how long it has become.
func normalize(ids []CellID) (int, error) {
	at, n := pointerTo(ids)
	var length C.size_t
	if status := C.s2u_normalise(at, n, &length); status == C.S2U_NO_CELL {
		return 0, noCellAt(length)
	} else if status != C.S2U_OK {
		return 0, Error(status)
	}
	return int(length), nil
}

// sameBits is a list of cells in another type, in the same memory.
func sameBits[To, From ID](ids []From) []To { return *(*[]To)(unsafe.Pointer(&ids)) }

func unionNamed(words []byte) (CellUnion, error) {
	ids, err := named(words)
	if err != nil {
		return CellUnion{}, err
	}
	return normalized(ids)
}

func unmarshalled(file []byte) (CellUnion, error) {
	at, n := pointerToBytes(file)
	return made(roomOfDecode(len(file)), func(out *C.uint64_t, room C.size_t, length *C.size_t) C.int32_t {
		return C.s2u_decode(at, n, out, room, length)
	})
}

// become makes the union that which a call has made, unless it was refused.
func (cu *CellUnion) become(union CellUnion, err error) error {
	if err == nil {
		*cu = union
	}
	return err
}

func made(room int, call func(out *C.uint64_t, room C.size_t, length *C.size_t) C.int32_t) (CellUnion, error) {
	ids, err := listed(room, call)
	return CellUnion{ids}, err
}

// with is the union that a call makes of two.
func (cu CellUnion) with(other CellUnion, room func(nx, ny int) int, call func(xs *C.uint64_t, nx C.size_t,
	ys *C.uint64_t, ny C.size_t, out *C.uint64_t, room C.size_t, length *C.size_t) C.int32_t) CellUnion {
	xs, nx := pointerTo(cu.ids)
	ys, ny := pointerTo(other.ids)
	return always(made(room(len(cu.ids), len(other.ids)), func(
		out *C.uint64_t, room C.size_t, length *C.size_t) C.int32_t {
		return call(xs, nx, ys, ny, out, room, length)
	}))
}

// unionOfMany is the union of unions, of which there is at least one: their lists go to the library one after another.
func unionOfMany(unions []CellUnion) CellUnion {
	count := 0
	for _, union := range unions {
		count += len(union.ids)
	}
	ids, ends := make([]CellID, 0, count), make([]C.size_t, len(unions))
	for k, union := range unions {
		ids = append(ids, union.ids...)
		ends[k] = C.size_t(len(ids))
	}
	at, n := pointerTo(ids)
	work, workRoom := pointerTo(make([]CellID, 2*count))
	return always(made(count, func(out *C.uint64_t, room C.size_t, length *C.size_t) C.int32_t {
		return C.s2u_union_of_many(at, n, &ends[0], C.size_t(len(ends)), work, workRoom, out, room, length)
	}))
}

func asked(ids []CellID, call func(cells *C.uint64_t, m C.size_t, answers *C.uint8_t, bad *C.size_t) C.int32_t) (
	[]bool, error) {
	found := make([]byte, len(ids))
	cells, m := pointerTo(ids)
	answers, _ := pointerToBytes(found)
	var bad C.size_t
	if status := call(cells, m, answers, &bad); status == C.S2U_NO_CELL {
		return nil, noCellAt(bad)
	} else if status != C.S2U_OK {
		return nil, Error(status)
	}
	holds := make([]bool, len(found))
	for k, one := range found {
		holds[k] = one == 1
	}
	return holds, nil
}

// sizeOfFile is how many bytes the file of n cells has.
func sizeOfFile(n int) int { return 9 + 8*n }

// readMore reads this number of bytes. It takes memory for what has come, not for what was promised.
func readMore(file *bytes.Buffer, r io.Reader, count int64) error {
	_, err := io.CopyN(file, r, count)
	if errors.Is(err, io.EOF) && file.Len() > 0 {
		return ErrFileShort
	}
	return err
}

func smaller(a, b int) int {
	if a < b {
		return a
	}
	return b
}
