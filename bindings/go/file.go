package s2union

// #include <s2union.h>
import "C"

// UnionFile answers questions from the bytes of a union file in place, as in a mapped file or a row of a table: nothing
// is copied. NewUnionFile makes it. While it is in use, no one may write the bytes, or cut a file that they are mapped
// from.
type UnionFile struct {
	file []byte // the file that MarshalBinary makes of some union
}

// NewUnionFile checks the bytes once: they must be the file that MarshalBinary makes of some union. ErrFileShort,
// ErrFileVersion, ErrFileTrailing, ErrFileCell; ErrNotNormalized: UnmarshalBinary takes it. It takes as many steps as
// there are cells. Since 0.2.
func NewUnionFile(file []byte) (UnionFile, error) {
	at, n := pointerToBytes(file)
	switch status := C.s2u_file_check(at, n); status {
	case 1:
		return UnionFile{file}, nil
	case 0:
		return UnionFile{}, ErrNotNormalized
	default:
		return UnionFile{}, Error(status)
	}
}

// Len is the number of cells. Since 0.2.
func (f UnionFile) Len() int {
	at, n := pointerToBytes(f.file)
	var count C.uint64_t
	answer(C.s2u_file_count(at, n, &count))
	return int(count)
}

// CellID is the cell at a place, in ascending order. It panics with ErrArgument if there is none. Since 0.2.
func (f UnionFile) CellID(place int) CellID {
	at, n := pointerToBytes(f.file)
	var id C.uint64_t
	answer(C.s2u_file_cell(at, n, C.uint64_t(place), &id))
	return CellID(id)
}

// CellUnion is the union, copied. Since 0.2.
func (f UnionFile) CellUnion() CellUnion {
	return always(unmarshalled(f.file))
}
