// Zones of which each allocation of C is refused in turn, by tests/refuse.c, which is loaded before the C library. The
// last line is 'N passed, M failed'.
package main

// #define _GNU_SOURCE
// #include <dlfcn.h>
// static long refuse(long turn) { return ((long (*)(long))dlsym(RTLD_DEFAULT, "refuse_memory"))(turn); }
// static long taken(void) { return ((long (*)(void))dlsym(RTLD_DEFAULT, "blocks_taken"))(); }
import "C"

import (
	"context"
	"errors"
	"fmt"
	"os"
	"runtime"

	s2union "not-published.invalid/s2union/bindings/go"
)

var passed, failed int

func check(holds bool, what ...any) {
	if holds {
		passed++
		return
	}
	failed++
	fmt.Println(append([]any{"FAILED"}, what...)...)
}

// asked adds two zones and asks for their pairs, with one allocation refused: whether it was, and how many blocks there
// are when both are added and the pairs were found after all.
func asked(ctx context.Context, turn C.long) (bool, C.long) {
	zones := new(s2union.Zones)
	box := s2union.Box{West: 2, South: 48, East: 3, North: 49}
	x, y := []float64{2.5, 9}, []float64{48.5, 9}
	before, added := C.taken(), 0
	C.refuse(turn)
	for range x {
		number, err := zones.Add(box)
		check(err == nil && number == added || errors.Is(err, s2union.ErrMemory), "zone", number, err)
		if err == nil {
			added++
		}
	}
	pairs, err := zones.PairsContext(ctx, x, y, true)
	isRefused := C.refuse(0) >= turn
	check(err == nil && len(pairs) == added || errors.Is(err, s2union.ErrMemory), "pairs", pairs, err)
	pairs, err = zones.Pairs(x, y, true)
	check(err == nil && len(pairs) == added, "those that were added stay", pairs, err)
	for ; added < 2; added++ {
		number, err := zones.Add(box)
		check(err == nil && number == added, "all goes on", number, err)
	}
	pairs, err = zones.Pairs(x, y, true)
	check(err == nil && len(pairs) == 2, "both zones", pairs, err)
	blocks := C.taken() - before
	runtime.KeepAlive(zones)
	return isRefused, blocks
}

func main() {
	runtime.LockOSThread() // the blocks of this thread are counted
	live, cancel := context.WithCancel(context.Background())
	defer cancel()
	for _, ctx := range []context.Context{context.Background(), live} {
		_, wanted := asked(ctx, 0)
		turn := C.long(1)
		for ; ; turn++ {
			isRefused, blocks := asked(ctx, turn)
			check(blocks == wanted, "a block is lost", turn, blocks, wanted)
			if !isRefused {
				break
			}
		}
		check(turn > 10, "zones take memory", turn)
	}
	fmt.Println(passed, "passed,", failed, "failed")
	if failed > 0 {
		os.Exit(1)
	}
}
