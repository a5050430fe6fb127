package s2union

import (
	"context"
	"errors"
	"runtime"
	"testing"
	"time"
)

var large = Shape{Polygons: [][][]Position{{{{0, 0}, {30, 5}, {40, 40}, {10, 30}, {-5, 20}, {0, 0}}}}}

// A call ends when its context is done: it would answer seconds later, without an error.
func TestContexts(t *testing.T) {
	if runtime.GOOS != "linux" {
		t.Skip("elsewhere the work goes on")
	}
	finest := RegionCoverer{MaxCells: 1000000}
	zone, err := finest.Covering(large)
	if err != nil {
		t.Fatal(err)
	}
	want, _ := RegionCoverer{MaxCells: 20000}.Covering(large)
	var zones Zones
	for k := 0; k < 100; k++ {
		if _, err := zones.Add(large); err != nil {
			t.Fatal(err)
		}
	}
	places := make([]float64, 200000)
	for k := range places {
		places[k] = 15
	}
	calls := map[string]func(context.Context) error{
		"CoveringContext": func(ctx context.Context) error { _, err := finest.CoveringContext(ctx, large); return err },
		"InteriorCoveringContext": func(ctx context.Context) error {
			_, err := finest.InteriorCoveringContext(ctx, large)
			return err
		},
		"CoveringsContext": func(ctx context.Context) error {
			_, _, err := finest.CoveringsContext(ctx, large)
			return err
		},
		"OutlineContext": func(ctx context.Context) error { _, err := zone.OutlineContext(ctx); return err },
		"PairsContext": func(ctx context.Context) error {
			_, err := zones.PairsContext(ctx, places, places, true)
			return err
		},
	}
	for name, call := range calls {
		done, cancel := context.WithCancel(context.Background())
		go func() {
			time.Sleep(50 * time.Millisecond)
			cancel()
		}()
		other := make(chan CellUnion)
		go func() { // a thread of its own, whose memory isn't refused
			union, _ := RegionCoverer{MaxCells: 20000}.CoveringContext(context.Background(), large)
			other <- union
		}()
		err := call(done)
		if !errors.Is(err, context.Canceled) {
			t.Errorf("%s: %v", name, err)
		}
		if union := <-other; !union.Equal(want) {
			t.Errorf("%s: another thread's covering is cancelled", name)
		}
		if err := call(done); !errors.Is(err, context.Canceled) {
			t.Errorf("%s, of a context that is done: %v", name, err)
		}
	}
	live, cancel := context.WithTimeout(context.Background(), time.Hour)
	defer cancel()
	if union, err := (RegionCoverer{MaxCells: 20000}).CoveringContext(live, large); err != nil || !union.Equal(want) {
		t.Error("within a context", err)
	}
	if pairs, err := zones.PairsContext(live, places[:9], places[:9], true); err != nil || len(pairs) != 900 {
		t.Error("pairs", err)
	}
	if union, err := want.ExpandedAtLevelContext(live, 12); err != nil || len(union.CellIDs()) == 0 {
		t.Error("expanded", err)
	}
}
