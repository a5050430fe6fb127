package s2union

// #include <s2union.h>
import "C"

// Rect is the leaves of a face with I0 <= i <= I1 and J0 <= j <= J1, all below 2^30.
type Rect struct {
	Face, I0, I1, J0, J1 int
}

// MostCovering is the most cells that a covering may have.
const MostCovering = C.S2U_MOST_COVERING

func (rect Rect) corners() C.s2u_rect {
	return C.s2u_rect{narrowed(rect.Face), narrowed(rect.I0), narrowed(rect.I1), narrowed(rect.J0), narrowed(rect.J1)}
}
