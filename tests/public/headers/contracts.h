/* The calls of the library that the headers make, known to Frama-C by what their proved contracts say of ranges
 * (crates/s2union_c/src/cells.rt), and by nothing else; and what math.h says of functions that Frama-C has no text
 * of. */
#ifndef CONTRACTS_H
#define CONTRACTS_H

#include "s2union.h"

/*@ assigns \result \from x;
    ensures -2147483647.0 <= x <= 2147483647.0 ==> \is_finite(\result) && -2147483647.0 <= \result <= 2147483647.0; */
double nearbyint(double x);

/*@ assigns \result \from x, exponent;
    ensures x == 1 && 0 <= exponent <= 30 ==> \is_finite(\result) && 1 <= \result <= 1073741824.0; */
double ldexp(double x, int exponent);

/*@ assigns \result \from x, y, z; */
double fma(double x, double y, double z);

/*@ assigns \result \from id; ensures -3 <= \result <= 30; */
int32_t s2u_level(uint64_t id);

/*@ assigns \result \from id, level; */
uint64_t s2u_parent(uint64_t id, uint32_t level);

/*@ assigns \result \from face, i, j; */
uint64_t s2u_from_face_ij(uint32_t face, uint32_t i, uint32_t j);

/*@ requires \valid(square);
    assigns \result, *square \from id;
    ensures \result == 0 || \result == -3;
    ensures \result == 0 ==> \initialized(&square->face) && \initialized(&square->i) && \initialized(&square->j) &&
                             \initialized(&square->size);
    ensures \result == 0 ==> 0 <= square->face <= 5 && 1 <= square->size <= 1073741824 &&
                             0 <= square->i <= 1073741823 && 0 <= square->j <= 1073741823; */
int32_t s2u_square_of(uint64_t id, s2u_square* square);

/*@ requires \valid(direction);
    assigns \result, *direction \from longitude, latitude;
    ensures \result == 0 || \result == -5;
    ensures \result == 0 ==> -2147483647 <= direction->x <= 2147483647 && -2147483647 <= direction->y <= 2147483647 &&
                             -2147483647 <= direction->z <= 2147483647;
    ensures \result != 0 ==> \old(*direction) == *direction; */
int32_t s2u_direction_of(double longitude, double latitude, s2u_direction* direction);

/* Any numbers. */
volatile uint64_t any_cell;
volatile uint32_t any_level;
volatile double any_number;

#endif
