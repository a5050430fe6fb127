/** @file s2union.h
 * Unions of S2 cells for C, C++ and any language that calls C.
 *
 * A union is a set of leaf cells of the sphere, kept as the one normalized list of cells that covers it: ascending, no
 * two cells share a leaf, no four are the children of one cell. Two unions are the same set exactly if they are the
 * same list, so memcmp tests equality and any hash of the bytes is a hash of the region.
 *
 * WHAT A CALL PROMISES. Every call is proved, in Rattle, to meet its contract for every input that the types allow: any
 * number, any list, any bytes. No call aborts, raises, jumps, prints, sets a locale, uses floating point, or reads or
 * writes a byte outside the lists that it is given. The caller must ensure only four things:
 *   1. a pointer and its length describe memory that the call may use; a pointer may be NULL if its length is 0, and a
 *      pointer to one value (len, id, bounds, ..) never;
 *   2. lists that a call writes (out, len, text, ..) overlap no other argument;
 *   3. lists of uint64_t are aligned to 8 bytes, points and single values as C aligns them. Bytes and texts need no
 *      alignment;
 *   4. during the call no one else writes what it reads, or reads or writes what it writes: no other thread, no process
 *      that shares the memory, no signal handler.
 * (Tested, not proved: what this header says of steps and costs; that a call prints, sets and keeps nothing, and uses
 * no floating point; and, of a list that is no union, that the second call is not refused for room.)
 *
 * RESULTS. int32_t results, but that of s2u_compare, are statuses: 0 or more is an answer, below 0 a refusal. Treat an
 * unknown number below 0 as a refusal; later versions may add statuses. Calls that answer a cell answer 0 if there is
 * none (0 is no cell).
 *
 * LISTS ARE NOT CHECKED (since 0.2). A call that takes a union does not check that the list is one, which would cost
 * more than the call itself. s2u_is_union checks it, once, when it comes in; what calls make of unions are unions. If a
 * list is not a union, the result means nothing: the status is S2U_OK or S2U_ROOM, or S2U_MANY of a covering, or any
 * answer, or what another argument is refused for, or S2U_MEMORY of a call that takes memory. Even so *len is at most
 * S2U_MOST_.., room for that many elements is enough, what lies behind the result is as it was, and the call is as safe
 * as any other.
 *
 * HOW LONG A RESULT IS. A call that makes a list takes `out`, `room` (how many elements it has) and `len`.
 *   S2U_OK     out[0 .. *len) is the result. What comes after it is not touched, but by s2u_decode.
 *   S2U_ROOM   room is too small, and *len is exactly how many elements the result has. Call again with that much room;
 *              the second call cannot be refused for room. What out holds then means nothing: results are written
 *              straight to it.
 *   otherwise  *len is 0 and out is not touched, but by S2U_MANY of s2u_outer_of and s2u_inner_of for a list that is no
 *              union. (With S2U_NO_CELL, s2u_from_tokens and s2u_union_of_many report in *len where the first wrong
 *              word or number is, and with S2U_CORNER or S2U_RING a call for a polygon which corner or ring it is.)
 * Only s2u_normalise works in the list that it is given, and it never needs more room. So `room` 0 (and out NULL) asks
 * for the length, which costs as much as the call itself. Only for s2u_denormalised is it ever necessary to ask: each
 * other call has a bound, given as a macro S2U_MOST_.. if it is worth one, which is computed in 64 bits even from an
 * int. Nothing that a call makes belongs to the library: there is nothing to free, and no handle.
 *
 * THREADS. The library has no state. Every call is reentrant; any number of calls may run at once in any threads, also
 * on the same lists as long as no call writes them. Calls marked [pure] take no memory, cannot run out of it, and may
 * be called from a signal handler and after fork. The others take memory during the call (see the end of this file);
 * out of memory is S2U_MEMORY, and nothing has changed.
 *
 * VERSIONS. s2u_version() is the version of the library, S2U_VERSION that of this file. Within one major version calls
 * are only added, no call changes its meaning, and structures keep their size. The shared library is
 * libs2union.so.MAJOR, its symbols carry the version node S2UNION_MAJOR, and it exports only s2u_*. The form of files
 * has a version of its own.
 *
 * PROCESSORS. x86-64 with SSE4.2 and popcnt (x86-64-v2), and 64-bit ARM (any ARMv8-A): proved for each, from the same
 * sources.
 */
#ifndef S2UNION_H
#define S2UNION_H

#include <stddef.h>
#include <stdint.h>

/** The major version of this file. */
#define S2U_VERSION_MAJOR 1
/** The minor version of this file. */
#define S2U_VERSION_MINOR 4
/** The third number of the version of this file. */
#define S2U_VERSION_PATCH 1
/** The version of this file as a text. */
#define S2U_VERSION_TEXT "1.4.1"
/** The version of this file as a number, 10203 of 1.2.3. */
#define S2U_VERSION (S2U_VERSION_MAJOR * 10000 + S2U_VERSION_MINOR * 100 + S2U_VERSION_PATCH)

#ifdef __cplusplus
extern "C" {
#endif

/** The statuses. */
enum {
  S2U_OK = 0,              /**< the call has answered */
  S2U_ROOM = -1,           /**< the result is longer than room; *len says how long */
  S2U_MEMORY = -2,         /**< out of memory */
  S2U_NO_CELL = -3,        /**< a number is not the identifier of a cell, or a text names none */
  S2U_NO_UNION = -4,       /**< a list is not normalized; since 1.0 for callers that check: no call answers it */
  S2U_ARGUMENT = -5,       /**< a level, coordinate, modulus or order out of range */
  S2U_MANY = -6,           /**< the result would have more cells than `most` */
  S2U_FILE_SHORT = -10,    /**< bytes of the file are missing */
  S2U_FILE_VERSION = -11,  /**< the first byte is not 1 */
  S2U_FILE_TRAILING = -12, /**< bytes follow the last identifier */
  S2U_FILE_CELL = -13,     /**< an identifier in the file is that of no cell */
  S2U_CORNER = -14,        /**< a corner is no direction, or lies opposite the next corner of its ring */
  S2U_RING = -15,          /**< a ring ends in a wrong place or has fewer than three corners, or there is none */
  S2U_SHAPE = -16          /**< a text or bytes are no shape of polygons; the fault says why and where */
};

/** The faults of a shape: what the field `name` of s2u_shape_fault says. @since 1.5 */
enum {
  S2U_FAULT_TRUNCATED = 1,   /**< the bytes end too early */
  S2U_FAULT_TRAILING = 2,    /**< bytes follow the geometry */
  S2U_FAULT_ORDER = 3,       /**< the byte that says the order of bytes is neither 0 nor 1 */
  S2U_FAULT_TYPE = 4,        /**< there is no geometry of this type */
  S2U_FAULT_UNCOVERED = 5,   /**< a curve, a surface or a triangle, which have no covering */
  S2U_FAULT_SRID = 6,        /**< the coordinates are no degrees: the SRID is neither 0 nor 4326 */
  S2U_FAULT_MEMBER = 7,      /**< a geometry in a list of points, lines or polygons is none of them */
  S2U_FAULT_DEEP = 8,        /**< a collection lies in more than 32 collections */
  S2U_FAULT_COUNT = 9,       /**< a count is greater than the bytes that follow it allow */
  S2U_FAULT_FEW = 10,        /**< a ring has one to three positions */
  S2U_FAULT_OPEN = 11,       /**< the last position of a ring is not its first */
  S2U_FAULT_NOT_FINITE = 12, /**< a coordinate is infinite or not a number */
  S2U_FAULT_UTF8 = 13,       /**< the text is no UTF-8 */
  S2U_FAULT_JSON = 14,       /**< the text is no JSON */
  S2U_FAULT_TWICE = 15,      /**< an object of the text has a member twice */
  S2U_FAULT_NO_TYPE = 16,    /**< a value that has to be an object with a type is none */
  S2U_FAULT_MISSING = 17,    /**< a list of coordinates, geometries or features is missing */
  S2U_FAULT_POSITION = 18,   /**< a position is not a list that begins with two numbers */
  S2U_FAULT_RANGE = 19,      /**< a longitude is beyond 540 degrees, or a latitude beyond 90 */
  S2U_FAULT_NO_INSIDE = 20,  /**< a part is a point or a line, which has no inside */
  S2U_FAULT_NO_MAP = 21,     /**< a position or a ring is none on the map; no shape read is so */
  S2U_FAULT_LONG_EDGE = 22,  /**< a geodesic edge of a polygon is 128 degrees or longer */
  S2U_FAULT_SPREAD = 23      /**< the corners of a polygon are too far apart for geodesic edges */
};

/** The least coordinates and the side, in leaves, of a cell's square on its face. @since 0.1 */
typedef struct s2u_square {
  uint32_t face; /**< 0 to 5 */
  uint32_t i;    /**< the least first coordinate */
  uint32_t j;    /**< the least second coordinate */
  uint32_t size; /**< the side, 1 to 2^30 */
} s2u_square;

/** The leaves of a face (0 to 5) with i0 <= i <= i1 and j0 <= j <= j1, all below 2^30. @since 0.1 */
typedef struct s2u_rect {
  uint32_t face; /**< 0 to 5 */
  uint32_t i0;   /**< the least first coordinate */
  uint32_t i1;   /**< the greatest first coordinate, which is in it */
  uint32_t j0;   /**< the least second coordinate */
  uint32_t j1;   /**< the greatest second coordinate, which is in it */
} s2u_rect;

/** A leaf's face (0 to 5) and its coordinates there, below 2^30. @since 0.2 */
typedef struct s2u_point {
  uint32_t face; /**< 0 to 5 */
  uint32_t i;    /**< the first coordinate */
  uint32_t j;    /**< the second coordinate */
} s2u_point;

/** A direction from the center of the sphere, to a point of the sphere: each number is less than 2^31 in size, and not
 * all are 0. A unit vector's is its coordinates times 2^31 - 1, rounded. @since 1.4 */
typedef struct s2u_direction {
  int64_t x; /**< along the axis through latitude 0 and longitude 0 */
  int64_t y; /**< along the axis through latitude 0 and longitude 90 */
  int64_t z; /**< along the axis through latitude 90 */
} s2u_direction;

/** The first fault of a shape in a text or in bytes, and where it is. @since 1.5 */
typedef struct s2u_shape_fault {
  size_t name;     /**< which fault, such as S2U_FAULT_OPEN */
  size_t byte;     /**< how many bytes of WKB come before it; 0 of a text, and from S2U_FAULT_NO_INSIDE on */
  size_t part;     /**< how many points, lines and polygons come before it */
  size_t ring;     /**< how many rings and lines have ended before it, of all parts */
  size_t position; /**< how many positions of its ring or line come before it */
} s2u_shape_fault;

/** A position in degrees, as a shape that was read has it. @since 1.5 */
typedef struct s2u_place {
  double longitude; /**< -540 to 540 */
  double latitude;  /**< -90 to 90 */
} s2u_place;

/** A ring of a polygon, a line, or a point. @since 1.5 */
typedef struct s2u_ring {
  uint64_t end;     /**< how many positions there are up to its end, of all rings */
  uint64_t polygon; /**< how many points, lines and polygons come before its polygon; of a line and a point 2^64 - 1 */
} s2u_ring;

/* ---- the library ------------------------------------------------------------------------------------------------- */

/** @name The library
 * @{ */

/** [pure] The version of the library that runs.
 * @return S2U_VERSION of that library
 * @since 0.1
 * @snippet examples.c s2u_version
 */
uint32_t s2u_version(void);

/** @} */

/* ---- cells: all [pure], all for every number --------------------------------------------------------------------- */

/** @name Cells: all [pure], all for every number
 * @{ */

/** [pure] Whether a number is the identifier of a cell.
 * @param id any number
 * @return 1 or 0
 * @s2{S2CellId::is_valid}
 * @since 0.1
 * @snippet examples.c s2u_is_cell
 */
int32_t s2u_is_cell(uint64_t id);

/** [pure] The level of a cell.
 * @param id any number
 * @return 0 (a face) to 30 (a leaf)
 * @retval S2U_NO_CELL the number is not the identifier of a cell
 * @s2{S2CellId::level}
 * @since 0.1
 * @snippet examples.c s2u_level
 */
int32_t s2u_level(uint64_t id);

/** [pure] The face of a cell.
 * @param id any number
 * @return 0 to 5
 * @retval S2U_NO_CELL the number is not the identifier of a cell
 * @s2{S2CellId::face}
 * @since 0.1
 * @snippet examples.c s2u_face
 */
int32_t s2u_face(uint64_t id);

/** [pure] The cell of a level that contains the cell; at its own level, itself.
 * @param id any number
 * @param level 0 (a face) to 30 (a leaf)
 * @return the cell; 0 if id is not a cell, or the level is deeper than its own or above 30
 * @s2{S2CellId::parent}
 * @since 0.1
 * @snippet examples.c s2u_parent
 */
uint64_t s2u_parent(uint64_t id, uint32_t level);

/** [pure] The child of a cell along the curve.
 * @param id any number
 * @param child 0 to 3
 * @return the child; 0 if id is not a cell or a leaf, or the child is above 3
 * @s2{S2CellId::child}
 * @since 0.1
 * @snippet examples.c s2u_child
 */
uint64_t s2u_child(uint64_t id, uint32_t child);

/** [pure] The first leaf of a cell.
 * A cell is in another if, and only if, its identifier lies from the first to the last leaf of that, both included:
 * `WHERE cell BETWEEN range_min AND range_max`. Both have the sign bit of the cell, so the same holds for signed
 * numbers, as databases have them; then the order of cells is not kept (faces 3 and 4).
 * @param id any number
 * @return a leaf; 0 if id is not a cell
 * @s2{S2CellId::range_min}
 * @since 0.1
 * @snippet examples.c s2u_range_min
 */
uint64_t s2u_range_min(uint64_t id);

/** [pure] The last leaf of a cell.
 * @param id any number
 * @return a leaf; 0 if id is not a cell
 * @s2{S2CellId::range_max}
 * @since 0.1
 * @snippet examples.c s2u_range_max
 */
uint64_t s2u_range_max(uint64_t id);

/** [pure] How many leaves a cell has.
 * @param id any number
 * @return 4^(30 - level), 1 to 4^30; 0 if id is not a cell
 * @s2{S2CellUnion::LeafCellsCovered} of one cell
 * @since 0.1
 * @snippet examples.c s2u_size
 */
uint64_t s2u_size(uint64_t id);

/** [pure] The next cell of its level along the curve, across faces.
 * @param id any number
 * @return the cell; 0 after the last, and if id is not a cell
 * @s2{S2CellId::next}
 * @since 0.1
 * @snippet examples.c s2u_next
 */
uint64_t s2u_next(uint64_t id);

/** [pure] The cell of its level before it along the curve, across faces.
 * @param id any number
 * @return the cell; 0 before the first, and if id is not a cell
 * @s2{S2CellId::prev}
 * @since 0.1
 * @snippet examples.c s2u_prev
 */
uint64_t s2u_prev(uint64_t id);

/** [pure] The smallest cell that contains both.
 * @param a,b any numbers
 * @return the cell; 0 if they are on two faces, or one is not a cell
 * @s2{S2CellId::GetCommonAncestorLevel}
 * @since 0.1
 * @snippet examples.c s2u_common_ancestor
 */
uint64_t s2u_common_ancestor(uint64_t a, uint64_t b);

/** [pure] Whether all leaves of a part are in a whole; a cell contains itself.
 * @param whole,part any numbers
 * @return 1 or 0
 * @retval S2U_NO_CELL the number is not the identifier of a cell
 * @s2{S2CellId::contains}
 * @since 0.1
 * @snippet examples.c s2u_cell_contains
 */
int32_t s2u_cell_contains(uint64_t whole, uint64_t part);

/** [pure] Whether two cells share a leaf.
 * @param a,b any numbers
 * @return 1 or 0
 * @retval S2U_NO_CELL the number is not the identifier of a cell
 * @s2{S2CellId::intersects}
 * @since 0.1
 * @snippet examples.c s2u_cell_intersects
 */
int32_t s2u_cell_intersects(uint64_t a, uint64_t b);

/** [pure] The leaf at a place of a face.
 * @param face 0 to 5
 * @param i,j below 2^30
 * @return a leaf; 0 if the face is above 5, or i or j is 2^30 or more
 * @s2{S2CellId::FromFaceIJ}
 * @since 0.1
 * @snippet examples.c s2u_from_face_ij
 */
uint64_t s2u_from_face_ij(uint32_t face, uint32_t i, uint32_t j);

/** [pure] The square of a cell on its face.
 * @param id any number
 * @param square the result; a refusal doesn't touch it
 * @return S2U_OK
 * @retval S2U_NO_CELL the number is not the identifier of a cell
 * @s2{S2CellId::ToFaceIJOrientation}
 * @since 0.1
 * @snippet examples.c s2u_square_of
 */
int32_t s2u_square_of(uint64_t id, s2u_square* square);

/** @} */

/* ---- texts: all [pure] ------------------------------------------------------------------------------------------- */

/** @name Texts: all [pure]
 * @{ */

/** The bytes of a token, without a NUL, which no call writes or reads. */
#define S2U_MOST_TOKEN 16

/** The most bytes of a debug text. */
#define S2U_MOST_DEBUG 32

/** [pure] The token of a cell ("89c25"): its identifier in hexadecimal without the zeros at its end.
 * At most S2U_MOST_TOKEN bytes.
 * @param id any number
 * @param text,room,len the result, how many bytes it has room for, and how many it has
 * @return S2U_OK
 * @retval S2U_ROOM room is too small; len says what is needed
 * @retval S2U_NO_CELL the number is not the identifier of a cell
 * @s2{S2CellId::ToToken}
 * @since 0.1
 * @snippet examples.c s2u_token
 */
int32_t s2u_token(uint64_t id, char* text, size_t room, size_t* len);

/** [pure] The cell of a token, in either case.
 * @param text,n a text, and how many bytes it has
 * @param id the cell; 0 if there is none
 * @return S2U_OK
 * @retval S2U_NO_CELL the text is the token of no cell
 * @s2{S2CellId::FromToken}
 * @since 0.1
 * @snippet examples.c s2u_from_token
 */
int32_t s2u_from_token(const char* text, size_t n, uint64_t* id);

/** [pure] The debug text of a cell ("4/032212"): its face, a slash, and a digit for each level.
 * At most S2U_MOST_DEBUG bytes.
 * @param id any number
 * @param text,room,len the result, how many bytes it has room for, and how many it has
 * @return S2U_OK
 * @retval S2U_ROOM room is too small; len says what is needed
 * @retval S2U_NO_CELL the number is not the identifier of a cell
 * @s2{S2CellId::ToString}
 * @since 0.1
 * @snippet examples.c s2u_debug
 */
int32_t s2u_debug(uint64_t id, char* text, size_t room, size_t* len);

/** [pure] The cell of a debug text.
 * @param text,n a text, and how many bytes it has
 * @param id the cell; 0 if there is none
 * @return S2U_OK
 * @retval S2U_NO_CELL the text is the debug text of no cell
 * @s2{S2CellId::FromDebugString}
 * @since 0.1
 * @snippet examples.c s2u_from_debug
 */
int32_t s2u_from_debug(const char* text, size_t n, uint64_t* id);

/** The most bytes that s2u_tokens writes of n cells. */
#define S2U_MOST_TOKENS(n) (UINT64_C(17) * (n))

/** [pure] The tokens of the cells of a list, one blank between two.
 * At most S2U_MOST_TOKENS(n) bytes. Two passes.
 * @param ids,n any numbers, and how many they are
 * @param text,room,len the result, how many bytes it has room for, and how many it has
 * @return S2U_OK
 * @retval S2U_ROOM room is too small; len says what is needed
 * @retval S2U_NO_CELL a number is not the identifier of a cell
 * @retval S2U_MANY 2^64 bytes or more, which takes 10^18 cells
 * @s2{S2CellId::ToToken}
 * @since 0.1
 * @snippet examples.c s2u_tokens
 */
int32_t s2u_tokens(const uint64_t* ids, size_t n, char* text, size_t room, size_t* len);
/** The most cells that a text of n bytes names. */
#define S2U_MOST_NAMED(n) ((n) / 2 + (n) % 2)

/** [pure] The cells that a text names, in its order and each time that it names one.
 * At most S2U_MOST_NAMED(n) cells. Two passes.
 * @param text,n words with blanks, tabs, line ends or commas between them, each a token or a debug text, and how many
 *   bytes they have
 * @param out,room,len the result, how many cells it has room for, and how many it has
 * @return S2U_OK
 * @retval S2U_ROOM room is too small; len says what is needed
 * @retval S2U_NO_CELL a word names none: *len is the place in the text where the first such word begins, and out is
 *   not touched
 * @s2{S2CellId::FromToken}
 * @since 0.1
 * @snippet examples.c s2u_from_tokens
 */
int32_t s2u_from_tokens(const char* text, size_t n, uint64_t* out, size_t room, size_t* len);

/** @} */

/* ---- many cells at once: all [pure], all for every number -------------------------------------------------------- */

/** @name Many cells at once: all [pure], all for every number
 *
 * Entry k is what the call for one cell answers for ids[k]. S2U_OK, and *bad is the first k that has no answer; n if
 * each has one. S2U_ROOM: room is too small for n entries; nothing is written, and *bad is n. n steps.
 * @{ */

/** [pure] The cells of a level that contain the cells; 0 for a number that is not a cell, or whose own level is
 * coarser.
 * @param ids,n any numbers, and how many they are
 * @param level 0 (a face) to 30 (a leaf)
 * @param out,room the entries, and how many there is room for
 * @param bad the first k whose entry has no answer; n if each has one
 * @return S2U_OK
 * @retval S2U_ROOM room is too small for n entries; nothing is written, and bad is n
 * @s2{S2CellId::parent}
 * @since 0.2
 * @snippet examples.c s2u_parents
 */
int32_t s2u_parents(const uint64_t* ids, size_t n, uint32_t level, uint64_t* out, size_t room, size_t* bad);

/** [pure] The first leaves of cells; 0 for a number that is not a cell.
 * @param ids,n any numbers, and how many they are
 * @param out,room the entries, and how many there is room for
 * @param bad the first k whose entry has no answer; n if each has one
 * @return S2U_OK
 * @retval S2U_ROOM room is too small for n entries; nothing is written, and bad is n
 * @s2{S2CellId::range_min}
 * @since 0.2
 * @snippet examples.c s2u_range_mins
 */
int32_t s2u_range_mins(const uint64_t* ids, size_t n, uint64_t* out, size_t room, size_t* bad);

/** [pure] The last leaves of cells; 0 for a number that is not a cell.
 * @param ids,n any numbers, and how many they are
 * @param out,room the entries, and how many there is room for
 * @param bad the first k whose entry has no answer; n if each has one
 * @return S2U_OK
 * @retval S2U_ROOM room is too small for n entries; nothing is written, and bad is n
 * @s2{S2CellId::range_max}
 * @since 0.2
 * @snippet examples.c s2u_range_maxes
 */
int32_t s2u_range_maxes(const uint64_t* ids, size_t n, uint64_t* out, size_t room, size_t* bad);
/** The entry of a number that is not a cell. */
#define S2U_NO_LEVEL 255

/** [pure] The levels of cells; S2U_NO_LEVEL for a number that is not a cell.
 * @param ids,n any numbers, and how many they are
 * @param out,room the entries, and how many there is room for
 * @param bad the first k whose entry has no answer; n if each has one
 * @return S2U_OK
 * @retval S2U_ROOM room is too small for n entries; nothing is written, and bad is n
 * @s2{S2CellId::level}
 * @since 0.2
 * @snippet examples.c s2u_levels
 */
int32_t s2u_levels(const uint64_t* ids, size_t n, uint8_t* out, size_t room, size_t* bad);

/** [pure] The tokens of cells, each in S2U_MOST_TOKEN bytes, with zeros after it; zeros alone for a number that is
 * not a cell.
 * @param ids,n any numbers, and how many they are
 * @param text,room the entries, and how many bytes there is room for
 * @param bad the first k whose entry has no answer; n if each has one
 * @return S2U_OK
 * @retval S2U_ROOM room is too small for n entries; nothing is written, and bad is n
 * @s2{S2CellId::ToToken}
 * @since 0.2
 * @snippet examples.c s2u_token_fields
 */
int32_t s2u_token_fields(const uint64_t* ids, size_t n, char* text, size_t room, size_t* bad);

/** [pure] The leaves at points; 0 for a point on no face.
 * @param points,n points, and how many they are: the face 0 to 5, i and j below 2^30
 * @param out,room the entries, and how many there is room for
 * @param bad the first k whose entry has no answer; n if each has one
 * @return S2U_OK
 * @retval S2U_ROOM room is too small for n entries; nothing is written, and bad is n
 * @s2{S2CellId::FromFaceIJ}
 * @since 0.2
 * @snippet examples.c s2u_from_points
 */
int32_t s2u_from_points(const s2u_point* points, size_t n, uint64_t* out, size_t room, size_t* bad);

/** @} */

/* ---- questions about a union: all [pure], in place, without a copy ----------------------------------------------- */

/** @name Questions about a union: all [pure], in place, without a copy
 *
 * If the list is not a union, the answer means nothing: 0 or 1, places in the list, any count of leaves.
 * @{ */

/** [pure] Whether a list is that of a union: ascending cells, no two that share a leaf, no four that make one. N
 * steps.
 * @param ids,n any numbers, and how many they are
 * @return 1 or 0
 * @s2{S2CellUnion::IsNormalized}
 * @since 0.1
 * @snippet examples.c s2u_is_union
 */
int32_t s2u_is_union(const uint64_t* ids, size_t n);

/** [pure] How many leaves the union has. N steps.
 * @param ids,n a union, and how many cells it has
 * @return of a union at most 6 * 4^30, which an int64_t holds
 * @s2{S2CellUnion::LeafCellsCovered}
 * @since 0.1
 * @snippet examples.c s2u_leaf_count
 */
uint64_t s2u_leaf_count(const uint64_t* ids, size_t n);

/** [pure] Whether all leaves of a cell are in the union. Log n steps.
 * @param ids,n a union, and how many cells it has
 * @param cell any number
 * @return 1 or 0
 * @retval S2U_NO_CELL the number is not the identifier of a cell
 * @s2{S2CellUnion::Contains}
 * @since 0.1
 * @snippet examples.c s2u_contains_cell
 */
int32_t s2u_contains_cell(const uint64_t* ids, size_t n, uint64_t cell);

/** [pure] Whether the union shares a leaf with a cell. Log n steps.
 * @param ids,n a union, and how many cells it has
 * @param cell any number
 * @return 1 or 0
 * @retval S2U_NO_CELL the number is not the identifier of a cell
 * @s2{S2CellUnion::Intersects}
 * @since 0.1
 * @snippet examples.c s2u_intersects_cell
 */
int32_t s2u_intersects_cell(const uint64_t* ids, size_t n, uint64_t cell);

/** [pure] The cells of the union that share a leaf with a cell: ids[*first .. *first + *count). Log n steps.
 * @param ids,n a union, and how many cells it has
 * @param cell any number
 * @param first the place of the first; if there are none, how many cells come before the cell
 * @param count how many they are
 * @return S2U_OK
 * @retval S2U_NO_CELL the number is not the identifier of a cell
 * @since 0.1
 * @snippet examples.c s2u_cells_at
 */
int32_t s2u_cells_at(const uint64_t* ids, size_t n, uint64_t cell, size_t* first, size_t* count);

/** [pure] Whether all leaves of each cell are in the union.
 * A search begins at the place of the one before, so cells in order are quickest; cells whose places are far apart
 * are searched four at once.
 * @param ids,n a union, and how many cells it has
 * @param cells,m any numbers, and how many they are
 * @param answers,room 1 or 0 for each, and how many there is room for
 * @param bad the first k for which cells[k] is not a cell; else m
 * @return S2U_OK
 * @retval S2U_NO_CELL one is not a cell; answers is not touched
 * @retval S2U_ROOM room is less than m; answers is not touched
 * @s2{S2CellUnion::Contains}
 * @since 0.1
 * @snippet examples.c s2u_contains_cells
 */
int32_t s2u_contains_cells(const uint64_t* ids, size_t n, const uint64_t* cells, size_t m, uint8_t* answers,
                           size_t room, size_t* bad);

/** [pure] Whether the union shares a leaf with each cell, as s2u_contains_cells.
 * @param ids,n a union, and how many cells it has
 * @param cells,m any numbers, and how many they are
 * @param answers,room 1 or 0 for each, and how many there is room for
 * @param bad the first k for which cells[k] is not a cell; else m
 * @return S2U_OK
 * @retval S2U_NO_CELL one is not a cell; answers is not touched
 * @retval S2U_ROOM room is less than m; answers is not touched
 * @s2{S2CellUnion::Intersects}
 * @since 0.1
 * @snippet examples.c s2u_intersects_cells
 */
int32_t s2u_intersects_cells(const uint64_t* ids, size_t n, const uint64_t* cells, size_t m, uint8_t* answers,
                             size_t room, size_t* bad);

/** [pure] Whether all leaves of ys are in xs.
 * @param xs,nx a union, and how many cells it has
 * @param ys,ny another, likewise
 * @return 1 or 0
 * @s2{S2CellUnion::Contains}
 * @since 0.1
 * @snippet examples.c s2u_contains
 */
int32_t s2u_contains(const uint64_t* xs, size_t nx, const uint64_t* ys, size_t ny);

/** [pure] Whether two unions share a leaf.
 * @param xs,nx a union, and how many cells it has
 * @param ys,ny another, likewise
 * @return 1 or 0
 * @s2{S2CellUnion::Intersects}
 * @since 0.1
 * @snippet examples.c s2u_intersects
 */
int32_t s2u_intersects(const uint64_t* xs, size_t nx, const uint64_t* ys, size_t ny);

/** [pure] The order of lists, element by element and then by length: a total order, for B-trees.
 * @param xs,nx any numbers, and how many they are
 * @param ys,ny others, likewise
 * @return -1, 0 or 1; there is no refusal
 * @since 0.1
 * @snippet examples.c s2u_compare
 */
int32_t s2u_compare(const uint64_t* xs, size_t nx, const uint64_t* ys, size_t ny);

/** @} */

/* ---- making unions ----------------------------------------------------------------------------------------------- */

/** @name Making unions
 * @{ */

/** [pure] Normalizes a list of cells in place; they may be in any order, repeated, or inside one another. N log n
 * steps, n if the list is in order.
 * @param ids,n the cells, and how many they are; then the union, and after it what has no meaning
 * @param len how many cells the union has, at most n; of a refusal, the place of the first number that is not a cell
 * @return S2U_OK
 * @retval S2U_NO_CELL a number is not the identifier of a cell; the list is not touched
 * @s2{S2CellUnion::Normalize}
 * @since 0.1
 * @snippet examples.c s2u_normalise
 */
int32_t s2u_normalise(uint64_t* ids, size_t n, size_t* len);

/** [pure] The union of many lists of cells, which lie one after another in ids: each ends before the place that is
 * next in `ends`, where the next begins, and the last one ends with ids.
 * Lists that ascend, as unions do, are merged in pairs: n steps for each doubling of their number. Others are sorted
 * first, and short ones together.
 * @param ids,n the cells, and how many they are
 * @param ends,lists where each list ends, and how many lists there are
 * @param work,work_room room for at least 2 n numbers, and how many it has; it means nothing afterward
 * @param out,room,len the result, how many cells it has room for, and how many it has
 * @return S2U_OK
 * @retval S2U_ROOM room is too small, at most n are needed; nothing is written to out
 * @retval S2U_ARGUMENT `ends` descends or does not end with n, or work is too short
 * @retval S2U_NO_CELL *len is the place of the first number that is not a cell
 * @s2{S2CellUnion::Union}
 * @since 1.0
 * @snippet examples.c s2u_union_of_many
 */
int32_t s2u_union_of_many(const uint64_t* ids, size_t n, const size_t* ends, size_t lists, uint64_t* work,
                          size_t work_room, uint64_t* out, size_t room, size_t* len);

/** [pure] The leaves of either.
 * At most nx + ny cells. Of lists that are not unions: at most 512 (nx + ny) steps.
 * @param xs,nx a union, and how many cells it has
 * @param ys,ny another, likewise
 * @param out,room,len the result, how many cells it has room for, and how many it has
 * @return S2U_OK
 * @retval S2U_ROOM room is too small; len says what is needed
 * @s2{S2CellUnion::Union}
 * @since 0.1
 * @snippet examples.c s2u_union
 */
int32_t s2u_union(const uint64_t* xs, size_t nx, const uint64_t* ys, size_t ny, uint64_t* out,
                  size_t room, size_t* len);

/** [pure] The leaves that both have.
 * At most nx + ny cells. Of lists that are not unions: at most 512 (nx + ny) steps.
 * @param xs,nx a union, and how many cells it has
 * @param ys,ny another, likewise
 * @param out,room,len the result, how many cells it has room for, and how many it has
 * @return S2U_OK
 * @retval S2U_ROOM room is too small; len says what is needed
 * @s2{S2CellUnion::Intersection}
 * @since 0.1
 * @snippet examples.c s2u_intersection
 */
int32_t s2u_intersection(const uint64_t* xs, size_t nx, const uint64_t* ys, size_t ny, uint64_t* out,
                         size_t room, size_t* len);
/** The most cells of a difference. */
#define S2U_MOST_DIFFERENCE(nx, ny) ((nx) + UINT64_C(90) * (ny))

/** [pure] The leaves of xs that ys doesn't have.
 * At most S2U_MOST_DIFFERENCE(nx, ny) cells (a leaf taken out of a face leaves 90); nearly always less than nx + ny.
 * Of lists that are not unions: at most 512 (nx + ny) steps.
 * @param xs,nx a union, and how many cells it has
 * @param ys,ny another, likewise
 * @param out,room,len the result, how many cells it has room for, and how many it has
 * @return S2U_OK
 * @retval S2U_ROOM room is too small; len says what is needed
 * @s2{S2CellUnion::Difference}
 * @since 0.1
 * @snippet examples.c s2u_difference
 */
int32_t s2u_difference(const uint64_t* xs, size_t nx, const uint64_t* ys, size_t ny, uint64_t* out,
                       size_t room, size_t* len);
/** The most cells of a symmetric difference. */
#define S2U_MOST_SYMMETRIC_DIFFERENCE(nx, ny) (UINT64_C(90) * (nx) + UINT64_C(90) * (ny))

/** [pure] The leaves that only one of them has.
 * At most S2U_MOST_SYMMETRIC_DIFFERENCE(nx, ny) cells; nearly always at most nx + ny. One step for each cell of both.
 * Of lists that are not unions: at most 512 (nx + ny) steps.
 * @param xs,nx a union, and how many cells it has
 * @param ys,ny another, likewise
 * @param out,room,len the result, how many cells it has room for, and how many it has
 * @return S2U_OK
 * @retval S2U_ROOM room is too small; len says what is needed
 * @since 1.1
 * @snippet examples.c s2u_symmetric_difference
 */
int32_t s2u_symmetric_difference(const uint64_t* xs, size_t nx, const uint64_t* ys, size_t ny, uint64_t* out,
                                 size_t room, size_t* len);

/** The most cells of a complement. */
#define S2U_MOST_COMPLEMENT(n) (6 + UINT64_C(90) * (n))

/** [pure] The leaves of the six faces that a union doesn't have. N steps.
 * At most S2U_MOST_COMPLEMENT(n) cells.
 * @param ids,n a union, and how many cells it has
 * @param out,room,len the result, how many cells it has room for, and how many it has
 * @return S2U_OK
 * @retval S2U_ROOM room is too small; len says what is needed
 * @s2{S2CellUnion::WholeSphere().Difference}
 * @since 1.1
 * @snippet examples.c s2u_complement
 */
int32_t s2u_complement(const uint64_t* ids, size_t n, uint64_t* out, size_t room, size_t* len);

/** The most cells of a range. */
#define S2U_MOST_RANGE 184

/** All leaves from the first of one cell to the last of another, also across faces.
 * At most S2U_MOST_RANGE cells.
 * @param first,last any numbers
 * @param out,room,len the result, how many cells it has room for, and how many it has
 * @return S2U_OK
 * @retval S2U_ROOM room is too small; len says what is needed
 * @retval S2U_MEMORY out of memory; nothing has changed
 * @retval S2U_NO_CELL one is not the identifier of a cell
 * @retval S2U_ARGUMENT the last leaf comes before the first
 * @s2{S2CellUnion::FromMinMax}
 * @since 0.1
 * @snippet examples.c s2u_range
 */
int32_t s2u_range(uint64_t first, uint64_t last, uint64_t* out, size_t room, size_t* len);

/** [pure] How many cells s2u_denormalised writes. N steps.
 * @param ids,n a union, and how many cells it has
 * @param min a level, 0 to 30
 * @param modulus 1 to 3
 * @param len how many; 2^64 - 1 if it would be greater, which it is of no union
 * @return S2U_OK
 * @retval S2U_ARGUMENT min is above 30, or modulus is not 1 to 3
 * @s2{S2CellUnion::Denormalize}
 * @since 0.1
 * @snippet examples.c s2u_denormalised_len
 */
int32_t s2u_denormalised_len(const uint64_t* ids, size_t n, uint32_t min, uint32_t modulus, uint64_t* len);

/** [pure] The cells of a union, each cut to the least level that is not coarser than its own and is `min`, or deeper
 * than it by a multiple of `modulus`; to leaves if there is none. N steps, and one for each cell that is written.
 * Ask s2u_denormalised_len first: a face has 4^30 leaves. A number that is not a cell is cut into nothing. Of lists
 * that are not unions: any length.
 * @param ids,n a union, and how many cells it has
 * @param min a level, 0 to 30
 * @param modulus 1 to 3
 * @param out,room,len the result, how many cells it has room for, and how many it has
 * @return S2U_OK
 * @retval S2U_ARGUMENT min is above 30, or modulus is not 1 to 3
 * @retval S2U_ROOM room is too small; len says what is needed
 * @s2{S2CellUnion::Denormalize}
 * @since 0.1
 * @snippet examples.c s2u_denormalised
 */
int32_t s2u_denormalised(const uint64_t* ids, size_t n, uint32_t min, uint32_t modulus, uint64_t* out, size_t room,
                         size_t* len);

/** The most cells and ancestors of n cells. */
#define S2U_MOST_ANCESTORS(n) (UINT64_C(31) * (n))

/** [pure] The cells of a union and all their ancestors, ascending, each once.
 * Two unions share a leaf if, and only if, a cell of one is among the cells and ancestors of the other: the law of
 * every inverted index over cells, proved. At most S2U_MOST_ANCESTORS(n), of any list. A number that is not a cell is
 * passed over.
 * @param ids,n a union, and how many cells it has
 * @param out,room,len the result, how many cells it has room for, and how many it has
 * @return S2U_OK
 * @retval S2U_ROOM room is too small; len says what is needed
 * @since 0.1
 * @snippet examples.c s2u_ancestors
 */
int32_t s2u_ancestors(const uint64_t* ids, size_t n, uint64_t* out, size_t room, size_t* len);

/** @} */

/* ---- coverings at one level -------------------------------------------------------------------------------------- */

/** @name Coverings at one level
 *
 * The outer covering: the cells of the level that share a leaf with the region, normalized; the inner: those that lie
 * in it. S2U_ROOM, S2U_MEMORY, S2U_ARGUMENT, S2U_MANY if it would have more than `most` cells (which bounds the list on
 * the way too). A `most` greater than S2U_MOST_COVERING counts as S2U_MOST_COVERING: a covering that would have more
 * cells is refused with S2U_MANY, whatever `most` and room are.
 *
 * s2u_outer_of and s2u_inner_of are [pure]: one pass over the union, in which the cells in one cell of the level are
 * passed by a search. The covering has no more cells than the union; if that has more than `most`, it is counted first.
 * Of a list that is no union, `out` may have been written when S2U_MANY is answered.
 *
 * s2u_outer_in and s2u_inner_in cover what a union and a rectangle share. Of the union they read the cells that share a
 * leaf with one of the at most four cells around the rectangle, which are less than twice as wide as it is long. These
 * are found in log n steps. Memory is taken for those that have a leaf in the rectangle. `out` is touched by S2U_OK
 * alone. Of a list that is no union they cover some union.
 * @{ */
/** The most cells of a covering. */
#define S2U_MOST_COVERING 1000000

/** The cells of a level that share a leaf with a rectangle, normalized.
 * @param bounds the rectangle: the face 0 to 5, coordinates below 2^30, both ends in it
 * @param level 0 (a face) to 30 (a leaf)
 * @param most the most cells that the result may have
 * @param out,room,len the result, how many cells it has room for, and how many it has
 * @return S2U_OK
 * @retval S2U_ROOM room is too small; len says what is needed
 * @retval S2U_MEMORY out of memory; nothing has changed
 * @retval S2U_ARGUMENT a face, coordinate or level is out of range, or an end comes before its begin
 * @retval S2U_MANY there would be more than most cells, or than S2U_MOST_COVERING
 * @since 0.1
 * @snippet examples.c s2u_outer
 */
int32_t s2u_outer(const s2u_rect* bounds, uint32_t level, size_t most, uint64_t* out, size_t room, size_t* len);

/** The cells of a level that lie in a rectangle, normalized.
 * @param bounds the rectangle: the face 0 to 5, coordinates below 2^30, both ends in it
 * @param level 0 (a face) to 30 (a leaf)
 * @param most the most cells that the result may have
 * @param out,room,len the result, how many cells it has room for, and how many it has
 * @return S2U_OK
 * @retval S2U_ROOM room is too small; len says what is needed
 * @retval S2U_MEMORY out of memory; nothing has changed
 * @retval S2U_ARGUMENT a face, coordinate or level is out of range, or an end comes before its begin
 * @retval S2U_MANY there would be more than most cells, or than S2U_MOST_COVERING
 * @since 0.1
 * @snippet examples.c s2u_inner
 */
int32_t s2u_inner(const s2u_rect* bounds, uint32_t level, size_t most, uint64_t* out, size_t room, size_t* len);

/** [pure] The cells of a level that share a leaf with a union, normalized.
 * One pass over the union, in which the cells in one cell of the level are passed by a search. The covering has no
 * more cells than the union; if that has more than `most`, it is counted first. Of a list that is no union, `out` may
 * have been written when S2U_MANY is answered.
 * @param ids,n a union, and how many cells it has
 * @param level 0 (a face) to 30 (a leaf)
 * @param most the most cells that the result may have
 * @param out,room,len the result, how many cells it has room for, and how many it has
 * @return S2U_OK
 * @retval S2U_ROOM room is too small; len says what is needed
 * @retval S2U_ARGUMENT the level is above 30
 * @retval S2U_MANY there would be more than most cells, or than S2U_MOST_COVERING
 * @since 0.1
 * @snippet examples.c s2u_outer_of
 */
int32_t s2u_outer_of(const uint64_t* ids, size_t n, uint32_t level, size_t most, uint64_t* out, size_t room,
                     size_t* len);

/** [pure] The cells of a level that lie in a union, normalized; as s2u_outer_of.
 * @param ids,n a union, and how many cells it has
 * @param level 0 (a face) to 30 (a leaf)
 * @param most the most cells that the result may have
 * @param out,room,len the result, how many cells it has room for, and how many it has
 * @return S2U_OK
 * @retval S2U_ROOM room is too small; len says what is needed
 * @retval S2U_ARGUMENT the level is above 30
 * @retval S2U_MANY there would be more than most cells, or than S2U_MOST_COVERING
 * @since 0.1
 * @snippet examples.c s2u_inner_of
 */
int32_t s2u_inner_of(const uint64_t* ids, size_t n, uint32_t level, size_t most, uint64_t* out, size_t room,
                     size_t* len);

/** The cells of a level that share a leaf with what a union and a rectangle share, normalized.
 * Of the union it reads the cells that share a leaf with one of the at most four cells around the rectangle, which
 * are less than twice as wide as it is long. These are found in log n steps. Memory is taken for those that have a
 * leaf in the rectangle. `out` is touched by S2U_OK alone. Of a list that is no union it covers some union.
 * @param ids,n a union, and how many cells it has
 * @param bounds the rectangle: the face 0 to 5, coordinates below 2^30, both ends in it
 * @param level 0 (a face) to 30 (a leaf)
 * @param most the most cells that the result may have
 * @param out,room,len the result, how many cells it has room for, and how many it has
 * @return S2U_OK
 * @retval S2U_ROOM room is too small; len says what is needed
 * @retval S2U_MEMORY out of memory; nothing has changed
 * @retval S2U_ARGUMENT a face, coordinate or level is out of range, or an end comes before its begin
 * @retval S2U_MANY there would be more than most cells, or than S2U_MOST_COVERING
 * @since 1.0
 * @snippet examples.c s2u_outer_in
 */
int32_t s2u_outer_in(const uint64_t* ids, size_t n, const s2u_rect* bounds, uint32_t level, size_t most, uint64_t* out,
                     size_t room, size_t* len);

/** The cells of a level that lie in what a union and a rectangle share, normalized; as s2u_outer_in.
 * @param ids,n a union, and how many cells it has
 * @param bounds the rectangle: the face 0 to 5, coordinates below 2^30, both ends in it
 * @param level 0 (a face) to 30 (a leaf)
 * @param most the most cells that the result may have
 * @param out,room,len the result, how many cells it has room for, and how many it has
 * @return S2U_OK
 * @retval S2U_ROOM room is too small; len says what is needed
 * @retval S2U_MEMORY out of memory; nothing has changed
 * @retval S2U_ARGUMENT a face, coordinate or level is out of range, or an end comes before its begin
 * @retval S2U_MANY there would be more than most cells, or than S2U_MOST_COVERING
 * @since 1.0
 * @snippet examples.c s2u_inner_in
 */
int32_t s2u_inner_in(const uint64_t* ids, size_t n, const s2u_rect* bounds, uint32_t level, size_t most, uint64_t* out,
                     size_t room, size_t* len);

/** @} */

/* ---- polygons ---------------------------------------------------------------------------------------------------- */

/** @name Polygons
 *
 * A polygon is rings of corners with a leaf that is known to lie outside. A corner is a direction of whole numbers, and
 * nothing is rounded: which leaves an edge touches, and which lie inside, is defined by signs of products. Rings may
 * cross, touch, nest and repeat each other, and have corners more than once: a leaf lies inside if the way to it from
 * the leaf outside crosses edges an odd number of times. An edge is the short way between two corners.
 *
 * Outer leaves are those inside and those that an edge touches, inner leaves those inside that no edge touches. With a
 * margin an edge touches a leaf that it comes near. A covering of outer leaves misses none of them, a covering of inner
 * leaves has no other leaf: proved. Memory is taken for the edges, some hundred bytes for each and for each level. Time
 * follows the edges and the cells that they touch, down to the level, and few edges take some seconds at most: an outer
 * covering of one level ends soon after `most` cells. Edges may touch at most 4,000,000 cells of the level where cells
 * that are touched merge, with a margin wider than a cell, and for an inner covering, which has none of them. Coverings
 * of few cells look into no more than `cells` + 32 at each level.
 * @{ */

/** [pure] The direction of a place in degrees, which is the same on each machine. Each coordinate is at most 0.501
 * away from 2^31 - 1 times what sine and cosine say: 3 mm on the earth at most.
 * @param longitude from -540 to 540
 * @param latitude from -90 to 90
 * @param direction the result; a refusal doesn't touch it
 * @return S2U_OK
 * @retval S2U_ARGUMENT the longitude or the latitude is out of its range, or no number
 * @s2{S2LatLng::ToPoint}
 * @since 1.5
 * @snippet examples.c s2u_direction_of
 */
int32_t s2u_direction_of(double longitude, double latitude, s2u_direction* direction);

/** The cells of a level that have an outer leaf of a polygon, normalized: S2's GetCovering with one level.
 * @param corners,n the corners, ring after ring, and how many they are; the first of a ring follows its last
 * @param ends,lists how many corners there are up to the end of each ring, and how many rings
 * @param outside a leaf that lies outside the polygon
 * @param margin how near an edge has to come to a leaf to touch it: 0 to 2^60, of which a face has 6 * 2^60 a side
 * @param level 0 (a face) to 30 (a leaf)
 * @param most the most cells that the result may have
 * @param out,room,len the result, how many cells it has room for, and how many it has; of S2U_CORNER and S2U_RING
 *   len is the number of the corner or of the ring, from 0 on
 * @return S2U_OK
 * @retval S2U_ROOM room is too small; len says what is needed
 * @retval S2U_MEMORY out of memory; nothing has changed
 * @retval S2U_ARGUMENT the level above 30, the margin above 2^60, or outside is not a leaf
 * @retval S2U_CORNER a corner is no direction, or lies opposite the next corner of its ring
 * @retval S2U_RING a ring ends in a wrong place or has fewer than three corners, or there is none
 * @retval S2U_MANY there would be more than most cells, or than S2U_MOST_COVERING; or the margin is greater
 *   than 2^(62 - level), about the width of a cell, and edges touch more than 4,000,000 cells of the level
 * @since 1.4
 * @snippet examples.c s2u_polygon_outer
 */
int32_t s2u_polygon_outer(const s2u_direction* corners, size_t n, const size_t* ends, size_t lists, uint64_t outside,
                          uint64_t margin, uint32_t level, size_t most, uint64_t* out, size_t room, size_t* len);

/** The cells of a level that have inner leaves of a polygon alone, normalized; as s2u_polygon_outer.
 * @param corners,n the corners, ring after ring, and how many they are; the first of a ring follows its last
 * @param ends,lists how many corners there are up to the end of each ring, and how many rings
 * @param outside a leaf that lies outside the polygon
 * @param margin how near an edge has to come to a leaf to touch it: 0 to 2^60, of which a face has 6 * 2^60 a side
 * @param level 0 (a face) to 30 (a leaf)
 * @param most the most cells that the result may have
 * @param out,room,len the result, how many cells it has room for, and how many it has; of S2U_CORNER and S2U_RING
 *   len is the number of the corner or of the ring, from 0 on
 * @return S2U_OK
 * @retval S2U_ROOM room is too small; len says what is needed
 * @retval S2U_MEMORY out of memory; nothing has changed
 * @retval S2U_ARGUMENT the level above 30, the margin above 2^60, or outside is not a leaf
 * @retval S2U_CORNER a corner is no direction, or lies opposite the next corner of its ring
 * @retval S2U_RING a ring ends in a wrong place or has fewer than three corners, or there is none
 * @retval S2U_MANY there would be more than most cells, or than S2U_MOST_COVERING; or edges touch more than 4,000,000
 *   cells of the level
 * @since 1.4
 * @snippet examples.c s2u_polygon_inner
 */
int32_t s2u_polygon_inner(const s2u_direction* corners, size_t n, const size_t* ends, size_t lists, uint64_t outside,
                          uint64_t margin, uint32_t level, size_t most, uint64_t* out, size_t room, size_t* len);

/** Few cells that have all outer leaves of a polygon: S2's GetCovering with max_cells and max_level.
 * There are at most `cells` cells, or 6 if that is more, none deeper than `deepest`, each with an outer leaf. Then
 * those of levels below `least` are cut, so that the result may have more cells; it is normalized if `least` is 0.
 * Time and memory are bounded: cells are split for at most 2^20 + 32 (n + cells) pairs of a cell and an edge that meets
 * it. With more, the result is coarser, which no status tells. Countries, provinces and coasts have a third of that
 * or less. Up to there the result is as near as its cells allow: before four cells of one parent are made one, each is
 * of the level `deepest` or has inner leaves alone, or there are `cells` - 2 or more.
 * @param corners,n the corners, ring after ring, and how many they are; the first of a ring follows its last
 * @param ends,lists how many corners there are up to the end of each ring, and how many rings
 * @param outside a leaf that lies outside the polygon
 * @param margin how near an edge has to come to a leaf to touch it: 0 to 2^60, of which a face has 6 * 2^60 a side
 * @param least 0 to deepest: a cell of a lesser level is cut into its descendants of this one, as by s2u_denormalised
 * @param deepest the greatest level of a cell, 0 (a face) to 30 (a leaf)
 * @param cells the most cells before they are cut, of which S2U_MOST_COVERING are the most that count
 * @param out,room,len the result, how many cells it has room for, and how many it has; of S2U_CORNER and S2U_RING
 *   len is the number of the corner or of the ring, from 0 on
 * @return S2U_OK
 * @retval S2U_ROOM room is too small; len says what is needed
 * @retval S2U_MEMORY out of memory; nothing has changed
 * @retval S2U_ARGUMENT least above deepest, deepest above 30, the margin above 2^60, or outside is not a leaf
 * @retval S2U_CORNER a corner is no direction, or lies opposite the next corner of its ring
 * @retval S2U_RING a ring ends in a wrong place or has fewer than three corners, or there is none
 * @retval S2U_MANY there would be more than S2U_MOST_COVERING cells after some were cut
 * @since 1.4
 * @snippet examples.c s2u_polygon_outer_up_to
 */
int32_t s2u_polygon_outer_up_to(const s2u_direction* corners, size_t n, const size_t* ends, size_t lists,
                                uint64_t outside, uint64_t margin, uint32_t least, uint32_t deepest, size_t cells,
                                uint64_t* out, size_t room, size_t* len);

/** Few cells that have inner leaves of a polygon alone: S2's GetInteriorCovering with max_cells and max_level.
 * There are at most `cells` cells, none deeper than `deepest`. Then those of levels below `least` are cut; as
 * s2u_polygon_outer_up_to, whose bound of work holds here too: cells that aren't split then are left out. Up to there
 * either `cells` were found, before four of one parent are made one, or each cell of a level that has inner leaves
 * alone is there, if at no level above edges touch more than `cells` + 32 cells.
 * @param corners,n the corners, ring after ring, and how many they are; the first of a ring follows its last
 * @param ends,lists how many corners there are up to the end of each ring, and how many rings
 * @param outside a leaf that lies outside the polygon
 * @param margin how near an edge has to come to a leaf to touch it: 0 to 2^60, of which a face has 6 * 2^60 a side
 * @param least 0 to deepest: a cell of a lesser level is cut into its descendants of this one, as by s2u_denormalised
 * @param deepest the greatest level of a cell, 0 (a face) to 30 (a leaf)
 * @param cells the most cells before they are cut, of which S2U_MOST_COVERING are the most that count
 * @param out,room,len the result, how many cells it has room for, and how many it has; of S2U_CORNER and S2U_RING
 *   len is the number of the corner or of the ring, from 0 on
 * @return S2U_OK
 * @retval S2U_ROOM room is too small; len says what is needed
 * @retval S2U_MEMORY out of memory; nothing has changed
 * @retval S2U_ARGUMENT least above deepest, deepest above 30, the margin above 2^60, or outside is not a leaf
 * @retval S2U_CORNER a corner is no direction, or lies opposite the next corner of its ring
 * @retval S2U_RING a ring ends in a wrong place or has fewer than three corners, or there is none
 * @retval S2U_MANY there would be more than S2U_MOST_COVERING cells after some were cut
 * @since 1.4
 * @snippet examples.c s2u_polygon_inner_up_to
 */
int32_t s2u_polygon_inner_up_to(const s2u_direction* corners, size_t n, const size_t* ends, size_t lists,
                                uint64_t outside, uint64_t margin, uint32_t least, uint32_t deepest, size_t cells,
                                uint64_t* out, size_t room, size_t* len);

/** Few cells that have all outer leaves of a polygon, and few that have inner ones alone: what s2u_polygon_outer_up_to
 * and s2u_polygon_inner_up_to make of the same arguments, in two lists that share no place. Edges are prepared once, so
 * it takes less time than the two calls: a sixth to a third less for a country by at most 8 cells.
 * @param corners,n the corners, ring after ring, and how many they are; the first of a ring follows its last
 * @param ends,lists how many corners there are up to the end of each ring, and how many rings
 * @param outside a leaf that lies outside the polygon
 * @param margin how near an edge has to come to a leaf to touch it: 0 to 2^60, of which a face has 6 * 2^60 a side
 * @param least 0 to deepest: a cell of a lesser level is cut into its descendants of this one, as by s2u_denormalised
 * @param deepest the greatest level of a cell, 0 (a face) to 30 (a leaf)
 * @param cells the most cells of each before they are cut, of which S2U_MOST_COVERING are the most that count
 * @param outer,outer_room,outer_len the first result, how many cells it has room for, and how many it has; of
 *   S2U_CORNER and S2U_RING outer_len is the number of the corner or of the ring, from 0 on
 * @param inner,inner_room,inner_len the same of the second
 * @return S2U_OK
 * @retval S2U_ROOM a room is too small; each length says what is needed, and the list that fits is made
 * @retval S2U_MEMORY out of memory; nothing has changed
 * @retval S2U_ARGUMENT least above deepest, deepest above 30, the margin above 2^60, or outside is not a leaf
 * @retval S2U_CORNER a corner is no direction, or lies opposite the next corner of its ring
 * @retval S2U_RING a ring ends in a wrong place or has fewer than three corners, or there is none
 * @retval S2U_MANY one would have more than S2U_MOST_COVERING cells after some were cut; its length is 0, and the
 *   other is made
 * @since 1.5
 * @snippet examples.c s2u_polygon_coverings_up_to
 */
int32_t s2u_polygon_coverings_up_to(const s2u_direction* corners, size_t n, const size_t* ends, size_t lists,
                                    uint64_t outside, uint64_t margin, uint32_t least, uint32_t deepest, size_t cells,
                                    uint64_t* outer, size_t outer_room, size_t* outer_len, uint64_t* inner,
                                    size_t inner_room, size_t* inner_len);

/** @} */

/* ---- shapes ------------------------------------------------------------------------------------------------------ */

/** @name Shapes
 *
 * Coverings of polygons as users write them: in a text of GeoJSON, or in bytes of WKB or EWKB, as PostGIS, GDAL and
 * shapely write them. No place inside a shape, as it is written, is missing from its outer covering, and no place
 * outside is in its inner one: proved, from the first byte on.
 *
 * Positions are degrees, the longitude first, -540 to 540, and then the latitude, -90 to 90. Each number is taken as
 * the nearest double, and that to the nearest 10^-15 of a degree: 0.1 nanometers on the earth. Further coordinates are
 * passed over. Edges are straight in longitude and latitude, as GeoJSON means them. A place is inside a polygon if an
 * odd number of its edges pass north of it, counted on every turn of 360 degrees; so rings may run in either direction,
 * cross and nest, and a ring that goes over the date line has longitudes beyond 180. A place is inside a shape if it is
 * inside one of its polygons, which may overlap. The two poles themselves are left out of all this.
 *
 * Edges of the calls with `geodesic` in their names are the short ways on the sphere instead, as in S2. Their comments
 * say what is proved of them.
 *
 * Both coverings are normalized, and no cell is deeper than the level. Each leaf that only the outer one has lies in a
 * cell of the level whose box on the map meets an edge. Geometries are polygons and collections of them; an empty one
 * has empty coverings. A shape with a point or a line has no inside to speak of: S2U_FAULT_NO_INSIDE.
 *
 * `work` bounds the time that any bytes can take. The search goes over the cells that meet edges, level by level, and a
 * cell takes 200 and 1 more for each position of the shape. If all cells of the levels together take more, the answer
 * is S2U_MANY, before memory for the cells of the next level is taken. Memory is some hundred bytes for each position
 * and for each cell.
 *
 * The calls with `up_to` in their names make coverings by few cells, and need no `work`. In each covering cells are
 * split for work of at most 2^20 + 32 (edges + `most`), where a cell that is split takes 100, and 1 for each edge that
 * meets a box of it. With more the outer covering is coarser, and the inner one has fewer cells, which no status tells.
 * More than S2U_MOST_FEW cells count as that many. So the worst text of 64 KB that was tried, one triangle 2,182 times,
 * takes 3 seconds and 250 MB.
 * @{ */

/** A `work` for callers that have no better one: a second for a shape of a country, and five for any text. Of texts
 * of strangers 2^24 is enough for a country at level 10, and takes a third of a second. @since 1.5 */
#define S2U_MAP_WORK (UINT64_C(1) << 28)

/** The most cells that count of a covering of a shape by few cells. @since 1.5 */
#define S2U_MOST_FEW 10000

/** The outer and the inner covering of the polygons in bytes of WKB: of those as they are written, edges straight on
 * the map.
 * @param wkb,n WKB or EWKB at any address, in either order of bytes, and how many bytes it has
 * @param level 0 (a face) to 30 (a leaf): the deepest level of a cell
 * @param work how much work the search over cells may take; S2U_MAP_WORK if you don't know
 * @param out,room,len the cells of the outer covering and then those of the inner one, how many cells there is room
 *   for, and how many both have
 * @param outer how many of them are the outer covering's
 * @param fault of S2U_SHAPE the fault and its place; no other answer touches it
 * @return S2U_OK
 * @retval S2U_ROOM room is too small; len says what is needed, and outer how many of those are outer's
 * @retval S2U_MEMORY out of memory; nothing has changed
 * @retval S2U_ARGUMENT the level is above 30
 * @retval S2U_SHAPE the bytes have a fault, or a part of the shape is a point or a line
 * @retval S2U_MANY the search would take more than work
 * @s2{S2RegionCoverer::GetCovering} and `GetInteriorCovering`, with max_level alone
 * @since 1.5
 * @snippet examples.c s2u_map_wkb
 */
int32_t s2u_map_wkb(const uint8_t* wkb, size_t n, uint32_t level, uint64_t work, uint64_t* out, size_t room,
                    size_t* len, size_t* outer, s2u_shape_fault* fault);

/** The outer and the inner covering of the polygons in a text of GeoJSON: of those as they are written, edges straight
 * on the map.
 * The text is a geometry, a feature, or a collection of either. Members that say nothing of the shape are passed over.
 * @param text,n the text in UTF-8, and how many bytes it has
 * @param level 0 (a face) to 30 (a leaf): the deepest level of a cell
 * @param work how much work the search over cells may take; S2U_MAP_WORK if you don't know
 * @param out,room,len the cells of the outer covering and then those of the inner one, how many cells there is room
 *   for, and how many both have
 * @param outer how many of them are the outer covering's
 * @param fault of S2U_SHAPE the fault and its place; no other answer touches it
 * @return S2U_OK
 * @retval S2U_ROOM room is too small; len says what is needed, and outer how many of those are outer's
 * @retval S2U_MEMORY out of memory; nothing has changed
 * @retval S2U_ARGUMENT the level is above 30
 * @retval S2U_SHAPE the text has a fault, or a part of the shape is a point or a line
 * @retval S2U_MANY the search would take more than work
 * @s2{S2RegionCoverer::GetCovering} and `GetInteriorCovering`, with max_level alone
 * @since 1.5
 * @snippet examples.c s2u_map_geojson
 */
int32_t s2u_map_geojson(const char* text, size_t n, uint32_t level, uint64_t work, uint64_t* out, size_t room,
                        size_t* len, size_t* outer, s2u_shape_fault* fault);

/** The outer and the inner covering of the polygons in bytes of WKB, by few cells: those of s2u_map_wkb, whose cells
 * that edges meet are of any level down to `deepest`.
 * The outer one has at most `most` cells, or 6 if that is more, and the inner one at most `most`. What s2u_map_wkb
 * says of places is so of them. Level by level, cells that edges meet are split as long as their parts fit: in the
 * outer one those first that have the fewest, in the inner one those that have the most.
 * @param wkb,n WKB or EWKB at any address, in either order of bytes, and how many bytes it has
 * @param deepest 0 (a face) to 30 (a leaf): the deepest level of a cell
 * @param most the most cells of each covering, of which S2U_MOST_FEW are the most that count
 * @param out,room,len the cells of the outer covering and then those of the inner one, how many cells there is room
 *   for, and how many both have
 * @param outer how many of them are the outer covering's
 * @param fault of S2U_SHAPE the fault and its place; no other answer touches it
 * @return S2U_OK
 * @retval S2U_ROOM room is too small; len says what is needed, and outer how many of those are outer's
 * @retval S2U_MEMORY out of memory; nothing has changed
 * @retval S2U_ARGUMENT the level is above 30
 * @retval S2U_SHAPE the bytes have a fault, or a part of the shape is a point or a line
 * @s2{S2RegionCoverer::GetCovering} and `GetInteriorCovering`, with max_level and max_cells
 * @since 1.5
 * @snippet examples.c s2u_map_wkb_up_to
 */
int32_t s2u_map_wkb_up_to(const uint8_t* wkb, size_t n, uint32_t deepest, size_t most, uint64_t* out, size_t room,
                          size_t* len, size_t* outer, s2u_shape_fault* fault);

/** The outer and the inner covering of the polygons in a text of GeoJSON, by few cells: those of s2u_map_geojson, whose
 * cells that edges meet are of any level down to `deepest`.
 * The rest is as for s2u_map_wkb_up_to. The text is a geometry, a feature, or a collection of either.
 * @param text,n the text in UTF-8, and how many bytes it has
 * @param deepest 0 (a face) to 30 (a leaf): the deepest level of a cell
 * @param most the most cells of each covering, of which S2U_MOST_FEW are the most that count
 * @param out,room,len the cells of the outer covering and then those of the inner one, how many cells there is room
 *   for, and how many both have
 * @param outer how many of them are the outer covering's
 * @param fault of S2U_SHAPE the fault and its place; no other answer touches it
 * @return S2U_OK
 * @retval S2U_ROOM room is too small; len says what is needed, and outer how many of those are outer's
 * @retval S2U_MEMORY out of memory; nothing has changed
 * @retval S2U_ARGUMENT the level is above 30
 * @retval S2U_SHAPE the text has a fault, or a part of the shape is a point or a line
 * @s2{S2RegionCoverer::GetCovering} and `GetInteriorCovering`, with max_level and max_cells
 * @since 1.5
 * @snippet examples.c s2u_map_geojson_up_to
 */
int32_t s2u_map_geojson_up_to(const char* text, size_t n, uint32_t deepest, size_t most, uint64_t* out, size_t room,
                              size_t* len, size_t* outer, s2u_shape_fault* fault);

/** The outer and the inner covering of the polygons in bytes of WKB, with edges that are geodesics: the cells of a
 * level. No leaf that a polygon touches or has inside is missing from the outer one, and each leaf of the inner one
 * lies inside a polygon that doesn't touch it: proved, of all corners at most 3 micrometers away from the positions.
 *
 * Leaves within 2.34 leaves of an edge, 2 centimeters, count as touched, which pays for the rounding of corners. What
 * lies opposite all corners of a polygon is outside of it, so its rings may run in either direction. Each polygon is
 * covered by itself. All of them together may have `most` cells in their outer coverings, and as many in their inner
 * ones, where a cell of two polygons counts twice.
 * @param wkb,n WKB or EWKB at any address, in either order of bytes, and how many bytes it has
 * @param level 0 (a face) to 30 (a leaf): the level of the cells, before four that make their parent are replaced by it
 * @param most the most cells of the outer coverings of all polygons together, and of their inner ones, of which
 *   S2U_MOST_COVERING are the most that count
 * @param out,room,len the cells of the outer covering and then those of the inner one, how many cells there is room
 *   for, and how many both have
 * @param outer how many of them are the outer covering's
 * @param fault of S2U_SHAPE the fault and its place; no other answer touches it
 * @return S2U_OK
 * @retval S2U_ROOM room is too small; len says what is needed, and outer how many of those are outer's
 * @retval S2U_MEMORY out of memory; nothing has changed
 * @retval S2U_ARGUMENT the level is above 30
 * @retval S2U_SHAPE the bytes have a fault, a part of the shape is a point or a line, or the corners of a polygon are
 *   too far apart for geodesic edges
 * @retval S2U_MANY the outer coverings of all polygons have together more than most cells, or the inner ones have, or
 *   the edges of a polygon touch too many of the level
 * @s2{S2RegionCoverer::GetCovering} and `GetInteriorCovering` of an `S2Polygon`, with one level
 * @since 1.5
 * @snippet examples.c s2u_geodesic_wkb
 */
int32_t s2u_geodesic_wkb(const uint8_t* wkb, size_t n, uint32_t level, size_t most, uint64_t* out, size_t room,
                         size_t* len, size_t* outer, s2u_shape_fault* fault);

/** The outer and the inner covering of the polygons in a text of GeoJSON, with edges that are geodesics: the cells of a
 * level. The rest is as for s2u_geodesic_wkb. The text is a geometry, a feature, or a collection of either.
 * @param text,n the text in UTF-8, and how many bytes it has
 * @param level 0 (a face) to 30 (a leaf): the level of the cells, before four that make their parent are replaced by it
 * @param most the most cells of the outer coverings of all polygons together, and of their inner ones, of which
 *   S2U_MOST_COVERING are the most that count
 * @param out,room,len the cells of the outer covering and then those of the inner one, how many cells there is room
 *   for, and how many both have
 * @param outer how many of them are the outer covering's
 * @param fault of S2U_SHAPE the fault and its place; no other answer touches it
 * @return S2U_OK
 * @retval S2U_ROOM room is too small; len says what is needed, and outer how many of those are outer's
 * @retval S2U_MEMORY out of memory; nothing has changed
 * @retval S2U_ARGUMENT the level is above 30
 * @retval S2U_SHAPE the text has a fault, a part of the shape is a point or a line, or the corners of a polygon are too
 *   far apart for geodesic edges
 * @retval S2U_MANY the outer coverings of all polygons have together more than most cells, or the inner ones have, or
 *   the edges of a polygon touch too many of the level
 * @s2{S2RegionCoverer::GetCovering} and `GetInteriorCovering` of an `S2Polygon`, with one level
 * @since 1.5
 * @snippet examples.c s2u_geodesic_geojson
 */
int32_t s2u_geodesic_geojson(const char* text, size_t n, uint32_t level, size_t most, uint64_t* out, size_t room,
                             size_t* len, size_t* outer, s2u_shape_fault* fault);

/** @} */

/* ---- shapes that are read ---------------------------------------------------------------------------------------- */

/** @name Shapes that are read
 *
 * The positions, rings and lines of a shape in a text of GeoJSON, or in bytes of WKB or EWKB: proved, from the first
 * byte on. s2union_cover.h covers what they write. Each number is the nearest double. Further coordinates are passed
 * over, and so are members that say nothing of the shape. A line without positions, a ring without any and a point
 * without numbers are none.
 *
 * What is no such shape has a first fault. Of a text these are, in the order of the checks, those of the whole:
 * S2U_FAULT_UTF8, S2U_FAULT_JSON (also of lists and objects in more than 128 others) and S2U_FAULT_TWICE; then, from
 * the first value on, any other. Of bytes the fault that is nearest to the first byte counts.
 *
 * Time grows with the bytes; a text of n bytes takes as long as n log n at most, as its names are sorted. Memory is
 * some dozen bytes for each byte of a text, and less than twice that of the result for WKB.
 * @{ */

/** The most positions of a shape in n bytes of WKB, which take 16 each, and the most rings and lines: each has one
 * position or more. @since 1.5 */
#define S2U_MOST_SHAPE_WKB(n) ((n) / 16)

/** The most positions of a shape in a text of n bytes, of which `[0,0]` takes 5, and the most rings and lines.
 * @since 1.5 */
#define S2U_MOST_SHAPE_GEOJSON(n) ((n) / 5)

/** The shape in bytes of WKB: its positions, and where its rings and lines end.
 * At most S2U_MOST_SHAPE_WKB(n) of each.
 * @param wkb,n WKB or EWKB at any address, in either order of bytes, and how many bytes it has
 * @param places,room,len the positions, one ring after the other, how many there is room for, and how many they are
 * @param rings,rings_room,rings_len the rings of polygons, the lines and the points, how many there is room for, and
 *   how many they are
 * @param fault of S2U_SHAPE the fault and its place; no other answer touches it
 * @return S2U_OK
 * @retval S2U_ROOM room or rings_room is too small; len and rings_len say what is needed, and nothing is written
 * @retval S2U_MEMORY out of memory; nothing has changed
 * @retval S2U_SHAPE the bytes have a fault
 * @since 1.5
 * @snippet examples.c s2u_shape_wkb
 */
int32_t s2u_shape_wkb(const uint8_t* wkb, size_t n, s2u_place* places, size_t room, size_t* len, s2u_ring* rings,
                      size_t rings_room, size_t* rings_len, s2u_shape_fault* fault);

/** The shape in a text of GeoJSON, a geometry, a feature, or a collection of either: its positions, and where its rings
 * and lines end.
 * At most S2U_MOST_SHAPE_GEOJSON(n) of each.
 * @param text,n the text in UTF-8, and how many bytes it has
 * @param places,room,len the positions, one ring after the other, how many there is room for, and how many they are
 * @param rings,rings_room,rings_len the rings of polygons, the lines and the points, how many there is room for, and
 *   how many they are
 * @param fault of S2U_SHAPE the fault and its place; no other answer touches it
 * @return S2U_OK
 * @retval S2U_ROOM room or rings_room is too small; len and rings_len say what is needed, and nothing is written
 * @retval S2U_MEMORY out of memory; nothing has changed
 * @retval S2U_SHAPE the text has a fault
 * @since 1.5
 * @snippet examples.c s2u_shape_geojson
 */
int32_t s2u_shape_geojson(const char* text, size_t n, s2u_place* places, size_t room, size_t* len, s2u_ring* rings,
                          size_t rings_room, size_t* rings_len, s2u_shape_fault* fault);

/** @} */

/* ---- files ------------------------------------------------------------------------------------------------------- */

/** @name Files
 *
 * The bytes that S2's own S2CellUnion::Encode writes in C++, Go and Java: the byte 1, the number of cells in eight
 * bytes, and eight bytes for each, the lowest first. One union has one file: encode is a function of the set, so files
 * may be compared, hashed and used as keys. Any number of cells (S2's decoders take 1,000,000 unless asked
 * otherwise).
 * @{ */

/** The bytes of the file of n cells, exactly. */
#define S2U_FILE_SIZE(n) (9 + UINT64_C(8) * (n))

/** The most cells of a file of this size in bytes. */
#define S2U_MOST_IN_FILE(bytes) ((bytes) < 9 ? 0 : ((bytes) - 9) / 8)

/** [pure] The file of a union.
 * S2U_FILE_SIZE(n) bytes of any list: it writes the numbers as they are.
 * @param ids,n any numbers, and how many they are
 * @param out,room,len the file, how many bytes it has room for, and how many it has
 * @return S2U_OK
 * @retval S2U_ROOM room is too small; len says what is needed
 * @s2{S2CellUnion::Encode}
 * @since 0.1
 * @snippet examples.c s2u_encode
 */
int32_t s2u_encode(const uint64_t* ids, size_t n, uint8_t* out, size_t room, size_t* len);

/** The union in a file, whose cells may be in any order.
 * The first check that fails is answered. If the cells are not a union already, they are normalized in out, if it has
 * room for S2U_MOST_IN_FILE(n) of them: what out[*len .. S2U_MOST_IN_FILE(n)) holds then means nothing. Only if it
 * has less room, the call takes memory.
 * @param bytes,n a file at any address, and how many bytes it has
 * @param out,room,len the result, how many cells it has room for, and how many it has
 * @return S2U_OK
 * @retval S2U_ROOM room is too small; len says what is needed
 * @retval S2U_FILE_SHORT bytes are missing
 * @retval S2U_FILE_VERSION the first byte is not 1
 * @retval S2U_FILE_TRAILING bytes follow the last cell
 * @retval S2U_FILE_CELL a number in the file is not the identifier of a cell
 * @retval S2U_MEMORY out of memory; nothing has changed
 * @s2{S2CellUnion::Decode}
 * @since 0.1
 * @snippet examples.c s2u_decode
 */
int32_t s2u_decode(const uint8_t* bytes, size_t n, uint64_t* out, size_t room, size_t* len);

/** [pure] Whether bytes are the file that s2u_encode writes of some union. N steps.
 * @param bytes,n a file at any address, and how many bytes it has
 * @return 1 if they are; 0 of another file that s2u_decode takes
 * @retval S2U_FILE_SHORT bytes are missing
 * @retval S2U_FILE_VERSION the first byte is not 1
 * @retval S2U_FILE_TRAILING bytes follow the last cell
 * @retval S2U_FILE_CELL a number in the file is not the identifier of a cell
 * @since 0.1
 * @snippet examples.c s2u_file_check
 */
int32_t s2u_file_check(const uint8_t* bytes, size_t n);

/** [pure] How many cells a file has.
 * @param bytes,n a file at any address, and how many bytes it has
 * @param count how many
 * @return S2U_OK
 * @retval S2U_FILE_SHORT bytes are missing
 * @retval S2U_FILE_VERSION the first byte is not 1
 * @retval S2U_FILE_TRAILING bytes follow the last cell
 * @s2{S2CellUnion::num_cells}
 * @since 0.1
 * @snippet examples.c s2u_file_count
 */
int32_t s2u_file_count(const uint8_t* bytes, size_t n, uint64_t* count);

/** [pure] How many leaves the union in a file has. N steps.
 * @param bytes,n a file at any address, and how many bytes it has
 * @param leaves how many
 * @return S2U_OK
 * @retval S2U_FILE_SHORT bytes are missing
 * @retval S2U_FILE_VERSION the first byte is not 1
 * @retval S2U_FILE_TRAILING bytes follow the last cell
 * @s2{S2CellUnion::LeafCellsCovered}
 * @since 0.1
 * @snippet examples.c s2u_file_leaf_count
 */
int32_t s2u_file_leaf_count(const uint8_t* bytes, size_t n, uint64_t* leaves);

/** [pure] The cell at a place of a file.
 * @param bytes,n a file at any address, and how many bytes it has
 * @param k below the number of cells
 * @param id the cell
 * @return S2U_OK
 * @retval S2U_FILE_SHORT bytes are missing
 * @retval S2U_FILE_VERSION the first byte is not 1
 * @retval S2U_FILE_TRAILING bytes follow the last cell
 * @retval S2U_ARGUMENT k is too great
 * @s2{S2CellUnion::cell_id}
 * @since 0.1
 * @snippet examples.c s2u_file_cell
 */
int32_t s2u_file_cell(const uint8_t* bytes, size_t n, uint64_t k, uint64_t* id);

/** [pure] Whether all leaves of a cell are in the union in a file. Log n steps.
 * @param bytes,n a file at any address, and how many bytes it has
 * @param cell any number
 * @return 1 or 0
 * @retval S2U_FILE_SHORT bytes are missing
 * @retval S2U_FILE_VERSION the first byte is not 1
 * @retval S2U_FILE_TRAILING bytes follow the last cell
 * @retval S2U_NO_CELL the number is not the identifier of a cell
 * @s2{S2CellUnion::Contains}
 * @since 0.1
 * @snippet examples.c s2u_file_contains_cell
 */
int32_t s2u_file_contains_cell(const uint8_t* bytes, size_t n, uint64_t cell);

/** [pure] Whether all leaves of each cell are in the union in a file, as s2u_contains_cells.
 * @param bytes,n a file at any address, and how many bytes it has
 * @param cells,m any numbers, and how many they are
 * @param answers,room 1 or 0 for each, and how many there is room for
 * @param bad the first k for which cells[k] is not a cell; else m; 0 after a refusal of the file
 * @return S2U_OK
 * @retval S2U_FILE_SHORT bytes are missing; answers is not touched
 * @retval S2U_FILE_VERSION the first byte is not 1; likewise
 * @retval S2U_FILE_TRAILING bytes follow the last cell; likewise
 * @retval S2U_NO_CELL one is not a cell; likewise
 * @retval S2U_ROOM room is less than m; likewise
 * @s2{S2CellUnion::Contains}
 * @since 1.3
 * @snippet examples.c s2u_file_contains_cells
 */
int32_t s2u_file_contains_cells(const uint8_t* bytes, size_t n, const uint64_t* cells, size_t m, uint8_t* answers,
                                size_t room, size_t* bad);

/** [pure] Whether the union in a file shares a leaf with a cell. Log n steps.
 * @param bytes,n a file at any address, and how many bytes it has
 * @param cell any number
 * @return 1 or 0
 * @retval S2U_FILE_SHORT bytes are missing
 * @retval S2U_FILE_VERSION the first byte is not 1
 * @retval S2U_FILE_TRAILING bytes follow the last cell
 * @retval S2U_NO_CELL the number is not the identifier of a cell
 * @s2{S2CellUnion::Intersects}
 * @since 0.1
 * @snippet examples.c s2u_file_intersects_cell
 */
int32_t s2u_file_intersects_cell(const uint8_t* bytes, size_t n, uint64_t cell);

/** [pure] Whether all leaves of the union in ys are in that in xs.
 * @param xs,nx a file, and how many bytes it has
 * @param ys,ny another, likewise
 * @return 1 or 0
 * @retval S2U_FILE_SHORT bytes are missing
 * @retval S2U_FILE_VERSION the first byte is not 1
 * @retval S2U_FILE_TRAILING bytes follow the last cell
 * @s2{S2CellUnion::Contains}
 * @since 0.1
 * @snippet examples.c s2u_file_contains
 */
int32_t s2u_file_contains(const uint8_t* xs, size_t nx, const uint8_t* ys, size_t ny);

/** [pure] Whether the unions in two files share a leaf.
 * @param xs,nx a file, and how many bytes it has
 * @param ys,ny another, likewise
 * @return 1 or 0
 * @retval S2U_FILE_SHORT bytes are missing
 * @retval S2U_FILE_VERSION the first byte is not 1
 * @retval S2U_FILE_TRAILING bytes follow the last cell
 * @s2{S2CellUnion::Intersects}
 * @since 0.1
 * @snippet examples.c s2u_file_intersects
 */
int32_t s2u_file_intersects(const uint8_t* xs, size_t nx, const uint8_t* ys, size_t ny);

/** [pure] s2u_ancestors of the union in a file, with no copy of it.
 * @param bytes,n a file at any address, and how many bytes it has
 * @param out,room,len the result, how many cells it has room for, and how many it has
 * @return S2U_OK
 * @retval S2U_FILE_SHORT bytes are missing
 * @retval S2U_FILE_VERSION the first byte is not 1
 * @retval S2U_FILE_TRAILING bytes follow the last cell
 * @retval S2U_ROOM room is too small; len says what is needed
 * @since 0.1
 * @snippet examples.c s2u_file_ancestors
 */
int32_t s2u_file_ancestors(const uint8_t* bytes, size_t n, uint64_t* out, size_t room, size_t* len);

/** @} */

/* ---- memory for a host that has its own -------------------------------------------------------------------------- */

/** @name Memory for a host that has its own
 *
 * Link libs2union_noheap.a in place of libs2union.a and define these three. They must not jump out of the call (not by
 * longjmp for a host's error either). `size` may be 0: any address will do. A block whose size is divisible by 16 (8)
 * is aligned to 16 (8). `ok` is 1, or 0 for out of memory; `at` is never NULL.
 * @{ */

/** A block of memory: ok is 1, or 0 for out of memory, and at its place. @since 0.1 */
typedef struct s2u_block {
  uint64_t ok; /**< 1, or 0 for out of memory */
  void* at;    /**< the place, never NULL */
} s2u_block;

/** Takes a block of memory. The host defines it.
 * @param size how many bytes, 0 or more
 * @param align a power of two
 * @return the block
 * @since 0.1
 */
s2u_block s2u_heap_take(size_t size, size_t align);

/** Takes a larger block in place of one, and keeps what that held. The host defines it.
 * @param at,old_size,align the block, as it was taken
 * @param size how many bytes, more than old_size
 * @return the block
 * @since 0.1
 */
s2u_block s2u_heap_grow(void* at, size_t old_size, size_t size, size_t align);

/** Gives a block back. The host defines it.
 * @param at a block
 * @since 0.1
 */
void s2u_heap_give_back(void* at);

/** @} */

/** A text for a status, for messages.
 * @param status any number
 * @return a text that lasts
 * @since 0.1
 * @snippet examples.c s2u_status_text
 */
static inline const char* s2u_status_text(int32_t status) {
  switch (status) {
    case S2U_ROOM: return "too little room";
    case S2U_MEMORY: return "out of memory";
    case S2U_NO_CELL: return "not a cell";
    case S2U_NO_UNION: return "not a normalized list of cells";
    case S2U_ARGUMENT: return "argument out of range";
    case S2U_MANY: return "too many cells";
    case S2U_FILE_SHORT: return "union file: bytes are missing";
    case S2U_FILE_VERSION: return "union file: unknown version";
    case S2U_FILE_TRAILING: return "union file: bytes after the last cell";
    case S2U_FILE_CELL: return "union file: a number that is not a cell";
    case S2U_CORNER: return "a corner of a polygon is no direction, or lies opposite the next one";
    case S2U_RING: return "a ring of a polygon has a wrong end or fewer than three corners";
    case S2U_SHAPE: return "a text or bytes are no shape of polygons";
    default: return status >= 0 ? "ok" : "unknown refusal";
  }
}

/** A text for a fault of a shape, for messages.
 * @param name any number: the field `name` of s2u_shape_fault
 * @return a text that lasts
 * @since 1.5
 * @snippet examples.c s2u_fault_text
 */
static inline const char* s2u_fault_text(size_t name) {
  switch (name) {
    case S2U_FAULT_TRUNCATED: return "bytes are missing";
    case S2U_FAULT_TRAILING: return "bytes after the geometry";
    case S2U_FAULT_ORDER: return "a geometry begins with the byte 0 or 1";
    case S2U_FAULT_TYPE: return "no type of geometry";
    case S2U_FAULT_UNCOVERED: return "a geometry that is no point, line, polygon or collection of them";
    case S2U_FAULT_SRID: return "an SRID that is not 4326";
    case S2U_FAULT_MEMBER: return "a geometry of another type than the list that it is in";
    case S2U_FAULT_DEEP: return "too many collections in each other";
    case S2U_FAULT_COUNT: return "a count beyond the end of the bytes";
    case S2U_FAULT_FEW: return "a ring has fewer than four positions";
    case S2U_FAULT_OPEN: return "a ring is open: its last position is not its first";
    case S2U_FAULT_NOT_FINITE: return "a coordinate is infinite or not a number";
    case S2U_FAULT_UTF8: return "the text is not UTF-8";
    case S2U_FAULT_JSON: return "the text is not JSON";
    case S2U_FAULT_TWICE: return "an object has a member twice";
    case S2U_FAULT_NO_TYPE: return "an object without a type";
    case S2U_FAULT_MISSING: return "a list of coordinates, geometries or features is missing";
    case S2U_FAULT_POSITION: return "a position is a longitude and a latitude";
    case S2U_FAULT_RANGE:
      return "a longitude is from -540 to 540 and a latitude from -90 to 90 (the longitude first)";
    case S2U_FAULT_NO_INSIDE: return "a point or a line has no inside";
    case S2U_FAULT_NO_MAP: return "a position is no place, or a ring no ring";
    case S2U_FAULT_LONG_EDGE: return "an edge is 128 degrees or longer";
    case S2U_FAULT_SPREAD: return "no half of the sphere has all corners of a polygon";
    default: return "unknown fault";
  }
}

#ifdef __cplusplus
}
#endif
#endif
