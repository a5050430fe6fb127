/**
 * The cell unions of S2, proved: a set of leaf cells of the sphere as the one normalized list of cells that covers it.
 * {@link s2union.CellUnion} is such a set, {@link s2union.CellId} has the calls for single cells, which are numbers,
 * and {@link s2union.UnionFile} answers from the bytes of a file. A wrong value raises a {@link s2union.Refusal}.
 *
 * <p>All work is done by the library libs2union, whose every call is proved.
 *
 * @since 1.1
 */
package s2union;
