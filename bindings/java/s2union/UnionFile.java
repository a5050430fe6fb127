package s2union;

/**
 * The bytes of a union file, which answer as they are. It never changes, so threads may share it.
 *
 * @since 1.1
 */
public final class UnionFile {
  private final byte[] bytes;

  /**
   * Copies the bytes and checks the copy, once: they must be the file that {@code encode} makes of some union.
   * S2: {@code S2CellUnion::Decode}.
   *
   * <pre>{@code
   * new UnionFile(CellUnion.fromTokens("04").encode()).size() // 1
   * }</pre>
   *
   * @param bytes the bytes of a file
   * @throws Refusal {@link Refusal.Kind#NO_UNION} if the cells of the file are not normalized: {@code decode} takes
   *     it, or {@link Refusal.Kind#FILE_SHORT} if bytes are missing, or {@link Refusal.Kind#FILE_VERSION} if the
   *     first byte is not 1, or {@link Refusal.Kind#FILE_TRAILING} if bytes follow the last cell, or {@link
   *     Refusal.Kind#FILE_CELL} if a number in it is no cell
   * @since 1.1
   */
  public UnionFile(byte[] bytes) {
    byte[] copy = bytes.clone();
    if (!check(copy)) throw new Refusal(Refusal.NO_UNION, 0);
    this.bytes = copy;
  }

  // methods: all others

  /**
   * The union of its cells, copied.
   * S2: {@code S2CellUnion::Decode}.
   *
   * <pre>{@code
   * new UnionFile(CellUnion.fromTokens("04").encode()).toUnion() // 04
   * }</pre>
   *
   * @return the union
   * @since 1.1
   */
  public CellUnion toUnion() {
    return CellUnion.decode(bytes);
  }
}
