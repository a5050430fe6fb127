import java.sql.Connection;
import java.sql.DriverManager;
import java.sql.PreparedStatement;
import java.sql.ResultSet;
import java.sql.SQLException;
import s2union.CellUnion;

/**
 * Regions through JDBC: each union goes into a column and comes back, and cells do as numbers. Usage: Drivers URL. The
 * last line is 'N passed, M failed'.
 */
public class Drivers {
  private static int passed;
  private static int failed;

  private static void check(boolean holds, String what) {
    if (holds) passed++;
    else failed++;
    if (!holds) System.out.println("FAILED " + what);
  }

  private static void goesAndComes(Connection connection, CellUnion union, long leaf) throws SQLException {
    try (PreparedStatement insert = connection.prepareStatement("INSERT INTO woods VALUES (?::bytea::s2union, ?)")) {
      insert.setBytes(1, union.encode());
      insert.setLong(2, leaf);
      check(insert.executeUpdate() == 1, "insert " + union);
    }
    String query = "SELECT region::bytea AS region, region::text, leaf FROM woods WHERE region = ?::bytea::s2union";
    try (PreparedStatement select = connection.prepareStatement(query)) {
      select.setBytes(1, union.encode());
      try (ResultSet row = select.executeQuery()) {
        check(row.next(), "no row of " + union);
        check(CellUnion.decode(row.getBytes("region")).equals(union), "bytes of " + union);
        check(row.getString(2).equals(union.toString()), row.getString(2) + " is not " + union);
        check(row.getLong("leaf") == leaf, "leaf " + leaf);
        check(!row.next(), "two rows of " + union);
      }
    }
  }

  public static void main(String[] words) throws SQLException {
    try (Connection connection = DriverManager.getConnection(words[0], "postgres", "")) {
      connection.createStatement().execute("CREATE TEMP TABLE woods (region s2union, leaf bigint)");
      long face = 0x1000000000000000L;
      CellUnion[] unions = {CellUnion.of(), CellUnion.of(face), CellUnion.of(face, 5 * face, 0xb000000000000000L)};
      for (int k = 0; k < unions.length; k++) goesAndComes(connection, unions[k], 0xbfffffffffffffffL - 2 * k);
      try (PreparedStatement wrong = connection.prepareStatement("SELECT ?::bytea::s2union")) {
        wrong.setBytes(1, new byte[] {2});
        wrong.executeQuery();
        check(false, "bytes of no union");
      } catch (SQLException error) {
        check(error.getSQLState().equals("22P03"), error.getSQLState());
      }
    }
    System.out.println(passed + " passed, " + failed + " failed");
    if (failed > 0) System.exit(1);
  }
}
