/** What a test of Java's has checked so far, and its last line. */
abstract class Checks {
  private static int passed;
  private static int failed;

  static synchronized void check(boolean holds, String what) {
    if (holds) {
      passed++;
    } else {
      failed++;
      System.out.println("FAILED: " + what);
    }
  }

  static int failed() {
    return failed;
  }

  /** Says 'N passed, M failed', and ends. */
  static void end() {
    System.out.println(passed + " passed, " + failed + " failed");
    System.exit(failed == 0 ? 0 : 1);
  }
}
