/* Refuses each allocation of SQLite's heap in turn, in queries of the extensions: the query is out of memory, or has
 * the right answer or the right error, and all memory is freed. Usage: memory EXTENSION.. */
#define SQLITE_CORE 1 /* this program calls SQLite itself; of sqlite3ext.h it wants what extensions are given */
#include "../../../tests/refuse.h"
#include <dlfcn.h>
#include <sqlite3ext.h>
#include <stdio.h>
#include <stdlib.h>
#include <string.h>

/* The polygon (0 0, 1 0, 1 1, 0 0) in WKB. */
#define ZERO "0000000000000000"
#define ONE "000000000000F03F"
#define SHAPE "x'01030000000100000004000000" ZERO ZERO ONE ZERO ONE ONE ZERO ZERO "'"

static const char* const queries[] = {
  "SELECT s2_union('1 04', '3'), s2_intersection('1', '04 0c'), s2_difference('1', '0000000000000001')",
  "SELECT s2_normalise(x'010200000000000000000000000000001c0000000000000014'), s2_range('04', '3')",
  "SELECT s2_tokens(part), s2_count(part), s2_leaves(part), s2_contains('1', part), s2_intersects(part, '04') "
  "FROM parts",
  "SELECT s2_contains(x'010200000000000000000000000000001c0000000000000014', part) FROM parts",
  "SELECT hex(s2_union(part, '3')), s2_inner(part, 5), s2_outer(0, 5, 9000, 7, 9000, 24) FROM parts",
  "SELECT s2_debug('04'), s2_token('1/0'), s2_parent('04', 0), s2_cell('04'), s2_leaf(1, 2, 3)",
  "SELECT s2_is_cell(CAST(x'3034' AS TEXT)), s2_is_cell(CAST(x'3035' AS TEXT) || 'x')",
  "SELECT id % 2, s2_tokens(s2_union_agg(part)) FROM parts GROUP BY 1",
  "SELECT s2_tokens(s2_symmetric_difference(part, '04 0c')), s2_complement(part) FROM parts WHERE id < 4",
  "SELECT id % 2, s2_tokens(s2_intersection_agg(part)) FROM parts WHERE id > 1 GROUP BY 1",
  "SELECT s2_count(s2_union_agg(part) OVER (ORDER BY id)) FROM parts",
  "SELECT cell, range_max FROM s2_cells('04 14', 3)",
  "SELECT count(cell), max(cell) FROM s2_cells('04 0001 1d', 7, 2)",
  "SELECT cell, range_min FROM s2_ancestors('041 14')",
  "SELECT cell, x, level FROM parts, s2_cells(part, id) WHERE id < 3 AND level > 0",
  "SELECT cell FROM s2_cells WHERE x = '04' AND level = 2 OR x = '14' AND level = 2",
  "SELECT a.x, b.x, b.cell FROM s2_cells('04 0c', 1) AS a FULL JOIN s2_cells('0c 14', 1) AS b ON a.cell = b.cell",
  "SELECT tile, hex(part) FROM s2_tiles('04 0001 1d', 2)",
  "SELECT tile, hex(t.part), x FROM parts, s2_tiles(parts.part, 1) AS t WHERE id < 3",
  "SELECT hex(value), count(*) FROM s2_prepared('04 14'), parts WHERE s2_intersects(value, part)",
  "SELECT name, arguments, result FROM s2_functions WHERE extension = 's2union_geo'",
  "SELECT hex(s2_map_outer(" SHAPE ", 3)), s2_tokens(s2_map_inner(" SHAPE ", 4))",
  "SELECT s2_count(s2_map_outer('{\"type\": \"Polygon\", \"coordinates\": [[[0,0], [9,2], [5,8], [0,0]]]}', 3))",
  "SELECT s2_map_outer('{\"type\": \"Polygon\", \"coordinates\": [[[0,0], [9,2], [5,8]]]}', 3)",
  "SELECT s2_map_inner(" SHAPE " || x'00', 3)",
  "SELECT s2_map_outer(" SHAPE ", 31)",
  "SELECT hex(s2_geodesic_outer(" SHAPE ", 3)), s2_tokens(s2_geodesic_inner(" SHAPE ", 4))",
  "SELECT s2_longitude(s2_leaf_at(2.3522, 48.8566)), s2_latitude('1/0')",
  "SELECT s2_leaf_at('north', 0)",
  "SELECT hex(s2_covering(x'0101000000000000000000F03F0000000000000040', 8, 9))",
  "SELECT hex(s2_interior(x'0103', 8))",
  "SELECT s2_latitude(x'04')",
  "SELECT s2_covers(" SHAPE ", 0.5, 0.5), s2_covers(" SHAPE ", 1, 0), hex(s2_clip(" SHAPE ", '1/0'))",
  "SELECT s2_covers(x'0103', 1, 1)",
  "SELECT s2_clip(" SHAPE ", 2)",
  "SELECT tile, hex(part), hex(sure), hex(clip), level, max_cells FROM s2_join_tiles(" SHAPE ", 6, 9)",
  "SELECT count(*) FROM s2_join_tiles(" SHAPE ", 31)",
  "SELECT count(*) FROM s2_join_tiles(x'0103', 3)",
  NULL,
};

/* Asked while SQLite has no memory for a copy of a text that a function reads. */
static const char* const of_texts[] = {
  "SELECT s2_is_cell('04')", "SELECT s2_cell('0/12')", "SELECT s2_count('04 0c')", "SELECT s2_contains('1', '04')",
  "SELECT s2_parent('04', 31)", "SELECT s2_longitude('04')", "SELECT s2_latitude('zz')", "SELECT s2_union_agg('04')",
  "SELECT s2_map_outer('{}', 3)",
  NULL,
};

static int texts_refused;
static sqlite3_api_routines api;

static const unsigned char* value_text(sqlite3_value* v) { return texts_refused ? NULL : sqlite3_value_text(v); }

/* What SQLite calls when it opens a database: keeps the calls that it has for extensions. */
static int take_calls(sqlite3* db, char** error, const sqlite3_api_routines* calls) {
  (void)db, (void)error;
  api = *calls;
  api.value_text = value_text;
  return SQLITE_OK;
}

static int loaded(sqlite3* db, const char* path) {
  char name[1000], *error = NULL;
  int (*begin)(sqlite3*, char**, const sqlite3_api_routines*);
  snprintf(name, sizeof name, "%s.so", path);
  void* extension = dlopen(name, RTLD_NOW);
  *(void**)&begin = extension ? dlsym(extension, "sqlite3_extension_init") : NULL;
  return begin && begin(db, &error, &api) == SQLITE_OK;
}

/* The values of a query in hexadecimal, or its error, or NULL and the status if that is another one. */
static char* said(sqlite3* db, const char* query, int* status) {
  static char text[100000];
  size_t n = 0;
  sqlite3_stmt* statement = NULL;
  *status = sqlite3_prepare_v2(db, query, -1, &statement, NULL);
  while (*status == SQLITE_OK || *status == SQLITE_ROW) {
    *status = sqlite3_step(statement);
    for (int k = 0; *status == SQLITE_ROW && k < sqlite3_column_count(statement); k++) {
      const void* at = sqlite3_column_blob(statement, k);
      int size = sqlite3_column_bytes(statement, k);
      if (!at && size > 0) *status = SQLITE_NOMEM;
      for (int b = 0; b < size; b++) n += (size_t)sprintf(text + n, "%02x", ((const unsigned char*)at)[b]);
      text[n++] = '|';
    }
  }
  text[n] = '\0';
  if (*status == SQLITE_ERROR) snprintf(text, sizeof text, "%s", sqlite3_errmsg(db));
  sqlite3_finalize(statement);
  return *status == SQLITE_DONE || *status == SQLITE_ERROR ? text : NULL;
}

static size_t passed, failed;

/* Each allocation of the queries of a list refused in turn. */
static void refuse_each(sqlite3* db, const char* const* query) {
  for (; *query; query++) {
    int status;
    said(db, *query, &status);
    refuse_memory(0);
    char* text = said(db, *query, &status);
    long allocations = refuse_memory(0);
    if (!text) printf("%s: %s\n", *query, sqlite3_errmsg(db)), exit(2);
    if (allocations == 0) printf("%s: no allocation is counted\n", *query), exit(2);
    char* right = strdup(text);
    for (long turn = 1; turn <= allocations; turn++) {
      refuse_memory(turn);
      text = said(db, *query, &status);
      refuse_memory(0);
      int holds = text ? strcmp(text, right) == 0 : status == SQLITE_NOMEM;
      if (!holds) printf("FAILED: allocation %ld of %s: %d %s\n", turn, *query, status, sqlite3_errmsg(db));
      if (holds) passed++;
      else failed++;
      said(db, *query, &status);
    }
    free(right);
  }
}

static void refuse_texts(sqlite3* db) {
  for (const char* const* query = of_texts; *query; query++) {
    int status;
    texts_refused = 1;
    said(db, *query, &status);
    texts_refused = 0;
    if (status != SQLITE_NOMEM) printf("FAILED: no memory for a text of %s: %d\n", *query, status), failed++;
    else passed++;
  }
}

int main(int argc, char** argv) {
  sqlite3* db;
  sqlite3_config(SQLITE_CONFIG_LOOKASIDE, 0, 0);
  sqlite3_auto_extension((void (*)(void))take_calls);
  if (argc < 2 || sqlite3_open(":memory:", &db) != SQLITE_OK) return 2;
  sqlite3_reset_auto_extension();
  for (int k = 1; k < argc; k++)
    if (!loaded(db, argv[k])) return 2;
  sqlite3_exec(db, "CREATE TABLE parts(id, part);"
               "INSERT INTO parts VALUES (1, s2_normalise('1')), (2, '0c 14'), (3, '3'),"
               "(4, s2_difference('1', '0000000000000001')), (5, s2_difference('3', '2000000000000001'))",
               NULL, NULL, NULL);
  refuse_each(db, queries);
  refuse_texts(db);
  sqlite3_close(db);
  if (sqlite3_memory_used() != 0) printf("FAILED: %lld bytes stay taken\n", (long long)sqlite3_memory_used()), failed++;
  printf("%zu passed, %zu failed\n", passed, failed);
  return failed != 0;
}
