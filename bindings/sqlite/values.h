/* What both extensions take from a value of SQLite: a status of the library. The caller has SQLite's calls. */
#ifndef S2UNION_SQLITE_VALUES_H
#define S2UNION_SQLITE_VALUES_H

#include "s2union.h"

static inline int32_t text_of(sqlite3_value* v, const char** text, size_t* n) {
  *text = (const char*)sqlite3_value_text(v);
  *n = (size_t)sqlite3_value_bytes(v);
  return *text ? S2U_OK : S2U_MEMORY;
}

static inline int32_t bytes_of(sqlite3_value* v, const uint8_t** bytes, size_t* n) {
  *bytes = sqlite3_value_blob(v);
  *n = (size_t)sqlite3_value_bytes(v);
  return *bytes || *n == 0 ? S2U_OK : S2U_MEMORY; /* NULL with a length: a zeroblob that is too large to make */
}

#endif
