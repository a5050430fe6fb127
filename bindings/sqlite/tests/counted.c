/* Counts the cells that the library looks at one by one for the extension for SQLite, and the bytes that this compares.
 * It is linked into the extension with --wrap for each call below. */
#include <s2union.h>

__attribute__((visibility("default"))) uint64_t s2_steps, s2_compared;

int32_t __real_s2u_file_check(const uint8_t* bytes, size_t n);
int32_t __wrap_s2u_file_check(const uint8_t* bytes, size_t n);
int32_t __real_s2u_decode(const uint8_t* bytes, size_t n, uint64_t* out, size_t room, size_t* len);
int32_t __wrap_s2u_decode(const uint8_t* bytes, size_t n, uint64_t* out, size_t room, size_t* len);
int32_t __real_s2u_encode(const uint64_t* ids, size_t n, uint8_t* out, size_t room, size_t* len);
int32_t __wrap_s2u_encode(const uint64_t* ids, size_t n, uint8_t* out, size_t room, size_t* len);
int __real_memcmp(const void* some, const void* others, size_t n);
int __wrap_memcmp(const void* some, const void* others, size_t n);

int32_t __wrap_s2u_file_check(const uint8_t* bytes, size_t n) {
  s2_steps += S2U_MOST_IN_FILE(n);
  return __real_s2u_file_check(bytes, n);
}

int32_t __wrap_s2u_decode(const uint8_t* bytes, size_t n, uint64_t* out, size_t room, size_t* len) {
  s2_steps += S2U_MOST_IN_FILE(n);
  return __real_s2u_decode(bytes, n, out, room, len);
}

int32_t __wrap_s2u_encode(const uint64_t* ids, size_t n, uint8_t* out, size_t room, size_t* len) {
  s2_steps += n;
  return __real_s2u_encode(ids, n, out, room, len);
}

int __wrap_memcmp(const void* some, const void* others, size_t n) {
  s2_compared += n;
  return __real_memcmp(some, others, n);
}
