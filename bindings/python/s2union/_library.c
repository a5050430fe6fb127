/* The calls of s2union.h as functions of Python, by the limited API: one module for each CPython from 3.8 on.
 *
 * It has Python's side of a call alone: numbers, lists, texts and refusals. calls.h, which tools/methods.py makes, has
 * the calls whose arguments say all that there is to say; the others are below. What a function takes:
 *   a cell    an int, or what has an __index__, of 64 bits without or with a sign; a number of its own range likewise;
 *   a list    bytes or a memoryview without gaps, which nobody may write during the call, and nobody can release; a
 *             text: bytes or a str.
 * One that makes a list takes before these what a refusal is to say, and the room that is tried first, and answers
 * bytes. Calls that may read much give up the interpreter's lock. The module has no state but where the library is, so
 * each interpreter has its own. places.h has the calls of s2union_geo. */
#define PY_SSIZE_T_CLEAN
#define Py_LIMITED_API 0x03080000
#include <Python.h>

#ifndef S2UNION_WITHIN
#include <dlfcn.h>
#endif
#ifdef __linux__
#include <sys/times.h>
#include <unistd.h>
#endif
#include <inttypes.h>
#include <stdarg.h>
#include <stdbool.h>
#include <stdio.h>
#include <string.h>

#include <s2union.h>
#include <s2union_host.h>

/* Py_buffer, which has been the same in each Python from 3.3 on, and is in the limited API from 3.11 on. */
typedef struct Buffer {
  void* at;
  PyObject* holder;
  Py_ssize_t size, unit;
  int is_readonly, dimensions;
  char* format;
  Py_ssize_t *shape, *strides, *suboffsets;
  void* internal;
} Buffer;
PyAPI_FUNC(int) PyObject_GetBuffer(PyObject* object, Buffer* buffer, int flags);
PyAPI_FUNC(void) PyBuffer_Release(Buffer* buffer);

/* The oldest names of what opens a library, which are the same in all C libraries: so that the module runs with those
 * before 2.34 too, where Python itself brings them. */
#if defined(__GLIBC__) && defined(__x86_64__)
#define OLDEST "GLIBC_2.2.5"
#elif defined(__GLIBC__) && defined(__aarch64__)
#define OLDEST "GLIBC_2.17"
#endif
#if defined(OLDEST) && !defined(S2UNION_WITHIN)
__asm__(".symver dlopen, dlopen@" OLDEST "\n.symver dlsym, dlsym@" OLDEST "\n.symver dlerror, dlerror@" OLDEST);
#endif

enum { LAST_PLACE = 1073741823 }; /* of a leaf on its face, in both directions: 2^30 - 1 */

typedef struct List {
  Buffer buffer; /* of a memoryview, which can't be released meanwhile, nor may what it is of be resized */
  const void* at;
  size_t n;
} List;

typedef struct Parts {
  List all;
  size_t count, unit, done, n, bad; /* bad: the first number of the part that has no entry, or n */
  uint64_t at[2048];
} Parts;

typedef struct Room {
  void* at;
  size_t n, unit;
} Room;

/* ---- what is given */

#define WORD(k) PyTuple_GetItem(words, k)

/* Before the declaration of a list, or of one in parts, that is {0} at first: its buffer is held until the function
 * ends, so also while others have the interpreter's lock. */
#define HELD __attribute__((cleanup(let_go)))

static void let_go(void* list) { PyBuffer_Release(&((List*)list)->buffer); }

static bool has(PyObject* words, Py_ssize_t n) {
  if (PyTuple_Size(words) == n) return true;
  PyErr_Format(PyExc_TypeError, "%zd arguments are wanted, not %zd", n, PyTuple_Size(words));
  return false;
}

/* An attribute by one name for all calls: types keep the names that they were asked for. */
static PyObject* attribute(PyObject* object, const char* name) {
  PyObject* interned = PyUnicode_InternFromString(name);
  PyObject* found = interned ? PyObject_GetAttr(object, interned) : NULL;
  Py_XDECREF(interned);
  return found;
}

/* The exception of a status, which _errors.py has. */
static PyObject* exception_of(int32_t status) {
  PyObject* errors = PyImport_ImportModule("s2union._errors");
  PyObject* of_status = errors ? attribute(errors, "of_status") : NULL;
  PyObject* kind = of_status ? PyObject_CallFunction(of_status, "i", (int)status) : NULL;
  Py_XDECREF(of_status);
  Py_XDECREF(errors);
  return kind;
}

/* Raises the exception of a status with a text. */
static PyObject* raise_refusal(int32_t status, const char* format, ...) {
  PyObject* kind = exception_of(status);
  va_list words;
  va_start(words, format);
  if (kind) PyErr_FormatV(kind, format, words);
  va_end(words);
  Py_XDECREF(kind);
  return NULL;
}

static bool refuse_type(const char* what, const char* wanted, PyObject* given) {
  PyObject* name = attribute((PyObject*)Py_TYPE(given), "__name__");
  if (name) PyErr_Format(PyExc_TypeError, "%s is %s, not %U", what, wanted, name);
  Py_XDECREF(name);
  return false;
}

/* Whether it is numpy's own bool, which has an __index__ in some versions. It may leave an error of the object. */
static bool is_bool_of_numpy(PyObject* given) {
  PyObject* type = attribute(given, "dtype");
  PyObject* kind = type ? attribute(type, "kind") : NULL;
  bool is_bool = kind && PyUnicode_Check(kind) && PyUnicode_CompareWithASCIIString(kind, "b") == 0;
  if (!kind && PyErr_ExceptionMatches(PyExc_AttributeError)) PyErr_Clear();
  Py_XDECREF(kind);
  Py_XDECREF(type);
  return is_bool;
}

static PyObject* index_of(PyObject* given, const char* what) {
  if (PyBool_Check(given) || is_bool_of_numpy(given)) {
    PyErr_Format(PyExc_TypeError, "%s is an int, not a bool", what);
    return NULL;
  }
  PyObject* index = PyErr_Occurred() ? NULL : PyNumber_Index(given);
  if (!index && PyErr_ExceptionMatches(PyExc_TypeError)) {
    PyErr_Clear();
    refuse_type(what, "an int", given);
  }
  return index;
}

/* The 64 bits of an int, and whether it is below 0; false for one that doesn't fit in 64 bits. */
static bool bits_of(PyObject* index, uint64_t* bits, bool* is_below) {
  int overflow;
  *bits = (uint64_t)PyLong_AsLongLongAndOverflow(index, &overflow);
  *is_below = overflow < 0 || (overflow == 0 && (int64_t)*bits < 0);
  if (overflow <= 0) return overflow == 0;
  *bits = PyLong_AsUnsignedLongLong(index);
  if (!PyErr_Occurred()) return true;
  PyErr_Clear();
  return false;
}

static bool as_number(PyObject* given, const char* what, uint64_t least, uint64_t most, uint64_t* number) {
  bool is_below, is_int = PyLong_CheckExact(given);
  PyObject* index = is_int ? given : index_of(given, what);
  if (!index) return false;
  bool fits = bits_of(index, number, &is_below) && !is_below && least <= *number && *number <= most;
  if (!fits) raise_refusal(S2U_ARGUMENT, "%s is out of range: %S", what, index);
  if (!is_int) Py_DECREF(index);
  return fits;
}

/* The 64 bits of what may be a cell. No cell can be read in two ways. */
static bool as_cell(PyObject* given, uint64_t* bits) {
  bool is_below, is_int = PyLong_CheckExact(given);
  PyObject* index = is_int ? given : index_of(given, "a cell");
  if (!index && PyUnicode_Check(given))
    PyErr_SetString(PyExc_TypeError, "a cell is an int, not str: from_token reads a token, and from_tokens several");
  if (!index) return false;
  bool fits = bits_of(index, bits, &is_below);
  if (!fits) raise_refusal(S2U_NO_CELL, "a cell is out of range: %S", index);
  if (!is_int) Py_DECREF(index);
  return fits;
}

/* The bytes of a list, as numbers of `unit` bytes. */
static bool as_list(PyObject* given, size_t unit, List* list) {
  char* text = NULL;
  Py_ssize_t size = 0;
  if (PyBytes_Check(given)) {
    if (PyBytes_AsStringAndSize(given, &text, &size) != 0) return false;
    list->at = text;
  } else if (!PyMemoryView_Check(given)) {
    return refuse_type("a list", "bytes or a memoryview", given);
  } else {
    if (PyObject_GetBuffer(given, &list->buffer, 0) != 0) return false;
    list->at = list->buffer.at;
    size = list->buffer.size;
  }
  list->n = (size_t)size / unit;
  bool is_placed = unit == 1 || size == 0 || (uintptr_t)list->at % sizeof(uint64_t) == 0;
  if (list->n * unit == (size_t)size && is_placed) return true;
  PyErr_Format(PyExc_TypeError, "a list of numbers of %zu bytes lies at no multiple of 8, or ends in one", unit);
  return false;
}

/* A list whose numbers have entries of their own, in parts that are copied: so others may write it during the call. */
static bool as_parts(PyObject* given, size_t unit, Parts* parts) {
  parts->unit = unit;
  if (!as_list(given, 1, &parts->all)) return false;
  parts->count = parts->all.n / unit;
  if (parts->count * unit == parts->all.n) return true;
  PyErr_Format(PyExc_TypeError, "a list of numbers of %zu bytes ends in one", unit);
  return false;
}

/* Whether there is another part, after those in which each number has an entry. */
static bool has_part(Parts* list) {
  size_t most = sizeof list->at / list->unit;
  if (list->bad < list->n) return false;
  list->done += list->n;
  list->n = list->count - list->done < most ? list->count - list->done : most;
  if (list->n == 0) return false;
  memcpy(list->at, (const char*)list->all.at + list->done * list->unit, list->n * list->unit);
  return true;
}

/* The bytes of a text, which are the caller's own; NULL if it is none. */
static PyObject* as_text(PyObject* given, List* text) {
  PyObject* bytes = NULL;
  if (PyUnicode_Check(given)) bytes = PyUnicode_AsEncodedString(given, "utf-8", "surrogatepass");
  else if (PyBytes_Check(given) || PyByteArray_Check(given)) bytes = PyBytes_FromObject(given);
  else refuse_type("a text", "a str or bytes", given);
  if (bytes) as_list(bytes, 1, text);
  return bytes;
}

static bool as_rect(PyObject* given, s2u_rect* rect) {
  uint64_t words[5] = {0};
  PyObject* bounds = PySequence_Tuple(given);
  Py_ssize_t n = bounds ? PyTuple_Size(bounds) : -1;
  bool fits = n == 5;
  for (Py_ssize_t k = 0; k < n && fits; k++)
    fits = as_number(PyTuple_GetItem(bounds, k), k ? "a coordinate" : "a face", 0, k ? LAST_PLACE : 5, &words[k]);
  if (n >= 0 && n != 5) PyErr_Format(PyExc_ValueError, "a rectangle has 5 numbers, not %zd", n);
  Py_XDECREF(bounds);
  *rect = (s2u_rect){(uint32_t)words[0], (uint32_t)words[1], (uint32_t)words[2], (uint32_t)words[3],
                     (uint32_t)words[4]};
  return fits;
}

/* ---- room */

static bool take(Room* room, uint64_t n, size_t unit) {
  *room = (Room){n < PY_SSIZE_T_MAX / unit ? PyMem_Malloc(n ? n * unit : 1) : NULL, (size_t)n, unit};
  if (!room->at)
    raise_refusal(S2U_MEMORY, "s2union: out of memory: %llu numbers are wanted", (unsigned long long)n);
  return room->at != NULL;
}

static PyObject* given_back(Room* room) {
  PyMem_Free(room->at);
  room->at = NULL;
  return NULL;
}

/* Whether the room was too small, and is as large as is needed now. */
static bool is_larger_now(int32_t status, Room* room, size_t length) {
  if (status != S2U_ROOM || length <= room->n) return false;
  given_back(room);
  return take(room, length, room->unit);
}

/* The first numbers in the room as bytes. What isn't needed is given back first. */
static PyObject* bytes_of(Room* room, size_t length) {
  void* less = length < room->n ? PyMem_Realloc(room->at, length ? length * room->unit : 1) : NULL;
  if (less) room->at = less;
  PyObject* bytes = PyBytes_FromStringAndSize(room->at, (Py_ssize_t)(length * room->unit));
  given_back(room);
  return bytes;
}

/* ---- what is refused */

static bool is_cell(PyObject* module, uint64_t number);

/* A refusal, and what was refused, if that is said. */
static PyObject* refused(int32_t status, PyObject* what) {
  if (status == S2U_MEMORY && PyErr_Occurred()) return NULL; /* of a signal, by which the call was cancelled */
  bool is_said = what && PyObject_IsTrue(what) == 1;
  const char *head = status == S2U_MEMORY ? "s2union: " : "", *text = s2u_status_text(status);
  return is_said ? raise_refusal(status, "%s%s: %S", head, text, what) : raise_refusal(status, "%s%s", head, text);
}

static PyObject* refused_number(uint64_t number, const size_t* place) {
  char at[40] = "", shown[20];
  if (place) snprintf(at, sizeof at, " at place %zu", *place);
  snprintf(shown, sizeof shown, "%#" PRIx64, number);
  return raise_refusal(S2U_NO_CELL, "%s%s: %s", s2u_status_text(S2U_NO_CELL), at, number ? shown : "0x0");
}

/* A refusal of a call that was given these numbers for cells: the first that is none is named. */
static PyObject* refused_of(PyObject* module, int32_t status, PyObject* what, const uint64_t* numbers, int n) {
  for (int k = 0; status == S2U_NO_CELL && k < n; k++)
    if (!is_cell(module, numbers[k])) return refused_number(numbers[k], NULL);
  return refused(status, what);
}

/* A number that is out of range; but if what goes with it is no cell, that is said. */
static PyObject* refused_beside(PyObject* module, uint64_t cell) {
  if (is_cell(module, cell) || !PyErr_ExceptionMatches(PyExc_ValueError)) return NULL;
  PyErr_Clear();
  return refused_number(cell, NULL);
}

/* A refusal of a call that was given a list of cells: the first number that is none is named. */
static PyObject* refused_in(PyObject* module, int32_t status, const List* list) {
  for (size_t k = 0; status == S2U_NO_CELL && k < list->n; k++) {
    uint64_t number = ((const uint64_t*)list->at)[k];
    if (!is_cell(module, number)) return refused_number(number, &k);
  }
  return refused(status, NULL);
}

#define BLANKS " \t\n\r,"

/* A refusal of a text whose first wrong word begins at a place: the word is named. */
static PyObject* refused_word(const List* text, size_t place) {
  const char* word = (const char*)text->at + place;
  size_t most = text->n - place < 32 ? text->n - place : 32, n = 0;
  while (n < most && !memchr(BLANKS, word[n], sizeof BLANKS - 1)) n++;
  size_t least = n < 3 ? 0 : n - 3; /* no character is cut */
  while (n > least && place + n < text->n && (signed char)word[n] < -64) n--;
  PyObject* shown = PyUnicode_Decode(word, (Py_ssize_t)n, "utf-8", "backslashreplace");
  if (shown) raise_refusal(S2U_NO_CELL, "%s: %R at place %zu", s2u_status_text(S2U_NO_CELL), shown, place);
  Py_XDECREF(shown);
  return NULL;
}

/* ---- what is answered: by the form of the call */

#define UNLOCKED(call) \
  do { \
    PyThreadState* unlocked = PyEval_SaveThread(); \
    call; \
    PyEval_RestoreThread(unlocked); \
  } while (0)

/* ---- Ctrl-C: a call that may take long is cancelled by what a handler of signals raises. Python runs handlers in the
 * main thread alone, and needs its lock for that, so a call asks a few times a second, and only there. On other systems
 * than Linux the signal waits for the call's end. */

#ifdef __linux__
enum { TICKS = 10, LOOKS = 64 }; /* asked after a tenth of a second, and the clock at each of so many looks */

typedef struct Watch {
  PyThreadState* unlocked;
  clock_t next; /* the tick at which to ask; 0 at first */
  unsigned looks;
  bool is_cancelled, is_elsewhere;
} Watch;

#ifdef __GLIBC__ /* a place that no memory has to be taken for */
static __thread Watch* watch __attribute__((tls_model("initial-exec")));
#else
static __thread Watch* watch;
#endif
static __typeof__(s2u_heap_ask)* heap_ask;

static bool is_time(Watch* it) {
  if (it->looks++ % LOOKS != 0) return false;
  clock_t now = times(NULL), next = it->next;
  if (next > 0 && now - next < 0) return false;
  it->next = now + TICKS;
  return next > 0;
}

static int is_cancelled(void* of) {
  Watch* it = of;
  if (it->is_cancelled || it->is_elsewhere || !is_time(it)) return it->is_cancelled;
  it->is_elsewhere = PyThread_get_thread_native_id() != (unsigned long)getpid();
  if (it->is_elsewhere) return false;
  PyEval_RestoreThread(it->unlocked);
  it->is_cancelled = PyErr_CheckSignals() != 0;
  it->unlocked = PyEval_SaveThread();
  return it->is_cancelled;
}

/* Whether the call that runs in this thread is to end. */
#define S2U_IS_CANCELLED() (watch && is_cancelled(watch))

/* A call without the lock, whose status is S2U_MEMORY if it was cancelled; then an exception is raised already. A
 * handler may make another such call meanwhile. */
#define CANCELLABLE(status, call) \
  do { \
    Watch this_watch = {PyEval_SaveThread(), 0, 0, false, false}, *outer_watch = watch; \
    const s2u_heap_asked* asked_before = heap_ask(&(s2u_heap_asked){is_cancelled, &this_watch}); \
    watch = &this_watch; \
    status = call; \
    watch = outer_watch; \
    heap_ask(asked_before); \
    PyEval_RestoreThread(this_watch.unlocked); \
    if (this_watch.is_cancelled) status = S2U_MEMORY; \
  } while (0)
#else
#define CANCELLABLE(status, call) UNLOCKED(status = call)
#endif

/* A number of 0 or more. */
static PyObject* counted(PyObject* module, int32_t answer, const uint64_t* cells, int n) {
  return answer < 0 ? refused_of(module, answer, NULL, cells, n) : PyLong_FromLong(answer);
}

/* Yes or no. A refusal is neither, so it must not become a bool. */
static PyObject* asked(PyObject* module, int32_t answer, const uint64_t* cells, int n) {
  return answer < 0 ? refused_of(module, answer, NULL, cells, n) : PyBool_FromLong(answer);
}

/* A cell, or a number of leaves; None if there is none. */
static PyObject* found(PyObject* module, uint64_t answer, const uint64_t* cells, int n) {
  if (answer) return PyLong_FromUnsignedLongLong(answer);
  for (int k = 0; k < n; k++)
    if (!is_cell(module, cells[k])) return refused_number(cells[k], NULL);
  return Py_BuildValue("");
}

/* A number that a call has written. */
static PyObject* written(int32_t status, uint64_t number) {
  return status < 0 ? refused(status, NULL) : PyLong_FromUnsignedLongLong(number);
}

/* A list, whose room is given back. */
static PyObject* listed(PyObject* module, int32_t status, Room* room, size_t length, PyObject* what,
                        const uint64_t* cells, int n) {
  if (!room->at) return NULL;
  if (status == S2U_OK) return bytes_of(room, length);
  given_back(room);
  return refused_of(module, status, what, cells, n);
}

/* A bytearray of entries, one for each number of a list. */
static PyObject* entries_of(const Parts* list, size_t unit) {
  if (list->count > PY_SSIZE_T_MAX / unit - 1) return PyErr_NoMemory();
  return PyByteArray_FromStringAndSize(NULL, (Py_ssize_t)(list->count * unit));
}

/* The entries, and the first number that has none with its place; -1 if each has one. */
static PyObject* entered(int32_t status, PyObject* entries, const Parts* list) {
  bool is_refused = list->bad < list->n;
  Py_ssize_t place = is_refused ? (Py_ssize_t)(list->done + list->bad) : -1;
  uint64_t number = is_refused && list->unit == sizeof number ? list->at[list->bad] : 0;
  if (status == S2U_OK || status == S2U_NO_CELL) return Py_BuildValue("(NnK)", entries, place, number);
  Py_DECREF(entries);
  return refused(status, NULL);
}

/* Both coverings of a shape, which lie in one room, whose memory is given back; or why there are none. */
static PyObject* both_of(int32_t status, Room* room, size_t length, size_t outer, const s2u_shape_fault* fault,
                         PyObject* what);

#include "calls.h"

static bool is_cell(PyObject* module, uint64_t number) {
  return LIBRARY(is_cell)(number) == 1;
}

static const char* fault_name(size_t number) {
#define FAULT(name) if (number == S2U_FAULT_##name) return #name;
  FAULTS(FAULT)
  return "OTHER";
}

/* Raises the exception of a shape that has a fault, with its name and its place. */
static void raise_fault(const s2u_shape_fault* it) {
  PyObject* kind = exception_of(S2U_SHAPE);
  PyObject* words = kind ? Py_BuildValue("(Nsnnnn)", PyUnicode_FromFormat(
      "%s: byte %zu, part %zu, ring %zu, position %zu", s2u_fault_text(it->name), it->byte, it->part, it->ring,
      it->position), fault_name(it->name), (Py_ssize_t)it->byte, (Py_ssize_t)it->part, (Py_ssize_t)it->ring,
      (Py_ssize_t)it->position) : NULL;
  if (words) PyErr_SetObject(kind, words);
  Py_XDECREF(words);
  Py_XDECREF(kind);
}

static PyObject* both_of(int32_t status, Room* room, size_t length, size_t outer, const s2u_shape_fault* fault,
                         PyObject* what) {
  PyObject* both = NULL;
  const uint64_t* ids = room->at;
  if (!ids) return NULL;
  if (status == S2U_OK)
    both = Py_BuildValue("(y#y#)", (const char*)ids, (Py_ssize_t)(outer * room->unit), (const char*)(ids + outer),
                         (Py_ssize_t)((length - outer) * room->unit));
  else if (status == S2U_SHAPE) raise_fault(fault);
  else refused(status, what);
  given_back(room);
  return both;
}

/* ---- the calls of other forms */

static PyObject* py_square_of(PyObject* module, PyObject* given) {
  uint64_t id;
  s2u_square it;
  if (!as_cell(given, &id)) return NULL;
  if (LIBRARY(square_of)(id, &it) != S2U_OK) return refused_number(id, NULL);
  return Py_BuildValue("(IIII)", it.face, it.i, it.j, it.size);
}

typedef int32_t to_text(uint64_t id, char* text, size_t room, size_t* length);
typedef int32_t from_text(const char* text, size_t n, uint64_t* id);

static PyObject* text_of(to_text* call, PyObject* given) {
  uint64_t id;
  char text[S2U_MOST_DEBUG];
  size_t length;
  if (!as_cell(given, &id)) return NULL;
  int32_t status = call(id, text, sizeof text, &length);
  return status == S2U_OK ? PyUnicode_FromStringAndSize(text, (Py_ssize_t)length) : refused_number(id, NULL);
}

static PyObject* py_token(PyObject* module, PyObject* given) { return text_of(LIBRARY(token), given); }

static PyObject* py_debug(PyObject* module, PyObject* given) { return text_of(LIBRARY(debug), given); }

static PyObject* cell_of(from_text* call, PyObject* given) {
  List text;
  uint64_t id;
  PyObject* bytes = as_text(given, &text);
  if (!bytes) return NULL;
  int32_t status = call(text.at, text.n, &id);
  Py_DECREF(bytes);
  if (status == S2U_OK) return PyLong_FromUnsignedLongLong(id);
  return raise_refusal(status, "%s: %R", s2u_status_text(status), given);
}

static PyObject* py_from_token(PyObject* module, PyObject* given) { return cell_of(LIBRARY(from_token), given); }

static PyObject* py_from_debug(PyObject* module, PyObject* given) { return cell_of(LIBRARY(from_debug), given); }

/* The tokens of a list in a str, with blanks between them. */
static PyObject* py_tokens(PyObject* module, PyObject* given) {
  HELD List ids = {0};
  Room text;
  int32_t status;
  size_t length = 0;
  if (!as_list(given, sizeof(uint64_t), &ids) || !take(&text, S2U_MOST_TOKENS(ids.n), 1)) return NULL;
  UNLOCKED(status = LIBRARY(tokens)(ids.at, ids.n, text.at, text.n, &length));
  PyObject* tokens = status == S2U_OK ? PyUnicode_FromStringAndSize(text.at, (Py_ssize_t)length)
                                      : refused_in(module, status, &ids);
  given_back(&text);
  return tokens;
}

static PyObject* py_from_tokens(PyObject* module, PyObject* given) {
  List text;
  Room ids;
  int32_t status = S2U_MEMORY;
  size_t length = 0;
  PyObject *bytes = as_text(given, &text), *cells = NULL;
  if (!bytes) return NULL;
  if (take(&ids, S2U_MOST_NAMED(text.n), sizeof(uint64_t))) {
    UNLOCKED(status = LIBRARY(from_tokens)(text.at, text.n, ids.at, ids.n, &length));
    cells = status == S2U_NO_CELL ? refused_word(&text, length) : listed(module, status, &ids, length, NULL, NULL, 0);
    if (ids.at) given_back(&ids);
  }
  Py_DECREF(bytes);
  return cells;
}

/* The union of a list of cells, which is copied. */
static PyObject* py_normalise(PyObject* module, PyObject* given) {
  HELD List list = {0};
  Room ids;
  int32_t status;
  size_t length = 0;
  if (!as_list(given, 1, &list)) return NULL;
  if (!take(&ids, list.n / sizeof(uint64_t), sizeof(uint64_t))) return NULL;
  if (ids.n > 0) memcpy(ids.at, list.at, ids.n * ids.unit);
  UNLOCKED(status = LIBRARY(normalise)(ids.at, ids.n, &length));
  if (status == S2U_NO_CELL) {
    refused_number(((uint64_t*)ids.at)[length], &length);
    return given_back(&ids);
  }
  return listed(module, status, &ids, length, NULL, NULL, 0);
}

/* The union of lists that lie one after another, and where each ends. */
static PyObject* py_union_of_many(PyObject* module, PyObject* words) {
  HELD List ids = {0}, ends = {0};
  Room work, out;
  int32_t status;
  size_t length = 0;
  if (!has(words, 2) || !as_list(WORD(0), sizeof(uint64_t), &ids) || !as_list(WORD(1), sizeof(size_t), &ends) ||
      !take(&work, 2 * (uint64_t)ids.n, sizeof(uint64_t)))
    return NULL;
  if (!take(&out, ids.n, sizeof(uint64_t))) return given_back(&work);
  UNLOCKED(status = LIBRARY(union_of_many)(ids.at, ids.n, ends.at, ends.n, work.at, work.n, out.at, out.n, &length));
  given_back(&work);
  return listed(module, status, &out, length, NULL, NULL, 0);
}

/* The first place of the cells of a union that share a leaf with a cell, and how many they are. */
static PyObject* py_cells_at(PyObject* module, PyObject* words) {
  HELD List ids = {0};
  uint64_t cell;
  size_t first, count;
  if (!has(words, 2) || !as_cell(WORD(1), &cell) || !as_list(WORD(0), sizeof(uint64_t), &ids)) return NULL;
  int32_t status = LIBRARY(cells_at)(ids.at, ids.n, cell, &first, &count);
  if (status != S2U_OK) return refused_of(module, status, NULL, &cell, 1);
  return Py_BuildValue("(nn)", (Py_ssize_t)first, (Py_ssize_t)count);
}

#include "places.h"

/* ---- what is no call of the library */

/* The 64 bits of what may be a cell. */
static PyObject* py_bits(PyObject* module, PyObject* given) {
  uint64_t bits;
  (void)module;
  return as_cell(given, &bits) ? PyLong_FromUnsignedLongLong(bits) : NULL;
}

/* An int from 0 to the most that it may be, and what it is called. */
static PyObject* py_number(PyObject* module, PyObject* words) {
  uint64_t most, number;
  (void)module;
  if (!has(words, 3) || !as_number(WORD(1), "most", 0, UINT64_MAX, &most)) return NULL;
  PyObject* what = PyUnicode_AsASCIIString(WORD(2));
  if (!what) return NULL;
  bool fits = as_number(WORD(0), PyBytes_AsString(what), 0, most, &number);
  Py_DECREF(what);
  return fits ? PyLong_FromUnsignedLongLong(number) : NULL;
}

/* A cell as the signed number of its 64 bits. */
static PyObject* py_to_signed(PyObject* module, PyObject* given) {
  uint64_t id;
  if (!as_cell(given, &id)) return NULL;
  return is_cell(module, id) ? PyLong_FromLongLong((int64_t)id) : refused_number(id, NULL);
}

static bool put(PyObject* list, Py_ssize_t n, PyObject* given) {
  Py_ssize_t size = PyByteArray_Size(list);
  uint64_t bits;
  if (!as_cell(given, &bits)) return false;
  if (8 * n == size && PyByteArray_Resize(list, size > PY_SSIZE_T_MAX / 2 ? -1 : 2 * size) != 0) return false;
  memcpy(PyByteArray_AsString(list) + 8 * n, &bits, sizeof bits);
  return true;
}

/* The 64 bits of each of the cells that an iterable has, as bytes. */
static PyObject* py_list_of(PyObject* module, PyObject* given) {
  PyObject *each = PyObject_GetIter(given), *list = each ? PyByteArray_FromStringAndSize(NULL, 256) : NULL;
  PyObject *cell = NULL, *bytes = NULL;
  Py_ssize_t n = 0;
  (void)module;
  while (list && (cell = PyIter_Next(each)) && put(list, n, cell)) {
    Py_DECREF(cell);
    n++;
  }
  Py_XDECREF(cell);
  if (list && !PyErr_Occurred()) bytes = PyBytes_FromStringAndSize(PyByteArray_AsString(list), 8 * n);
  Py_XDECREF(list);
  Py_XDECREF(each);
  return bytes;
}

static PyObject* py_refuse(PyObject* module, PyObject* words) {
  uint64_t status;
  (void)module;
  return has(words, 2) && as_cell(WORD(0), &status) ? refused((int32_t)status, WORD(1)) : NULL;
}

/* ---- the module */

static PyMethodDef methods[] = {
#define METHOD(name, kind) {#name, py_##name, kind, NULL},
  METHODS(METHOD)
  METHOD(bits, METH_O) METHOD(to_signed, METH_O) METHOD(list_of, METH_O) METHOD(number, METH_VARARGS)
  METHOD(refuse, METH_VARARGS) METHOD(leaf, METH_VARARGS) METHOD(leaves, METH_VARARGS) METHOD(middles, METH_O)
  METHOD(outline, METH_O) METHOD(boundary, METH_O) METHOD(area, METH_O)
  METHOD(coverings, METH_VARARGS) METHOD(coverings_of_wkb, METH_VARARGS)
  METHOD(shape_of_geojson, METH_O) METHOD(coverings_of_circle, METH_VARARGS)
  METHOD(level_within, METH_O) METHOD(neighbors, METH_VARARGS) METHOD(edge_neighbors, METH_O)
  METHOD(vertex_neighbors, METH_VARARGS) METHOD(expanded, METH_VARARGS) METHOD(rect_bound, METH_O)
  METHOD(zones, METH_O) METHOD(pairs, METH_VARARGS)
  {NULL, NULL, 0, NULL}
};

#ifdef S2UNION_WITHIN /* the library is linked into the module */
static bool load_calls(Calls* calls) {
#define OWN(name) calls->s2u_##name = s2u_##name;
  CALLS(OWN)
#ifdef __linux__
  heap_ask = s2u_heap_ask;
#endif
  return true;
}
#else
static bool find(Calls* calls, void* library, PyObject* path) {
  void* at;
#define FIND(name, call) \
  at = dlsym(library, "s2u_" #name); \
  memcpy(&call, &at, sizeof at); \
  if (!at) { \
    PyErr_Format(PyExc_ImportError, "s2union: the shared library %U has no call s2u_" #name "; " \
                 "it is of another version than the module", path); \
    return false; \
  }
#define FIND_CALL(name) FIND(name, calls->s2u_##name)
  CALLS(FIND_CALL)
#ifdef __linux__
  FIND(heap_ask, heap_ask)
#endif
  return true;
}

/* Loads the library from where _where.py says. It stays loaded, as modules do. */
static bool load_calls(Calls* calls) {
  bool is_found = false;
  PyObject *where = PyImport_ImportModule("s2union._where"), *path = NULL, *bytes = NULL;
  if (where) path = PyObject_CallMethod(where, "path", NULL);
  if (path) bytes = PyUnicode_EncodeFSDefault(path);
  if (bytes) {
    void* library = dlopen(PyBytes_AsString(bytes), RTLD_NOW | RTLD_LOCAL);
    if (library) is_found = find(calls, library, path);
    else Py_XDECREF(PyObject_CallMethod(where, "refuse", "s", dlerror()));
  }
  Py_XDECREF(bytes);
  Py_XDECREF(path);
  Py_XDECREF(where);
  return is_found;
}
#endif

static int load(PyObject* module) {
  if (!load_calls(PyModule_GetState(module))) return -1;
  use_places(PyModule_GetState(module));
#define NUMBER(name) if (PyModule_AddIntConstant(module, #name, S2U_##name) != 0) return -1;
  NUMBERS(NUMBER)
  return 0;
}

/* The last slot says that each interpreter may have a lock of its own, to those that know it: Pythons from 3.12 on. */
enum { MULTIPLE_INTERPRETERS = 3, FIRST_THAT_KNOWS = (3 * 256 + 12) * 65536 };
static void* const OWN_LOCK = (void*)2;

static PyModuleDef_Slot slots[] = {{Py_mod_exec, load}, {MULTIPLE_INTERPRETERS, NULL}, {0, NULL}};

static PyModuleDef definition = {
  PyModuleDef_HEAD_INIT, "s2union._library", "The calls of libs2union.", sizeof(Calls), methods, slots, NULL, NULL, NULL
};

PyMODINIT_FUNC PyInit__library(void) {
  PyObject* number = PySys_GetObject("hexversion");
  bool knows = number && PyLong_AsLong(number) >= FIRST_THAT_KNOWS;
  slots[1] = knows ? (PyModuleDef_Slot){MULTIPLE_INTERPRETERS, OWN_LOCK} : (PyModuleDef_Slot){0, NULL};
  return PyModuleDef_Init(&definition);
}
