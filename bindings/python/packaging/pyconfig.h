/* What Python's headers ask of a system with addresses of 64 bits, of those that use the limited API alone: in place of
 * Debian's pyconfig.h, for wheels of systems that aren't this one. Python's own file for Windows makes the same
 * code. */
#define SIZEOF_INT 4
#define SIZEOF_LONG_LONG 8
#define SIZEOF_SIZE_T 8
#define SIZEOF_VOID_P 8
#ifdef _WIN32
#define MS_WINDOWS
#define MS_WIN64
#define SIZEOF_LONG 4
#define SIZEOF_WCHAR_T 2
#define Py_ENABLE_SHARED 1
#define HAVE_DECLSPEC_DLL
#else
#define SIZEOF_LONG 8
#define SIZEOF_WCHAR_T 4
#define HAVE_SSIZE_T 1
#define HAVE_SYS_TYPES_H 1
#define HAVE_UNISTD_H 1
#endif
