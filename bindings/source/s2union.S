/* The proved code for the system that this is compiled for: the C compiler's driver picks it. */
#if defined(__x86_64__) && defined(__APPLE__)
#include "x86_64-macho.s"
#elif defined(__aarch64__) && defined(__APPLE__)
#include "aarch64-macho.s"
#elif defined(__x86_64__) && defined(_WIN32)
#include "x86_64-coff.s"
#elif defined(__aarch64__) && defined(_WIN32)
#include "aarch64-coff.s"
#elif defined(__x86_64__) && defined(__ELF__) && defined(__LP64__)
#include "x86_64-elf.s"
#elif defined(__aarch64__) && defined(__ELF__) && defined(__LP64__) && defined(__AARCH64EL__)
#include "aarch64-elf.s"
#else
#error "no assembler is here for this system: a clang from version 15 on compiles s2union.ll"
#endif
