// Reads a session file and copies the list of each register into memory of its own: reader FILE. This is what any
// program pays that takes over a session, before it tests a cell or follows a change.
#include <cstdint>
#include <cstdio>
#include <cstdlib>
#include <cstring>
#include <fcntl.h>
#include <sys/stat.h>
#include <unistd.h>

int main(int argc, char** argv) {
  if (argc != 2) return 2;
  int file = open(argv[1], O_RDONLY);
  struct stat about;
  if (file < 0 || fstat(file, &about) != 0) return 1;
  size_t size = about.st_size, got = 0;
  char* bytes = static_cast<char*>(malloc(size));
  while (got < size) {
    ssize_t more = read(file, bytes + got, size - got < 131072 ? size - got : 131072);
    if (more <= 0) return 1;
    got += more;
  }
  char* at = bytes + 2;
  uint64_t sum = 0;
  for (int k = 0; k < 26; k++) {
    uint64_t count;
    memcpy(&count, at, 8);
    uint64_t* list = static_cast<uint64_t*>(malloc(8 * count));
    memcpy(list, at + 8, 8 * count);
    sum += count ? list[count / 2] : 0;
    at += 8 + 8 * count;
  }
  free(bytes);
  return sum == 1;
}
