/* Loads the module of the wheel for Windows, and prints the name in the definition that it answers. */
#include <stdio.h>
#include <windows.h>

int main(void) {
  void** (*init)(void) = (void** (*)(void))GetProcAddress(LoadLibraryA("_library.pyd"), "PyInit__library");
  return init ? puts((char*)init()[5]) < 0 : 1; /* after the 40 bytes by which each definition begins */
}
