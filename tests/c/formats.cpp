// The formats of languages as C++ has them.
#include "formats.c"
