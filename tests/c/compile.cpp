// The same program, read by a C++ compiler: the header and the library serve both languages.
#include "compile.c"
