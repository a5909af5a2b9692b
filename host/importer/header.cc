// The header is C++ as well, and names the library's functions as C does.
#include "oxbreathe.h"

int main() { return ox_column("CALL", 4).column == OX_CALL ? 0 : 1; }
