/* What c/memory.c, and on macOS c/targets/system.c, need of these headers, for a compiler that comes without any. */
#define bool _Bool
#define true 1
#define false 0
