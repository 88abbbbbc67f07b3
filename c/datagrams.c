/* The example that serves a tool over UDP, as one of the programs that bin/check-c tries. */
#include "../examples/datagrams.c"
