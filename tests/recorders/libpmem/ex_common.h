/* The packaged example log.c includes a header of this name, which is not packaged; it needs unistd.h of it. */
#include <unistd.h>
