/* Descriptors of the recorder's own, which the program can't reach. */
#ifndef DESCRIPTORS_H
#define DESCRIPTORS_H

#include "core.h"

/* Before the program begins: keeps room for as many as there may be. The core keeps some twelve. */
void reserve_descriptors(void);

/* Opens a file by one of them; -1 where the file can't be opened or there is no room. It ends where the program becomes another one. */
Int open_reserved(const HChar *path, Int flags);

#endif
