/* Included before a source that is to be compiled with its wiping left out. */
#include "fox.h"

#define fox_wipe(bytes, length) ((void)(bytes), (void)(length))
#define fox_wipe_stack() ((void)0)
