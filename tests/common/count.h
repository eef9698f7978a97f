/* How many elements an array has. */
#ifndef COMMON_COUNT_H
#define COMMON_COUNT_H

#define COUNT(a) (sizeof(a) / sizeof *(a))

#endif
