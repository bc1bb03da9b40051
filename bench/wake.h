/* The numbers of the wake simulation. */
#ifndef WAKE_H
#define WAKE_H

#include "pich.h"

enum { SFNS = 4096 };

/* A count that stands here takes no frame more. */
#define FULL UINT32_MAX

#endif
