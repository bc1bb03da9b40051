/* say.h: how a run that found something ends, and what it says of the test that it was at. */
#ifndef SAY_H
#define SAY_H

#include "test.h"

/* The test that every end speaks of. From here on an end by the sanitizers, or by a call that does not end, speaks of it too. */
void speak_of(const struct test *test);

/* Ends the run: why, and the case in words. */
_Noreturn void give_up(const char *why);

/* The same behind what the call was given, what it should have answered and what it did. */
_Noreturn void differ(const char *why);

#endif
