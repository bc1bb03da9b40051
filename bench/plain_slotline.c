/* The program slotline in plain C. */
#define MAPPED(call) plain_##call
#define LETTER(digit) "01-"[digit]
#include "slotline_program.h"
