/* The program slotline in tight C: a letter is counted out and not looked up, so that digits are printed many at a time. */
#define MAPPED(call) tight_##call
#define LETTER(digit) (char)((digit) == DTX ? '-' : '0' + (digit))
#include "slotline_program.h"
