/* Each file of this folder is a wrong call, made from the right one, which tests/fuzz-faults gives the name right_NAME.
 * The file's name begins with the call's. */
#include <pongulvesz.h>
#include <string.h>

#define RIGHT(name) extern __typeof__(pongulvesz_##name) right_##name;
