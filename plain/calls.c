/* Each call that dvg.h has the body of, as a symbol of both libraries, for languages that bind
 * calls by their names. It is an object of its own in the archive: a program in C takes none of it.
 */
#define DVG_INLINE extern
#include "dvg.h"
