/* What a compiler must warn of, so that with -Werror this does not compile: a number that nobody looks at
 * (IGNORED), a NULL pointer (NO_POINTER). With neither it does. */
#include "service_pair_text.h"

uint32_t misuse(const uint8_t *file);

uint32_t misuse(const uint8_t *file)
{
#if defined(IGNORED)
    pair_matrix_check(1, file, PAIR_FILE_BYTES);
#elif defined(NO_POINTER)
    file = NULL;
    return pair_matrix_check(1, NULL, 0);
#endif
    return pair_matrix_check(1, file, PAIR_FILE_BYTES);
}
