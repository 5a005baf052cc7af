/* Hands a call on to the proved one, which takes no pointer that is null, even if there are no bytes; and the version. */
#include "coop.h"

/* The proved coop_run, under the name that c/build gives it. */
uint32_t coop_run_proved(const uint8_t *words, size_t words_length, const uint8_t *document, size_t document_length,
                         uint8_t *line, size_t room, size_t *count);

uint32_t coop_run(const uint8_t *words, size_t words_length, const uint8_t *document, size_t document_length,
                  uint8_t *line, size_t room, size_t *count)
{
    const uint8_t nothing = 0;
    uint8_t no_room = 0;
    size_t uncounted = 0;
    return coop_run_proved(words ? words : &nothing, words ? words_length : 0,
                           document ? document : &nothing, document ? document_length : 0,
                           line ? line : &no_room, line ? room : 0, count ? count : &uncounted);
}

const char *coop_version(void) { return COOP_VERSION; }
