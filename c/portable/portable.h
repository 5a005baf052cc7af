/* What the library in plain C has beside the calls of coop.h. */
#ifndef COOP_PORTABLE_H
#define COOP_PORTABLE_H
#include "coop.h"

#ifdef __cplusplus
extern "C" {
#endif

/* coop_run, which another thread can end: it sets *ends to another number than 0, the status is 124, and count is 0. The
   call looks at *ends for the first time after some 20 ms of processor time, then every 1 to 11 ms (in a check of 8 MB
   first after 180 ms, then every 70 at most), and never after it is over. So a call whose *ends isn't 0 from the
   beginning answers if it is short. ends may be null. */
COOP_EXPORT uint32_t coop_run_until(const uint8_t *words, size_t words_length, const uint8_t *document,
                                    size_t document_length, uint8_t *line, size_t room, size_t *count,
                                    const volatile int *ends);

#ifdef __cplusplus
}
#endif
#endif
