/* One call of the library from R. */
#include <string.h>
#include <R.h>
#include <Rinternals.h>
#include <R_ext/Rdynload.h>
#include <R_ext/Visibility.h>
#include "portable.h"

#define NO_ROOM 6u
#define ENDED 124u
#define FIRST_ROOM 65536u
#define MOST_ROOM 268435456u

#if defined(_WIN32)
#define PENDING 0
#else
extern int R_interrupts_pending; /* R sets it at Ctrl-C */
#define PENDING (&R_interrupts_pending)
#endif

static SEXP coop_call(SEXP words, SEXP document)
{
    const char *typed = CHAR(STRING_ELT(words, 0)), *text = CHAR(STRING_ELT(document, 0));
    size_t size = strlen(text), room = 8 * size > FIRST_ROOM ? 8 * size : FIRST_ROOM, count;
    const void *before = vmaxget();
    uint8_t *line;
    uint32_t status;
    SEXP answer;
    for (;;) {
        line = (uint8_t *)R_alloc(room, 1);
        status = coop_run_until((const uint8_t *)typed, strlen(typed), (const uint8_t *)text, size, line, room, &count, PENDING);
        if (status != NO_ROOM || room >= MOST_ROOM)
            break;
        vmaxset(before);
        room *= 8;
    }
    if (status == ENDED)
        R_CheckUserInterrupt();
    answer = PROTECT(allocVector(VECSXP, 2));
    SET_VECTOR_ELT(answer, 0, ScalarInteger((int)status));
    SET_VECTOR_ELT(answer, 1, ScalarString(mkCharLenCE((const char *)line, (int)count, CE_UTF8)));
    UNPROTECT(1);
    vmaxset(before);
    return answer;
}

static const R_CallMethodDef calls[] = {{"coop_call", (DL_FUNC)&coop_call, 2}, {NULL, NULL, 0}};

void attribute_visible R_init_coop(DllInfo *library)
{
    R_registerRoutines(library, NULL, calls, NULL, NULL);
    R_useDynamicSymbols(library, FALSE);
    R_forceSymbols(library, TRUE);
}
