/* Three airlines share a runway: their nucleolus, by a call of the library. */
#include <stdio.h>
#include <stdlib.h>
#include "coop.h"

int main(void)
{
    static const char words[] = "nucleolus";
    static const char document[] = "{\"game\":{\"class\":\"airport\",\"costs\":[2,4,6]}}";
    uint8_t *line = NULL;
    size_t room = 16384, count = 0;
    uint32_t status;
    do {
        room *= 4; /* 64 KB at first, since after status 6 the whole work is done again */
        uint8_t *longer = realloc(line, room);
        if (longer == NULL) {
            free(line);
            return 7;
        }
        line = longer;
        status = coop_run((const uint8_t *)words, sizeof words - 1, (const uint8_t *)document, sizeof document - 1,
                          line, room, &count);
    } while (status == 6);
    fwrite(line, 1, count, stdout);
    free(line);
    return (int)status;
}
