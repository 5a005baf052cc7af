/* The program by coop_run, as crates/coop_program is: coop COMMAND < DOCUMENT. Beside it, coop --version. */
#include <signal.h>
#include <stdio.h>
#include <stdlib.h>
#include <string.h>
#if defined(_WIN32)
#include <fcntl.h>
#include <io.h>
#endif
#include "coop.h"

/* One byte more than any document may have. */
#define MOST (8u * 1024 * 1024 + 1)
#define REFUSED 3u
#define READ_FAULT 5
#define WRITE_FAULT 6
#define NO_ROOM 6u
#define OUT_OF_MEMORY 7
#define NO_ANSWER 70u

/* The words behind the program's name, with a zero byte between each two. */
static uint8_t *joined(int count, char **words, size_t *length)
{
    size_t size = 1;
    uint8_t *typed;
    int k;
    for (k = 1; k < count; k++)
        size += strlen(words[k]) + 1;
    typed = malloc(size);
    *length = 0;
    for (k = 1; typed && k < count; k++) {
        size_t more = strlen(words[k]);
        if (k > 1)
            typed[(*length)++] = 0;
        memcpy(typed + *length, words[k], more);
        *length += more;
    }
    return typed;
}

/* The answer, in a line with room enough, which the caller frees; null if memory runs out. */
static uint8_t *answer(const uint8_t *typed, size_t length, const uint8_t *document, size_t size, uint32_t *status,
                       size_t *written)
{
    size_t room;
    for (room = size + 65536;; room *= 4) {
        uint8_t *line = malloc(room);
        if (!line)
            return NULL;
        *status = coop_run(typed, length, document, size, line, room, written);
        if (*status != NO_ROOM)
            return line;
        free(line);
    }
}

/* As the program does, so that a write that fails is told by the status, and by no signal. */
static void ignore_signals(void)
{
#if defined(SIGPIPE)
    signal(SIGPIPE, SIG_IGN);
#endif
#if defined(SIGXFSZ)
    signal(SIGXFSZ, SIG_IGN);
#endif
}

/* Writes a line: the status of the program. */
static int ended(const uint8_t *line, size_t written, uint32_t status)
{
    if (fwrite(line, 1, written, stdout) != written || fflush(stdout))
        return WRITE_FAULT;
    if (status == NO_ANSWER)
        fputs("coop: no answer: the module stopped\n", stderr);
    return (int)status;
}

int main(int count, char **words)
{
    size_t length, size, written;
    uint8_t *typed = joined(count, words, &length), *document = NULL, *line;
    uint32_t status;
    int end;
    ignore_signals();
#if defined(_WIN32)
    _setmode(_fileno(stdin), _O_BINARY);
    _setmode(_fileno(stdout), _O_BINARY);
#endif
    if (count == 2 && !strcmp(words[1], "--version"))
        return printf("coop %s, portable C\n", coop_version()) < 0 || fflush(stdout) ? WRITE_FAULT : 0;
    if (!typed || !(line = answer(typed, length, NULL, 0, &status, &written)))
        return OUT_OF_MEMORY;
    /* A command on a document refuses an empty one, and nothing else ends so: only such a command reads. */
    if (status == REFUSED) {
        free(line);
        if (!(document = malloc(MOST)))
            return OUT_OF_MEMORY;
        size = fread(document, 1, MOST, stdin);
        if (ferror(stdin))
            return READ_FAULT;
        if (!(line = answer(typed, length, document, size, &status, &written)))
            return OUT_OF_MEMORY;
    }
    end = ended(line, written, status);
    free(line);
    free(document);
    free(typed);
    return end;
}
