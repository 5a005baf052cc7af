/* ask-module in C, for tools/try-all: a call takes a millisecond of processor time, and that in Python twenty. ADDRESS
   is the socket's place. Ends with 70 where nobody answers there. */
#include <signal.h>
#include <stdio.h>
#include <stdlib.h>
#include <string.h>
#include <sys/socket.h>
#include <sys/un.h>
#include <unistd.h>

#define MOST (8u * 1024 * 1024 + 1)
enum { REFUSED = 3, READ_FAULT = 5, WRITE_FAULT = 6, NO_ANSWER = 70 };

struct text {
    char *bytes;
    size_t size;
};

static int is_sent(int port, const char *bytes, size_t size)
{
    while (size) {
        ssize_t count = write(port, bytes, size);
        if (count < 0) return 0;
        bytes += count, size -= (size_t)count;
    }
    return 1;
}

/* The bytes to the end, or the first ones, so many; whether they could be read. */
static int is_read(int port, size_t most, struct text *text)
{
    size_t room = 1 << 16;
    *text = (struct text){malloc(room), 0};
    while (text->bytes && text->size < most) {
        if (text->size == room) {
            char *larger = realloc(text->bytes, room *= 2);
            if (!larger) return 0;
            text->bytes = larger;
        }
        ssize_t count = read(port, text->bytes + text->size, (room < most ? room : most) - text->size);
        if (count < 0) return 0;
        if (count == 0) break;
        text->size += (size_t)count;
    }
    return text->bytes != NULL;
}

/* A byte of the status, and the line. */
static struct text answer(char **words, struct text document)
{
    struct sockaddr_un place = {.sun_family = AF_UNIX, .sun_path = ADDRESS};
    struct text found = {NULL, 0};
    char head[32];
    size_t length = 0;
    int port = socket(AF_UNIX, SOCK_STREAM, 0), is_asked;
    for (char **word = words; *word; word++) length += strlen(*word) + 1;
    snprintf(head, sizeof head, "%zu\n", length);
    is_asked = port >= 0 && !connect(port, (struct sockaddr *)&place, sizeof place);
    is_asked = is_asked && is_sent(port, head, strlen(head));
    for (char **word = words; is_asked && *word; word++) is_asked = is_sent(port, *word, strlen(*word) + 1);
    is_asked = is_asked && is_sent(port, document.bytes, document.size) && !shutdown(port, SHUT_WR);
    if (!is_asked || !is_read(port, 1u << 30, &found) || found.size == 0) {
        perror("ask_module");
        exit(NO_ANSWER);
    }
    close(port);
    return found;
}

int main(int count, char **words)
{
    struct text document = {NULL, 0}, found;
    (void)count;
    signal(SIGPIPE, SIG_IGN);
    found = answer(words + 1, document);
    if (found.bytes[0] == REFUSED) {
        if (!is_read(0, MOST, &document)) return READ_FAULT;
        found = answer(words + 1, document);
    }
    return is_sent(1, found.bytes + 1, found.size - 1) ? found.bytes[0] : WRITE_FAULT;
}
