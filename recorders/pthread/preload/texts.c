/* Texts. These are what a program's start needs of the C library's: there each one would first have to be found, and most are in pages
   that aren't there yet. */
#include "own.h"

#include <unistd.h>

size_t length_of(const char *text) {
    size_t length = 0;
    for (; text[length]; length++)
        AS_WRITTEN;
    return length;
}

bool is_same_text(const char *a, const char *b) {
    for (; *a && *a == *b; a++)
        b++;
    return *a == *b;
}

bool has_text(const char *in, const char *text) {
    size_t length = 0;
    for (; *in && text[length]; in++) {
        for (length = 0; text[length] && in[length] == text[length];)
            length++;
    }
    return !text[length];
}

char *put_text(char *to, const char *text, size_t most) {
    for (; most && *text; most--)
        *to++ = *text++;
    *to = 0;
    return to;
}

char *put_number(char *to, unsigned number) {
    char digits[10];
    int count = 0;
    do
        digits[count++] = (char)('0' + number % 10);
    while (number /= 10);
    while (count)
        *to++ = digits[--count];
    *to = 0;
    return to;
}

const char *variable(const char *name) {
    for (char **at = environ; at && *at; at++) {
        size_t i = 0;
        while (name[i] && (*at)[i] == name[i])
            i++;
        if (!name[i] && (*at)[i] == '=')
            return *at + i + 1;
    }
    return NULL;
}
