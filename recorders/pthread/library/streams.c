/* Streams of the C library. Each is a lock: libc:stdout, libc:stderr, or libc:stream for any other one. Calls that the C library makes inside itself
   don't come by here, nor do those that a compiler or a header has put into the program, such as putc_unlocked. */
#include "library.h"

#include <stdarg.h>
#include <stdio.h>
#include <stdlib.h>

/* (not in the headers, or only with _FORTIFY_SOURCE) */
int __vprintf_chk(int flag, const char *format, va_list list);
int __vfprintf_chk(FILE *stream, int flag, const char *format, va_list list);
char *__fgets_chk(char *text, size_t room, int size, FILE *stream);
size_t __fread_chk(void *to, size_t room, size_t size, size_t count, FILE *stream);
int _IO_putc(int c, FILE *stream);
int _IO_getc(FILE *stream);

#define REALS(X)                                                                                                       \
    X(vprintf) X(vfprintf) X(__vprintf_chk) X(__vfprintf_chk) X(puts) X(fputs) X(fputc) X(putc) X(putchar) X(_IO_putc) X(fwrite) X(fread) \
    X(__fread_chk) X(fgets) X(__fgets_chk) X(fgetc) X(getc) X(getchar) X(_IO_getc) X(ungetc) X(fflush) X(fclose) X(perror) X(fseek) X(ftell) \
    X(rewind) X(setvbuf) X(getline) X(getdelim) X(flockfile)
FIND_AT_START(REALS)

static const char *name_of(const FILE *stream) { return stream == stdout ? "libc:stdout" : stream == stderr ? "libc:stderr" : "libc:stream"; }

#define USE_STREAM(stream) USE(stream, name_of(stream), 1)

/* A call with one stream, with what the real function takes. */
#define WITH(type, name, stream, parameters, arguments)                                                                \
    EXPORT type name parameters {                                                                                      \
        USE_STREAM(stream);                                                                                            \
        return REAL(name) arguments;                                                                                   \
    }

WITH(int, vprintf, stdout, (const char *format, va_list list), (format, list))
WITH(int, vfprintf, stream, (FILE * stream, const char *format, va_list list), (stream, format, list))
WITH(int, __vprintf_chk, stdout, (int flag, const char *format, va_list list), (flag, format, list))
WITH(int, __vfprintf_chk, stream, (FILE * stream, int flag, const char *format, va_list list), (stream, flag, format, list))
WITH(int, puts, stdout, (const char *text), (text))
WITH(int, fputs, stream, (const char *text, FILE *stream), (text, stream))
WITH(int, fputc, stream, (int c, FILE *stream), (c, stream))
WITH(int, putc, stream, (int c, FILE *stream), (c, stream))
WITH(int, _IO_putc, stream, (int c, FILE *stream), (c, stream))
WITH(int, putchar, stdout, (int c), (c))
WITH(size_t, fwrite, stream, (const void *from, size_t size, size_t count, FILE *stream), (from, size, count, stream))
WITH(size_t, fread, stream, (void *to, size_t size, size_t count, FILE *stream), (to, size, count, stream))
WITH(size_t, __fread_chk, stream, (void *to, size_t room, size_t size, size_t count, FILE *stream), (to, room, size, count, stream))
WITH(char *, fgets, stream, (char *text, int size, FILE *stream), (text, size, stream))
WITH(char *, __fgets_chk, stream, (char *text, size_t room, int size, FILE *stream), (text, room, size, stream))
WITH(int, fgetc, stream, (FILE * stream), (stream))
WITH(int, getc, stream, (FILE * stream), (stream))
WITH(int, _IO_getc, stream, (FILE * stream), (stream))
WITH(int, getchar, stdin, (void), ())
WITH(int, ungetc, stream, (int c, FILE *stream), (c, stream))
WITH(int, fclose, stream, (FILE * stream), (stream))
WITH(void, perror, stderr, (const char *text), (text))
WITH(int, fseek, stream, (FILE * stream, long offset, int from), (stream, offset, from))
WITH(long, ftell, stream, (FILE * stream), (stream))
WITH(void, rewind, stream, (FILE * stream), (stream))
WITH(int, setvbuf, stream, (FILE * stream, char *buffer, int mode, size_t size), (stream, buffer, mode, size))
WITH(ssize_t, getline, stream, (char **line, size_t *room, FILE *stream), (line, room, stream))
WITH(ssize_t, getdelim, stream, (char **line, size_t *room, int end, FILE *stream), (line, room, end, stream))
WITH(void, flockfile, stream, (FILE * stream), (stream))

/* Without a stream it is about all of them. */
EXPORT int fflush(FILE *stream) {
    if (stream)
        USE_STREAM(stream);
    else {
        USE_STREAM(stdout);
        USE_STREAM(stderr);
    }
    return REAL(fflush)(stream);
}

/* ---- With arguments of any number. */

#define PRINTING(name, stream, parameters, last, call)                                                                 \
    EXPORT int name parameters {                                                                                       \
        va_list list;                                                                                                  \
        USE_STREAM(stream);                                                                                            \
        va_start(list, last);                                                                                          \
        int answer = call;                                                                                             \
        va_end(list);                                                                                                  \
        return answer;                                                                                                 \
    }

PRINTING(printf, stdout, (const char *format, ...), format, REAL(vprintf)(format, list))
PRINTING(fprintf, stream, (FILE * stream, const char *format, ...), format, REAL(vfprintf)(stream, format, list))
PRINTING(__printf_chk, stdout, (int flag, const char *format, ...), format, REAL(__vprintf_chk)(flag, format, list))
PRINTING(__fprintf_chk, stream, (FILE * stream, int flag, const char *format, ...), format, REAL(__vfprintf_chk)(stream, flag, format, list))
