/* Other locks of the C library: those of the connection to the system's log, of the time zone, which every conversion of a time takes, of random
   numbers, and of the environment. */
#include "library.h"

#include <stdarg.h>
#include <stdlib.h>
#include <syslog.h>
#include <time.h>

void __vsyslog_chk(int priority, int flag, const char *format, va_list list); /* (not in the header) */

#define REALS(X)                                                                                                                                 \
    X(vsyslog) X(__vsyslog_chk) X(openlog) X(closelog) X(localtime) X(localtime_r) X(gmtime) X(gmtime_r) X(mktime) X(timegm) X(ctime) X(ctime_r) \
    X(strftime) X(tzset) X(random) X(srandom) X(rand) X(srand) X(setenv) X(unsetenv) X(putenv) X(clearenv)
FIND_AT_START(REALS)

static char syslog_lock, timezone_lock, random_lock, environment_lock; /* the address of each stands for the lock */

#define WITH(lock, type, name, parameters, arguments)                                                                  \
    EXPORT type name parameters {                                                                                      \
        USE(&lock##_lock, "libc:" #lock, 0);                                                                           \
        return REAL(name) arguments;                                                                                   \
    }

#define LOGGING(name, parameters, call)                                                                                \
    EXPORT void name parameters {                                                                                      \
        va_list list;                                                                                                  \
        USE(&syslog_lock, "libc:syslog", 0);                                                                           \
        va_start(list, format);                                                                                        \
        call;                                                                                                          \
        va_end(list);                                                                                                  \
    }

LOGGING(syslog, (int priority, const char *format, ...), REAL(vsyslog)(priority, format, list))
LOGGING(__syslog_chk, (int priority, int flag, const char *format, ...), REAL(__vsyslog_chk)(priority, flag, format, list))
WITH(syslog, void, vsyslog, (int priority, const char *format, va_list list), (priority, format, list))
WITH(syslog, void, __vsyslog_chk, (int priority, int flag, const char *format, va_list list), (priority, flag, format, list))
WITH(syslog, void, openlog, (const char *name, int how, int from), (name, how, from))
WITH(syslog, void, closelog, (void), ())

WITH(timezone, struct tm *, localtime, (const time_t *time), (time))
WITH(timezone, struct tm *, localtime_r, (const time_t *restrict time, struct tm *restrict broken_down), (time, broken_down))
WITH(timezone, struct tm *, gmtime, (const time_t *time), (time))
WITH(timezone, struct tm *, gmtime_r, (const time_t *restrict time, struct tm *restrict broken_down), (time, broken_down))
WITH(timezone, time_t, mktime, (struct tm * broken_down), (broken_down))
WITH(timezone, time_t, timegm, (struct tm * broken_down), (broken_down))
WITH(timezone, char *, ctime, (const time_t *time), (time))
WITH(timezone, char *, ctime_r, (const time_t *restrict time, char *restrict text), (time, text))
WITH(timezone, size_t, strftime, (char *restrict text, size_t room, const char *restrict format, const struct tm *restrict broken_down),
     (text, room, format, broken_down))
WITH(timezone, void, tzset, (void), ())

WITH(random, long, random, (void), ())
WITH(random, void, srandom, (unsigned seed), (seed))
WITH(random, int, rand, (void), ())
WITH(random, void, srand, (unsigned seed), (seed))

WITH(environment, int, setenv, (const char *name, const char *value, int replaces), (name, value, replaces))
WITH(environment, int, unsetenv, (const char *name), (name))
WITH(environment, int, putenv, (char *text), (text))
WITH(environment, int, clearenv, (void), ())
