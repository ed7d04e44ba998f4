/* Each call and case: a trace, and what was counted, as calls.expected has them. Built without any library. */
#include "bare.h"

#define LOCKDEP_RECORD_CODE
#include "../lockdep_record.h"

static struct ldr_task task;
static char bytes[4096], place_bytes[4096];

/* ---- Cases begin and end. */

static void begin_case(const char *name) {
    say("== ");
    say(name);
    say("\n");
    ldr_begin(&task, bytes, sizeof bytes, write_out, NULL);
}

static void say_counts(void) {
    static const char *const names[LDR_REASONS] = {"opened", "releases", "held",  "events", "words", "interrupts",
                                                   "leaves", "flags",    "kept",  "puts",   "places"};
    for (unsigned i = 0; i < LDR_REASONS; i++)
        if (task.left[i] > 0) {
            say("-- ");
            say(names[i]);
            say(" ");
            say_number(task.left[i]);
            say("\n");
        }
}

static void end_case(void) {
    ldr_end(&task);
    say_counts();
}

#define take(name) ldr_acquire(&task, name, 0, LDR_W)
#define give(name) ldr_release(&task, name, 0)

static void say_rest(void) { say(ldr_is_at_rest(&task) ? "at rest\n" : "busy\n"); }

static void turn(unsigned irq, int is_on) {
    if (is_on)
        ldr_on(&task, irq);
    else
        ldr_off(&task, irq);
}

/* Makes the calls of a text: `a` to `d` take a lock of that name, and `-a` gives it back; `H` and `S` begin a hardirq and a softirq, and `.` ends it;
   `h0`, `h1`, `s0` and `s1` turn them off and on; `?` says whether the task is at rest. */
static void make(const char *text) {
    static const char *const names[] = {"a", "b", "c", "d"};
    for (; *text; text++)
        switch (*text) {
        case ' ': break;
        case '-': give(names[*++text - 'a']); break;
        case 'H': ldr_enter(&task, LDR_HARDIRQ); break;
        case 'S': ldr_enter(&task, LDR_SOFTIRQ); break;
        case '.': ldr_leave(&task); break;
        case 'h': turn(LDR_HARDIRQ, *++text == '1'); break;
        case 's': turn(LDR_SOFTIRQ, *++text == '1'); break;
        case '?': say_rest(); break;
        default: take(names[*text - 'a']);
        }
}

/* A case that is nothing but such calls. */
static void made(const char *name, const char *text) {
    begin_case(name);
    make(text);
    end_case();
}

/* ---- Acquisitions and releases. */

static void modes(void) {
    begin_case("modes");
    ldr_acquire(&task, "a", 0, LDR_W);
    ldr_acquire(&task, "b", 1, LDR_R);
    ldr_acquire(&task, "c", 2, LDR_RR);
    ldr_acquire(&task, "d", 3, LDR_W | LDR_TRY);
    ldr_acquire(&task, "e", 4, LDR_R | LDR_TRY);
    ldr_acquire(&task, "f", 7, LDR_RR | LDR_TRY);
    ldr_release(&task, "f", 7);
    ldr_release(&task, "e", 4);
    ldr_release(&task, "d", 3);
    ldr_release(&task, "c", 2);
    ldr_release(&task, "b", 1);
    ldr_release(&task, "a", 0);
    end_case();
}

#define SIXTEEN "0123456789abcdef"

static void names(void) {
    static const char *const good[] = {"map<int,int>", "\"", "a\"b\"", ",", "!~", SIXTEEN SIXTEEN SIXTEEN SIXTEEN};
    static const char *const bad[] = {"", "a b", "a\tb", "a\x7f", "\xc3\xa4", "a\n", SIXTEEN SIXTEEN SIXTEEN SIXTEEN "0", NULL};
    begin_case("names");
    for (unsigned i = 0; i < sizeof good / sizeof good[0]; i++) {
        take(good[i]);
        give(good[i]);
    }
    for (unsigned i = 0; i < sizeof bad / sizeof bad[0]; i++)
        take(bad[i]);
    give("a b");
    give(NULL);
    end_case();
}

static void words(void) {
    begin_case("words");
    ldr_acquire(&task, "a", 8, LDR_W);
    ldr_acquire(&task, "a", ~0u, LDR_W);
    ldr_acquire(&task, "a", 0, 3u);
    ldr_acquire(&task, "a", 0, 7u);
    ldr_acquire(&task, "a", 0, 8u);
    take("a");
    end_case();
}

/* A release goes by the name's characters, not by where they are, and gives back the newest. */
static void order(void) {
    static char there[] = "b";
    begin_case("order");
    make("a b a c -a");
    give(there);
    make("-c -a");
    end_case();
}

static void unseen(void) {
    begin_case("unseen");
    make("-a a");
    ldr_release(&task, "a", 1);
    give("ab");
    give("");
    make("-a -a");
    end_case();
}

/* ---- Interrupts. */

static void interrupts(void) { made("interrupts", "a H b -a -b . S c H d -d . -c . . -a"); }

/* Interrupts that no trace can have are left out with all their calls. */
static void nested(void) {
    begin_case("nested");
    make("H H a S . -a . b -b . S S . .");
    ldr_enter(&task, 0);
    ldr_leave(&task);
    ldr_enter(&task, 3);
    make(". c");
    end_case();
}

static void flags(void) {
    begin_case("flags");
    make("h1 h0 h0 s0 h1 s1 S s0 s1 h0 . H h0 h1 s1 .");
    ldr_off(&task, 7);
    end_case();
}

/* An interrupt that comes in although it is off. */
static void opened(void) { made("opened", "h0 H . h1 s0 h0 S h0 H . . h0"); }

static void kept(void) {
    begin_case("kept");
    make("a S b");
    ldr_acquire(&task, "c", 1, LDR_R);
    ldr_leave(&task);
    ldr_release(&task, "c", 1);
    give("a");
    end_case();
}

/* ---- What takes bytes. */

static unsigned puts_left;

static int put_some(void *cookie, const char *from, size_t size) {
    return puts_left > 0 && puts_left-- > 0 ? write_out(cookie, from, size) : -1;
}

/* One buffer is taken, and then none. Of 160 bytes, 144 are kept for a record, so each buffer has what came up to the first
   record that ends beyond 16. */
static void refused(void) {
    begin_case("refused");
    puts_left = 1;
    ldr_begin(&task, bytes, 160, put_some, NULL);
    take("one");
    take("two");
    give("two");
    give("one");
    take("three");
    end_case();
    give("three");
    make("H . h0 h1");
    say_counts();
}

#define QUOTES "\"\"\"\"\"\"\"\"\"\"\"\"\"\"\"\""

/* The longest record is that of a name of 64 quotes. */
static void small(void) {
    begin_case("small");
    say(ldr_begin(&task, bytes, LDR_ROOM - 1, write_out, NULL) == -1 ? "refused\n" : "accepted\n");
    make("a -a");
    end_case();
    say(ldr_begin(&task, bytes, LDR_ROOM, write_out, NULL) == 0 ? "accepted\n" : "refused\n");
    take(QUOTES QUOTES QUOTES QUOTES);
    end_case();
}

/* An interrupt that comes in while a buffer is put. */
static int put_interrupted(void *cookie, const char *from, size_t size) {
    make("H");
    take("within");
    make("H .");
    give("within");
    make(". .");
    ldr_flush(&task);
    return write_out(cookie, from, size);
}

static void inside(void) {
    begin_case("inside");
    ldr_begin(&task, bytes, 160, put_interrupted, NULL);
    make("a H . -a");
    ldr_flush(&task);
    say_counts();
}

/* ---- Places. */

static void places(void) {
    begin_case("places");
    ldr_places(&task, place_bytes, sizeof place_bytes, write_out, NULL);
    ldr_acquire_at(&task, "a", 0, LDR_W, "dir/one.c:17", "takes");
    ldr_off(&task, LDR_HARDIRQ);
    ldr_on_at(&task, LDR_HARDIRQ, "dir/two.c:4", "opens");
    give("a");
    ldr_acquire_at(&task, "a b", 0, LDR_W, "dir/one.c:18", "fails");
#line 100 "calls.c"
    take("b");
    ldr_off(&task, LDR_SOFTIRQ);
    ldr_on(&task, LDR_SOFTIRQ);
    ldr_on(&task, LDR_SOFTIRQ);
    end_case();
}

/* A buffer of 24 bytes has room for `2 one.c:17 takes` with its line end, and not for the next one as well. */
static void little_room(void) {
    begin_case("little_room");
    ldr_places(&task, place_bytes, 24, write_out, NULL);
    ldr_acquire_at(&task, "a", 0, LDR_W, "one.c:17", "takes");
    ldr_acquire_at(&task, "b", 0, LDR_W, "one.c:18", "takes");
    ldr_acquire_at(&task, "c", 0, LDR_W, "a_longer_name.c:19", "takes");
    end_case();
    begin_case("no_places_taken");
    puts_left = 0;
    ldr_places(&task, place_bytes, 24, put_some, NULL);
    ldr_acquire_at(&task, "a", 0, LDR_W, "one.c:17", "takes");
    ldr_acquire_at(&task, "b", 0, LDR_W, "one.c:18", "takes");
    ldr_acquire_at(&task, "c", 0, LDR_W, "one.c:19", "takes");
    end_case();
}

/* ---- Ends. */

static void ends(void) {
    made("ends", "a S b");
    make("-b .");
    say_counts();
    made("begun_again", "a -a");
}

static void rests(void) { made("rests", "? a ? -a ? s0 ? s1 ? S ? S ? . . ?"); }

/* A task that was never begun, but for its memory's being zero. */
static void unbegun(void) {
    static struct ldr_task other;
    say("== unbegun\n");
    ldr_acquire(&other, "a", 0, LDR_W);
    ldr_release(&other, "a", 0);
    ldr_enter(&other, LDR_HARDIRQ);
    ldr_leave(&other);
    ldr_off(&other, LDR_HARDIRQ);
    ldr_on(&other, LDR_HARDIRQ);
    ldr_flush(&other);
    ldr_end(&other);
}

/* ---- Bounds. */

static void deep(void) {
    begin_case("deep");
    for (unsigned i = 0; i < 47; i++)
        take("a");
    make("H b c -c -b .");
    end_case();
}

static uint32_t lines;

static int put_count(void *cookie, const char *from, size_t size) {
    (void)cookie;
    for (size_t i = 0; i < size; i++)
        lines += from[i] == '\n';
    return 0;
}

static void many(void) {
    begin_case("many");
    lines = 0;
    ldr_begin(&task, bytes, sizeof bytes, put_count, NULL);
    for (uint32_t i = 0; i < 499999; i++) {
        take("a");
        give("a");
    }
    make("h0 H a . -a");
    end_case();
    say_number(lines);
    say(" lines\n");
}

#ifdef LDR_KNOWN_STEPS

static void nest(const char *innermost) {
    take("a");
    take("b");
    if (innermost) {
        take(innermost);
        give(innermost);
    }
    make("-b -a");
}

static void hold(void) { take("a"); }

/* What is done again isn't written, but for what is held round something new, and at a flush. */
static void known(void) {
    static struct ldr_step steps[16];
    begin_case("known");
    ldr_known(&task, steps, 16);
    nest(NULL);
    nest(NULL);
    nest("c");
    nest("c");
    nest(NULL);
    hold();
    make("h0 h1 -a");
    hold();
    make("h0 h1 -a");
    hold();
    ldr_flush(&task);
    give("a");
    hold();
    end_case();
}

#endif

void begin(void) {
    modes();
    names();
    words();
    order();
    unseen();
    interrupts();
    nested();
    flags();
    opened();
    kept();
    refused();
    small();
    inside();
    places();
    little_room();
    ends();
    rests();
    unbegun();
    deep();
    many();
#ifdef LDR_KNOWN_STEPS
    known();
#endif
    end_program();
}
