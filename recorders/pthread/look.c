/* Says why a recording of a program may see none of its locks, as far as its file shows that: look FILE, look --each FILE..., or
   look --all FILE...

   Writes one word a line: `static`, `setuid`, `other-machine`, `other-libc`, `go`, `rust`, `libpython`, `libjvm`; or, if it is none
   of these and the program itself calls no function of a pthread lock, `no-pthread-import`. Of a script the interpreter is
   looked at. With --each it writes lines `WORD<tab>FILE`, for programs and libraries: `go`, `libpython`, `libjvm`, a word of another
   runtime with locks of its own, as `mono`, `embed` if there is the code of lockdep_record.h in it, `openmp` if it takes a lock of
   OpenMP, `glib` if it takes a mutex of GLib, `python-lock` if it takes a lock of Python's C API, `semaphore` if it waits for
   semaphores, `futex` if it waits by futexes itself, `sanitizer` if it is built with one that has an allocator of its own, or is the
   library of one, and `pthread` if it calls such a function. With --all it writes both: what is said of FILE alone stands in lines
   `program WORD<tab>FILE`. */
#define _GNU_SOURCE
#include <elf.h>
#include <fcntl.h>
#include <limits.h>
#include <stdbool.h>
#include <stdint.h>
#include <stdio.h>
#include <stdlib.h>
#include <string.h>
#include <sys/mman.h>
#include <sys/stat.h>
#include <sys/xattr.h>
#include <unistd.h>

/* How many interpreters of interpreters are followed. */
#define MOST_SCRIPTS 4

/* The machine that this program was built for, which is that of the preload library. */
#if defined(__x86_64__)
#define MACHINE EM_X86_64
#elif defined(__aarch64__)
#define MACHINE EM_AARCH64
#elif defined(__riscv)
#define MACHINE EM_RISCV
#elif defined(__powerpc64__)
#define MACHINE EM_PPC64
#elif defined(__s390x__)
#define MACHINE EM_S390
#else
#define MACHINE EM_NONE
#endif

struct file {
    const char *bytes;
    size_t size;
};

static bool open_file(const char *path, struct file *file) {
    int fd = open(path, O_RDONLY | O_CLOEXEC);
    struct stat about;
    if (fd < 0)
        return false;
    bool is_read = fstat(fd, &about) == 0 && about.st_size > 0;
    void *bytes = is_read ? mmap(NULL, (size_t)about.st_size, PROT_READ, MAP_PRIVATE, fd, 0) : MAP_FAILED;
    close(fd);
    *file = (struct file){bytes, (size_t)about.st_size};
    return bytes != MAP_FAILED;
}

/* A part of the file, or nothing if it doesn't lie within it. */
static const void *part(const struct file *file, uint64_t offset, uint64_t size) {
    return offset <= file->size && size <= file->size - offset ? file->bytes + offset : NULL;
}

static bool has(const struct file *file, const char *text) { return memmem(file->bytes, file->size, text, strlen(text)); }

/* ---- Scripts. */

/* The file of a name that `env` is given, on the PATH. */
static bool find(const char *name, char *found) {
    const char *folders = getenv("PATH");
    for (; folders; folders = strchr(folders, ':') ? strchr(folders, ':') + 1 : NULL) {
        snprintf(found, PATH_MAX, "%.*s/%s", (int)strcspn(folders, ":"), folders, name);
        if (access(found, X_OK) == 0)
            return true;
    }
    return false;
}

/* The interpreter that the first line of a script names; after `env` the first word that is neither an option nor a
   variable. */
static bool interpreter(const struct file *file, char *found) {
    char line[256], *rest = NULL;
    if (file->size < 2 || memcmp(file->bytes, "#!", 2) != 0)
        return false;
    size_t length = file->size - 2 < sizeof line - 1 ? file->size - 2 : sizeof line - 1;
    memcpy(line, file->bytes + 2, length);
    line[length] = 0;
    line[strcspn(line, "\n")] = 0;
    const char *word = strtok_r(line, " \t", &rest);
    if (!word)
        return false;
    const char *slash = strrchr(word, '/');
    if (strcmp(slash ? slash + 1 : word, "env") != 0) {
        snprintf(found, PATH_MAX, "%s", word);
        return true;
    }
    do
        word = strtok_r(NULL, " \t", &rest);
    while (word && (word[0] == '-' || strchr(word, '=')));
    return word && find(word, found);
}

/* ---- Programs. */

/* Whether the loader will pass over what is preloaded, since the program gets rights that its caller doesn't have. */
static bool gets_rights(const char *path) {
    struct stat about;
    if (stat(path, &about) != 0)
        return false;
    return ((about.st_mode & S_ISUID) && about.st_uid != getuid()) ||
           ((about.st_mode & S_ISGID) && about.st_gid != getgid()) ||
           (geteuid() != 0 && getxattr(path, "security.capability", NULL, 0) > 0);
}

/* The name of the loader that the program asks for; empty if it asks for none. */
static void read_loader(const struct file *file, const Elf64_Ehdr *head, char *loader, size_t room) {
    loader[0] = 0;
    const Elf64_Phdr *parts = part(file, head->e_phoff, (uint64_t)head->e_phnum * sizeof *parts);
    for (int i = 0; parts && i < head->e_phnum; i++) {
        const char *name = parts[i].p_type == PT_INTERP ? part(file, parts[i].p_offset, parts[i].p_filesz) : NULL;
        if (name)
            snprintf(loader, room, "%.*s", (int)parts[i].p_filesz, name);
    }
}

/* The program's symbols of one kind with their names, or none. */
struct symbols {
    const Elf64_Sym *list;
    size_t count;
    const char *names;
    size_t names_size;
};

static struct symbols read_symbols(const struct file *file, const Elf64_Ehdr *head, uint32_t type) {
    struct symbols none = {0}, found = {0};
    const Elf64_Shdr *parts = part(file, head->e_shoff, (uint64_t)head->e_shnum * sizeof *parts);
    for (int i = 0; parts && i < head->e_shnum; i++) {
        if (parts[i].sh_type != type || parts[i].sh_link >= head->e_shnum)
            continue;
        const Elf64_Shdr *names = &parts[parts[i].sh_link];
        found.list = part(file, parts[i].sh_offset, parts[i].sh_size);
        found.count = parts[i].sh_size / sizeof *found.list;
        found.names = part(file, names->sh_offset, names->sh_size);
        found.names_size = names->sh_size;
    }
    bool is_whole = found.list && found.names && found.names_size && !found.names[found.names_size - 1];
    return is_whole ? found : none;
}

static bool begins_with(const char *text, const char *start) { return strncmp(text, start, strlen(start)) == 0; }

#define MOST_STARTS 8

/* How the names begin of functions that take locks: those of pthreads and C11, those of OpenMP, the last three of which the compilers
   call for a critical section, those of GLib's mutexes, which wait by futexes, those of Python's C API, and those that wait for a
   semaphore. */
static const char *const starts_of_pthreads[MOST_STARTS] = {"pthread_mutex_", "pthread_rwlock_", "pthread_spin_", "mtx_", "pthread_once"};
static const char *const starts_of_openmp[MOST_STARTS] = {"omp_set_lock", "omp_test_lock", "omp_set_nest_lock", "omp_test_nest_lock",
                                                          "GOMP_critical_start", "GOMP_critical_name_start", "__kmpc_critical"};
static const char *const starts_of_glib[MOST_STARTS] = {"g_mutex_lock", "g_mutex_trylock"};
static const char *const starts_of_python[MOST_STARTS] = {"PyThread_acquire_lock", "PyMutex_Lock"};
static const char *const starts_of_semaphores[MOST_STARTS] = {"sem_wait", "sem_trywait", "sem_timedwait", "sem_clockwait"};

static bool begins_with_any(const char *name, const char *const starts[MOST_STARTS]) {
    for (size_t i = 0; i < MOST_STARTS && starts[i]; i++)
        if (begins_with(name, starts[i]))
            return true;
    return false;
}

static bool calls_any(const struct symbols *symbols, const char *const starts[MOST_STARTS]) {
    for (size_t i = 0; i < symbols->count; i++)
        if (symbols->list[i].st_shndx == SHN_UNDEF && symbols->list[i].st_name < symbols->names_size &&
            begins_with_any(symbols->names + symbols->list[i].st_name, starts))
            return true;
    return false;
}

static bool calls_locks(const struct symbols *symbols) { return calls_any(symbols, starts_of_pthreads); }

static bool names_any(const struct symbols *symbols, const char *text) {
    return symbols->names && memmem(symbols->names, symbols->names_size, text, strlen(text));
}

static bool is_something_said;

/* The file that is spoken of among several ones. */
static const char *subject;

static void say(bool is_so, const char *word) {
    if (!is_so)
        return;
    if (subject)
        printf("program %s\t%s\n", word, subject);
    else
        puts(word);
    is_something_said = true;
}

static bool is_go(const struct file *file) { return has(file, "\xff Go buildinf:"); }

static bool is_python(const struct symbols *symbols) {
    return names_any(symbols, "libpython") || names_any(symbols, "libpypy") || names_any(symbols, "Py_BytesMain");
}

static bool is_java(const struct symbols *symbols) { return names_any(symbols, "libjvm") || names_any(symbols, "libjli"); }

/* ---- Runtimes with locks of their own. One is known by the names of its symbols and libraries, or by a text if it has no symbols. */

#define MOST_NAMES 4

struct runtime {
    const char *word;
    const char *names[MOST_NAMES];
    const char *text;
};

static const struct runtime runtimes[] = {
    {"mono", {"mono_jit_init", "libmonosgen"}, NULL},
    {"dotnet", {"coreclr_initialize", "libcoreclr.so", "DotNetRuntimeInfo", "DotNetRuntimeDebugHeader"}, NULL},
    {"haskell", {"libHSrts"}, "Use hs_init_with_rtsopts() to enable them."},
    {"ocaml", {"caml_mutex_lock", "caml_ml_mutex_lock"}, NULL},
    {"perl", {"boot_threads__shared"}, NULL},
    {"guile", {"libguile", "scm_boot_guile"}, NULL},
    {"erlang", {"erl_drv_mutex_lock"}, NULL},
    {"node", {"node_module_register"}, NULL},
    {"ruby", {"libruby", "ruby_init"}, NULL},
};

static bool has_any_name(const struct symbols *symbols, const char *const *names, size_t most) {
    for (size_t i = 0; i < most && names[i]; i++)
        if (names_any(symbols, names[i]))
            return true;
    return false;
}

static bool is_runtime(const struct runtime *runtime, const struct file *file, const struct symbols *symbols) {
    return has_any_name(symbols, runtime->names, MOST_NAMES) || (runtime->text && has(file, runtime->text));
}

/* ---- Waiting by futexes, which is done in the program's own code. */

/* Parts of the names of what std::atomic waits by, and so std::counting_semaphore, in the libraries of gcc and clang, as linkers have them: every
   program has the constant __platform_wait_alignment that includes <thread>. */
static const char *const names_of_atomic_waits[] = {"15__platform_wait", "21__platform_wait_until", "__atomic_wait_address", "__waiter_pool", "__wait_impl",
                                                    "__libcpp_atomic_wait"};
static const char *const starts_of_system_calls[MOST_STARTS] = {"syscall"};

/* How the system call of a futex is given as an argument to the function `syscall`. */
#if defined(__x86_64__)
static const char futex_number[] = {'\xbf', '\xca', 0, 0, 0}; /* mov $202, %edi */
#elif defined(__aarch64__)
static const char futex_number[] = {'\x40', '\x0c', '\x80', '\xd2'}; /* mov x0, #98 */
#else
static const char futex_number[] = "(not known for this machine)";
#endif

/* What std::future waits by, in the library of gcc. */
static const char wait_of_future[] = "__atomic_futex_unsigned_base19_M_futex_wait_until";

/* A stripped program shows only what it imports. The C++ library has futexes of its own if it is linked in, and locks of pthreads
   then, so its system calls show only of a program without such locks that it has other ones. */
static bool waits_by_futex(const struct file *file, const struct symbols *symbols, const struct symbols *all) {
    size_t count = sizeof names_of_atomic_waits / sizeof *names_of_atomic_waits;
    if (has_any_name(symbols, names_of_atomic_waits, count) || has_any_name(all, names_of_atomic_waits, count) || names_any(symbols, wait_of_future))
        return true;
    return !calls_locks(symbols) && calls_any(symbols, starts_of_system_calls) && memmem(file->bytes, file->size, futex_number, sizeof futex_number);
}

/* ---- Sanitizers. */

/* The libraries of sanitizers that have an allocator of their own, as gcc names them, and as clang does. */
static const char *const sanitizers[] = {"libasan.so",        "liblsan.so",          "libtsan.so",         "libhwasan.so",
                                         "libclang_rt.asan",  "libclang_rt.hwasan",  "libclang_rt.tsan"};

/* What a file has in it if such a sanitizer is linked in: the name of its own form of malloc, or, if it is stripped, a message. */
static const char *const signs_of_sanitizers[] = {"__interceptor_malloc", "malloc_usable_size() for pointer which is not owned",
                                                  "ThreadSanitizer: failed to set thread key",
                                                  "LeakSanitizer: failed to set thread key"};

/* Whether one of these is needed, or linked in. */
static bool has_sanitizer(const struct file *file, const struct symbols *symbols) {
    for (size_t i = 0; i < sizeof sanitizers / sizeof *sanitizers; i++)
        if (names_any(symbols, sanitizers[i]))
            return true;
    for (size_t i = 0; i < sizeof signs_of_sanitizers / sizeof *signs_of_sanitizers; i++)
        if (has(file, signs_of_sanitizers[i]))
            return true;
    return false;
}

/* The file's first part, if it is a program or a library. */
static const Elf64_Ehdr *read_head(const struct file *file) {
    const Elf64_Ehdr *head = part(file, 0, sizeof *head);
    return head && memcmp(head->e_ident, ELFMAG, SELFMAG) == 0 ? head : NULL;
}

static bool is_other_machine(const Elf64_Ehdr *head) {
    return head->e_ident[EI_CLASS] != ELFCLASS64 || (MACHINE != EM_NONE && head->e_machine != MACHINE);
}

static void look_at_program(const struct file *file) {
    const Elf64_Ehdr *head = read_head(file);
    if (!head)
        return;
    say(is_other_machine(head), "other-machine");
    if (is_other_machine(head))
        return;
    char loader[PATH_MAX];
    read_loader(file, head, loader, sizeof loader);
    struct symbols symbols = read_symbols(file, head, SHT_DYNSYM);
    say(!loader[0], "static");
    say(strstr(loader, "musl"), "other-libc");
    say(is_go(file), "go");
    say(has(file, "RUST_BACKTRACE"), "rust");
    say(is_python(&symbols), "libpython");
    say(is_java(&symbols), "libjvm");
    say(!is_something_said && symbols.count > 0 && !calls_locks(&symbols), "no-pthread-import");
}

/* Opens a file; of a script, that of its interpreter, whose path replaces that of the script. */
static bool open_program(char *path, struct file *file) {
    bool is_open = open_file(path, file);
    for (int scripts = 0; is_open && scripts < MOST_SCRIPTS && interpreter(file, path); scripts++)
        is_open = open_file(path, file);
    return is_open;
}

static void say_of(bool is_so, const char *word, const char *path) {
    if (is_so)
        printf("%s\t%s\n", word, path);
}

static void look_at_each(const char *name) {
    char path[PATH_MAX];
    snprintf(path, sizeof path, "%s", name);
    struct file file;
    if (!open_program(path, &file))
        return;
    const Elf64_Ehdr *head = read_head(&file);
    if (head) {
        struct symbols symbols = {0}, all = {0};
        if (!is_other_machine(head)) {
            symbols = read_symbols(&file, head, SHT_DYNSYM);
            all = read_symbols(&file, head, SHT_SYMTAB);
        }
        say_of(is_go(&file), "go", name);
        say_of(is_python(&symbols), "libpython", name);
        say_of(is_java(&symbols), "libjvm", name);
        for (size_t i = 0; i < sizeof runtimes / sizeof *runtimes; i++)
            say_of(is_runtime(&runtimes[i], &file, &symbols), runtimes[i].word, name);
        say_of(has(&file, "ldr1 lockdep,2\n"), "embed", name);
        say_of(calls_any(&symbols, starts_of_openmp), "openmp", name);
        say_of(calls_any(&symbols, starts_of_glib), "glib", name);
        say_of(calls_any(&symbols, starts_of_python), "python-lock", name);
        say_of(calls_any(&symbols, starts_of_semaphores), "semaphore", name);
        say_of(waits_by_futex(&file, &symbols, &all), "futex", name);
        say_of(has_sanitizer(&file, &symbols), "sanitizer", name);
        say_of(calls_locks(&symbols), "pthread", name);
    }
    munmap((void *)file.bytes, file.size);
}

static void look_at_one(const char *name) {
    char path[PATH_MAX];
    snprintf(path, sizeof path, "%s", name);
    struct file file;
    bool is_open = open_program(path, &file);
    is_something_said = false;
    say(gets_rights(path), "setuid");
    if (!is_open)
        return;
    look_at_program(&file);
    munmap((void *)file.bytes, file.size);
}

int main(int argc, char **argv) {
    bool is_all = argc > 1 && strcmp(argv[1], "--all") == 0;
    if (is_all || (argc > 1 && strcmp(argv[1], "--each") == 0)) {
        for (int i = 2; i < argc; i++) {
            subject = argv[i];
            if (is_all)
                look_at_one(argv[i]);
            look_at_each(argv[i]);
        }
        return 0;
    }
    if (argc != 2) {
        fputs("look: this is a part of `record`\n", stderr);
        return 2;
    }
    look_at_one(argv[1]);
    return 0;
}
