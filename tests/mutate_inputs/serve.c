/* Stands before a program's main and runs it once for each list of words that comes, each time in a process of its own, forked from
   the program as it is before main: so a run costs no start of a program. Built by mutate_inputs.py.

   SERVE_WORDS and SERVE_ANSWERS are the numbers of two pipes. A list is its number of bytes and then its words, each ended by a zero
   byte; the first is the program's own name. An answer is how the process ended, as waitpid tells it, the numbers of bytes on standard
   output and on standard error, and these bytes. Numbers are of the machine's int. SERVE_SECONDS is the longest that a run may take: the
   alarm then ends it. The program's standard input is what the server's is. */
#define _GNU_SOURCE
#include <dlfcn.h>
#include <link.h>
#include <stdlib.h>
#include <string.h>
#include <sys/mman.h>
#include <sys/wait.h>
#include <unistd.h>

typedef int (*main_function)(int, char **, char **);
typedef int (*start_function)(main_function, int, char **, void (*)(void), void (*)(void), void (*)(void), void *);

static main_function program_main;
static int words_pipe, answers_pipe, console, report;
static unsigned seconds;

static void fail(void) { _exit(126); }

static int number_of(const char *name) {
    const char *text = getenv(name);
    if (!text) fail();
    return atoi(text);
}

/* Whether all bytes came; none come where there is no further list. */
static int read_all(void *into, size_t size) {
    for (size_t had = 0; had < size;) {
        ssize_t got = read(words_pipe, (char *)into + had, size - had);
        if (got == 0 && had == 0) return 0;
        if (got <= 0) fail();
        had += (size_t)got;
    }
    return 1;
}

static void write_all(const void *from, size_t size) {
    for (size_t had = 0; had < size;) {
        ssize_t put = write(answers_pipe, (const char *)from + had, size - had);
        if (put <= 0) fail();
        had += (size_t)put;
    }
}

static void make_empty(int file) {
    if (ftruncate(file, 0) != 0 || lseek(file, 0, SEEK_SET) != 0) fail();
}

static void write_content(int file, int size) {
    if (size == 0) return;
    void *content = mmap(NULL, (size_t)size, PROT_READ, MAP_PRIVATE, file, 0);
    if (content == MAP_FAILED) fail();
    write_all(content, (size_t)size);
    munmap(content, (size_t)size);
}

static void answer(int ended) {
    int told[3] = {ended, (int)lseek(console, 0, SEEK_END), (int)lseek(report, 0, SEEK_END)};
    write_all(told, sizeof told);
    write_content(console, told[1]);
    write_content(report, told[2]);
}

/* The words of a list, with a null pointer after them. */
static char **split(char *list, int size, int *count) {
    *count = 0;
    for (int i = 0; i < size; i++) *count += list[i] == 0;
    char **words = malloc((size_t)(*count + 1) * sizeof *words);
    if (!words) fail();
    char *word = list;
    for (int i = 0; i < *count; i++, word += strlen(word) + 1) words[i] = word;
    words[*count] = NULL;
    return words;
}

struct words {
    int count;
    char **words, **variables;
};

/* Does again what the program does before its main, with the words of this run, since it may keep them there. The first of the loaded
   files is the program. */
static int begin_again(struct dl_phdr_info *program, size_t size, void *given) {
    (void)size;
    struct words *of = given;
    void (**begin)(int, char **, char **) = NULL;
    size_t bytes = 0;
    for (int i = 0; i < program->dlpi_phnum; i++) {
        if (program->dlpi_phdr[i].p_type != PT_DYNAMIC) continue;
        for (ElfW(Dyn) *it = (void *)(program->dlpi_addr + program->dlpi_phdr[i].p_vaddr); it->d_tag != DT_NULL; it++) {
            if (it->d_tag == DT_INIT_ARRAY) begin = (void *)(program->dlpi_addr + it->d_un.d_ptr);
            if (it->d_tag == DT_INIT_ARRAYSZ) bytes = it->d_un.d_val;
        }
    }
    for (size_t i = 0; begin && i < bytes / sizeof *begin; i++) begin[i](of->count, of->words, of->variables);
    return 1;
}

static int run(char **words, int count, char **variables) {
    struct words of = {count, words, variables};
    if (dup2(console, 1) < 0 || dup2(report, 2) < 0) fail();
    close(words_pipe);
    close(answers_pipe);
    close(console);
    close(report);
    alarm(seconds);
    dl_iterate_phdr(begin_again, &of);
    return program_main(count, words, variables);
}

/* In the server it doesn't return before the last list; in each process of a run it returns what the program's main does. */
static int serve(int argc, char **argv, char **variables) {
    (void)argc, (void)argv;
    int size, count, ended;
    while (read_all(&size, sizeof size)) {
        char *list = malloc((size_t)size);
        if (!list || !read_all(list, (size_t)size)) fail();
        char **words = split(list, size, &count);
        make_empty(console);
        make_empty(report);
        pid_t child = fork();
        if (child < 0) fail();
        if (child == 0) return run(words, count, variables);
        if (waitpid(child, &ended, 0) != child) fail();
        answer(ended);
        free(words);
        free(list);
    }
    _exit(0);
}

int __libc_start_main(main_function given, int argc, char **argv, void (*begin)(void), void (*end)(void), void (*end_of_loader)(void), void *stack) {
    start_function real = (start_function)dlsym(RTLD_NEXT, "__libc_start_main");
    if (!real) fail();
    program_main = given;
    words_pipe = number_of("SERVE_WORDS");
    answers_pipe = number_of("SERVE_ANSWERS");
    seconds = (unsigned)number_of("SERVE_SECONDS");
    console = memfd_create("console", MFD_CLOEXEC);
    report = memfd_create("report", MFD_CLOEXEC);
    if (console < 0 || report < 0) fail();
    unsetenv("LD_PRELOAD");
    return real(serve, argc, argv, begin, end, end_of_loader, stack);
}
