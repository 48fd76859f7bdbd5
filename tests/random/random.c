/* Runs the program on random input, and says of each run whether it kept to its promises.
 *
 *   random PROGRAM FOLDER RUNS SEED EXAMPLE..
 *
 * FOLDER is where inputs lie. Each EXAMPLE is a file whose lines inputs are made from: its name's
 * end says what it is (.trace, .modules, .kallsyms, .regions, .addresses, .script). Of a run that
 * breaks a promise the input stays in FOLDER, and the status is 1.
 *
 * The promises: a run ends within SECONDS, by itself, with status 0 or 1; with 0 nothing is on
 * standard error but notes on the listings; with 1 one line is, which begins with `latchsym: `, and
 * standard output is empty;
 * the counts of a lookup add up to the lines of its listings; no answer of a script is wrong. */
#define _POSIX_C_SOURCE 200809L
#include <fcntl.h>
#include <stdint.h>
#include <stdio.h>
#include <stdlib.h>
#include <string.h>
#include <sys/wait.h>
#include <unistd.h>

enum { SECONDS = 10, MOST_BYTES = 1 << 16, KINDS = 6 };

static const char *const ends[KINDS] = {"trace", "modules", "kallsyms", "regions", "addresses", "script"};

/* The lines of all examples of a kind. */
struct lines {
    char **line;
    size_t count;
};

static struct lines examples[KINDS];

static uint64_t state;

/* xorshift64* */
static uint64_t any(void) {
    state ^= state >> 12;
    state ^= state << 25;
    state ^= state >> 27;
    return state * 0x2545f4914f6cdd1d;
}

static size_t below(size_t count) { return any() % count; }

struct input {
    unsigned char byte[MOST_BYTES];
    size_t length;
};

static void put(struct input *input, const void *bytes, size_t count) {
    if (count > MOST_BYTES - input->length) count = MOST_BYTES - input->length;
    memcpy(input->byte + input->length, bytes, count);
    input->length += count;
}

static void put_text(struct input *input, const char *text) { put(input, text, strlen(text)); }

/* A small number, an address of one of a few ranges that meet, or seldom a number at the edge of what is understood. */
static void put_number(struct input *input, size_t seldom) {
    static const char *const edges[] = {
        "0", "00000000000000000007", "4294967295", "4294967296", "18446744073709551615", "18446744073709551616",
        "0xffffffffffffffff", "0x00000000000000001", "0x10000000000000000", "65536", "65537", "0x", "-1", "1e3", "",
    };
    char text[40];
    if (below(seldom) == 0) {
        put_text(input, edges[below(sizeof edges / sizeof *edges)]);
        return;
    }
    snprintf(text, sizeof text, below(2) ? "%llu" : "0x%llx", 1 + (unsigned long long)(any() >> (below(4) ? 60 : below(64))));
    put_text(input, text);
}

/* A line of one of these forms, in which each @ is a number. */
static void put_form(struct input *input, const char *const *forms, size_t count, size_t seldom) {
    for (const char *at = forms[below(count)]; *at; at++)
        if (*at == '@') put_number(input, seldom);
        else put(input, at, 1);
}

static const char *const trace_forms[] = {
    "insert @ @ @", "insert @ @ @", "erase @", "write @", "write flip", "write end", "write end", "start @ @", "read @ @",
    "batch 1 1 @ @ @ @", "batch 0 2 @ @ @ @ @ @", "batch 0 0", "", "# a comment",
};

static const char *const script_forms[] = {
    "load 1 ext4", "load 2 xfs", "load 3 m", "load 4 m", "unload 8 ext4", "unload 5 m", "init 6 m", "look 1 @", "look 1 @",
    "look 1 0xffffffffc0000018", "look 2 @", "", "# a comment",
};

/* Whether one line that is not understood spoils a file of this kind. */
static int is_strict(int kind) { return kind != 1 && kind != 2; }

/* One of the examples' lines or a line of a form, as it stands or seldom with other bytes in it. */
static void put_line(struct input *input, int kind) {
    size_t start = input->length, seldom = is_strict(kind) ? 60 : 3;
    if (below(4 * seldom) == 0) {
        for (size_t count = below(64); count; count--) put(input, &(unsigned char){any()}, 1);
    } else if (kind == 0 && below(8)) {
        put_form(input, trace_forms, sizeof trace_forms / sizeof *trace_forms, 4 * seldom);
    } else if (kind == 5 && below(8)) {
        put_form(input, script_forms, sizeof script_forms / sizeof *script_forms, 4 * seldom);
    } else if (kind == 4 && below(2)) {
        put_number(input, 4 * seldom);
    } else if (examples[kind].count) {
        put_text(input, examples[kind].line[below(examples[kind].count)]);
    }
    if (below(4 * seldom) == 0 && input->length > start)
        input->byte[start + below(input->length - start)] = below(4) ? (unsigned char)"\t 0x#\r[]\n"[below(9)] : any();
    if (below(10 * seldom) == 0)
        for (size_t count = 4090 + below(10); input->length - start < count && input->length < MOST_BYTES;) put(input, "7", 1);
}

/* A file of this kind: random bytes, or lines after the header of an example. */
static void make(struct input *input, int kind) {
    input->length = 0;
    if (below(10) == 0) {
        for (size_t count = below(2000); count; count--) put(input, &(unsigned char){any()}, 1);
        return;
    }
    if (kind == 0 && below(20)) {
        char header[80];
        snprintf(header, sizeof header, "latchtrace %d %s %d", 1 + (int)below(3), below(2) ? "halfopen" : "closed", 1 + (int)below(9));
        put_text(input, header);
        if (below(6) == 0) put_text(input, below(2) ? " 4294967292" : " 18446744073709551612");
        put(input, "\n", 1);
    } else if (kind == 3 && below(20)) {
        put_text(input, "latchregions 1\n");
    }
    for (size_t count = below(below(4) ? 40 : 4); count; count--) {
        put_line(input, kind);
        put(input, "\n", 1);
    }
    if (input->length && below(8) == 0) input->length -= 1 + below(input->length < 9 ? input->length : 9);
}

static char folder[3000];

static void path_of(char *path, const char *name) { snprintf(path, 4000, "%s/%s", folder, name); }

static void write_file(const char *name, const struct input *input) {
    char path[4000];
    path_of(path, name);
    FILE *file = fopen(path, "w");
    if (!file || fwrite(input->byte, 1, input->length, file) != input->length || fclose(file)) {
        perror(path);
        exit(2);
    }
}

static size_t read_file(const char *name, char *bytes, size_t most) {
    char path[4000];
    path_of(path, name);
    FILE *file = fopen(path, "r");
    if (!file) return 0;
    size_t count = fread(bytes, 1, most - 1, file);
    bytes[count] = 0;
    fclose(file);
    return count;
}

static int opened(const char *name) {
    char path[4000];
    path_of(path, name);
    return open(path, O_CREAT | O_TRUNC | O_WRONLY, 0600);
}

/* Runs the program in FOLDER; its status as wait gives it. */
static int run(char *const *arguments) {
    int status = 0;
    pid_t child = fork();
    if (child == 0) {
        alarm(SECONDS);
        dup2(opened("out"), 1);
        dup2(opened("err"), 2);
        if (chdir(folder)) _exit(126);
        execv(arguments[0], arguments);
        _exit(127);
    }
    if (child < 0 || waitpid(child, &status, 0) != child) {
        perror("random");
        exit(2);
    }
    return status;
}

static size_t lines_of(const struct input *input) {
    size_t count = 0;
    for (size_t i = 0; i < input->length; i++) count += input->byte[i] == '\n';
    return count + (input->length && input->byte[input->length - 1] != '\n');
}

/* The sum of the counts in the line of this name, if all is well. */
static int adds_up(const char *out, const char *name, size_t lines) {
    const char *at = out;
    size_t sum = 0;
    while (at && strncmp(at, name, strlen(name))) at = (at = strchr(at, '\n')) ? at + 1 : at;
    if (!at) return 0;
    for (const char *end = strchr(at, '\n'); at && at < end; at = strchr(at, ' ')) {
        while (*at == ' ') at++;
        if (*at >= '0' && *at <= '9') sum += strtoull(at, NULL, 10);
    }
    return sum == lines;
}

static char out[1 << 22], err[1 << 16];

/* Whether nothing is on standard error but notes, one at most on each of two listings. */
static int has_notes_alone(void) {
    static const char note[] = "latchsym: note: random.";
    int lines = 0;
    for (const char *at = err; *at; at++, lines++)
        if (strncmp(at, note, strlen(note)) || !(at = strchr(at, '\n'))) return 0;
    return lines <= 2;
}

/* What is wrong with the run that has ended, or none. */
static const char *fault_of(int status) {
    size_t written = read_file("out", out, sizeof out);
    read_file("err", err, sizeof err);
    char *end = strchr(err, '\n');
    if (!WIFEXITED(status)) return WIFSIGNALED(status) && WTERMSIG(status) == SIGALRM ? "no end" : "a crash";
    if (WEXITSTATUS(status) > 1) return "another status";
    if (WEXITSTATUS(status) == 0) return has_notes_alone() ? NULL : "a fault on standard error with status 0";
    if (has_notes_alone() && strstr(out, "checked ")) return "a wrong answer";
    if (written) return "output with status 1";
    if (strncmp(err, "latchsym: ", 10) || !end || end[1]) return "not one line on standard error";
    return NULL;
}

static struct input modules, symbols, other;

static const char *try_trace(char *program) {
    make(&other, 0);
    write_file("random.trace", &other);
    const char *fault = fault_of(run((char *[]){program, "trace", "random.trace", NULL}));
    return fault ? fault : fault_of(run((char *[]){program, "trace", "--steps", "random.trace", NULL}));
}

/* Random listings, with one of regions or not: the words of the command line that name them. */
static char **put_listings(char **next) {
    make(&modules, 1);
    write_file("random.modules", &modules);
    make(&symbols, 2);
    write_file("random.kallsyms", &symbols);
    *next++ = "--modules";
    *next++ = "random.modules";
    *next++ = "--kallsyms";
    *next++ = "random.kallsyms";
    if (below(2)) {
        make(&other, 3);
        write_file("random.regions", &other);
        *next++ = "--regions";
        *next++ = "random.regions";
    }
    return next;
}

static const char *try_lookup(char *program) {
    char *arguments[16] = {program, "lookup"}, **next = put_listings(arguments + 2);
    *next++ = "0xffffffffc0000018";
    if (below(2)) {
        make(&other, 4);
        write_file("random.addresses", &other);
        *next++ = "--addresses";
        *next++ = "random.addresses";
    }
    int status = run(arguments);
    const char *fault = fault_of(status);
    if (fault || status) return fault;
    if (!adds_up(out, "modules ", lines_of(&modules))) return "counts of modules that do not add up";
    if (!adds_up(out, "symbols ", lines_of(&symbols))) return "counts of symbols that do not add up";
    return NULL;
}

static const char *try_run(char *program) {
    char *arguments[16] = {program, "run"}, **next = put_listings(arguments + 2);
    *next++ = "--readers";
    *next++ = below(4) ? "2" : "1";
    make(&other, 5);
    write_file("random.script", &other);
    *next++ = "random.script";
    return fault_of(run(arguments));
}

static void add_example(const char *path) {
    static char text[1 << 20];
    const char *end = strrchr(path, '.');
    FILE *file = fopen(path, "r");
    if (!end || !file) return;
    text[fread(text, 1, sizeof text - 1, file)] = 0;
    fclose(file);
    for (int kind = 0; kind < KINDS; kind++) {
        if (strcmp(end + 1, ends[kind])) continue;
        struct lines *lines = &examples[kind];
        for (char *line = strtok(text, "\n"); line; line = strtok(NULL, "\n")) {
            if (!strncmp(line, "latch", 5)) continue;
            lines->line = realloc(lines->line, (lines->count + 1) * sizeof *lines->line);
            lines->line[lines->count++] = strdup(line);
        }
    }
}

int main(int count, char **word) {
    if (count < 5) return 2;
    char *program = word[1];
    snprintf(folder, sizeof folder, "%s", word[2]);
    long runs = atol(word[3]), understood = 0;
    state = strtoull(word[4], NULL, 0) | 1;
    for (int i = 5; i < count; i++) add_example(word[i]);
    for (long i = 0; i < runs; i++) {
        const char *fault = i % 3 == 0 ? try_trace(program) : i % 3 == 1 ? try_lookup(program) : try_run(program);
        if (fault) {
            printf("random: run %ld: %s: see %s\n", i, fault, folder);
            return 1;
        }
        understood += has_notes_alone();
    }
    printf("random: %ld runs, %ld of them understood\n", runs, understood);
    return 0;
}
