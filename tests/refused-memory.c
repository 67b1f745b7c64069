/* Runs the rows of tests/refused-memory: `refused-memory LIBRARY ROWS FOLDER PROCESSES`.

   A line of the file ROWS is a row. Its fields, separated by tabs, are:
     the status of the program if no request for memory is refused
     the number of its refusal, the first word on standard error; `-` if it prints nothing there
     the complete line on standard error of a run that ends with status 7, since memory was refused; and, after `|`, the one that
     standard output may have instead
     lines, separated by `|`, that some runs print first: such a run continues and ends as if nothing had been refused, and each
     line has to be printed by some run; `-` if there are none
     the file that is standard input
     the program, and its arguments; in an argument that begins with `@/`, `@` is a folder of this process's own

   Each row is run once without LIBRARY, and then with request for memory number 1, 2, 3 and so on refused, until a run ends in
   which none was refused. PROCESSES runs are made at the same time, each with a folder of its own below FOLDER. A run is right
     if it ends like the first run: with its status, its standard output (of objects, the numbers of their faults), and on standard
     error its line up to the first colon or place in parentheses, such as the number and the offset (the rest of the line needs
     memory); of a run in which nothing was refused all is compared
     if a request was refused, and it ends with status 7, that row's line on standard error, and nothing on standard output; or
     that row's line on standard output, and nothing on standard error.
   The first wrong run is printed, and then the status is 1. */
#define _GNU_SOURCE
#include <errno.h>
#include <fcntl.h>
#include <signal.h>
#include <spawn.h>
#include <stdio.h>
#include <stdlib.h>
#include <string.h>
#include <sys/stat.h>
#include <sys/wait.h>
#include <time.h>
#include <unistd.h>

extern char **environ;

enum { WORDS = 32, NOTES = 8, SECONDS = 60, NO_MEMORY = 7, REFUSED_AT = 200 };
/* a row with more refused requests than this is a failure */
enum { MOST = 10000 };

struct bytes {
    char *at;
    size_t length;
};

struct row {
    const char *label;
    int status;
    const char *number;
    const char *no_memory, *printed_no_memory;
    const char *notes[NOTES];
    long printed[NOTES];
    const char *input;
    char *words[WORDS];
    struct bytes out, err;
    /* the next request to refuse; the least number for which no request was refused, or 0 */
    long next, end;
    long refused;
};

struct process {
    pid_t pid;
    struct row *row;
    long number;
    time_t began;
    int out, err, refused;
    char folder[4096];
};

static const char *library;
static long runs, refusals, reported;

static void stop(const char *what, const char *name) {
    fprintf(stderr, "refused-memory: %s: %s: %s\n", what, name, strerror(errno));
    exit(1);
}

static void *room(size_t bytes) {
    void *made = calloc(1, bytes);
    if (made == NULL) {
        stop("no memory", "for rows");
    }
    return made;
}

/* Returns the content of an open file, with a zero byte after it. */
static struct bytes content_of(int file) {
    struct stat about;
    if (fstat(file, &about) != 0) {
        stop("fstat", "output");
    }
    struct bytes found = {room((size_t)about.st_size + 1), (size_t)about.st_size};
    if (pread(file, found.at, found.length, 0) != (ssize_t)found.length) {
        stop("read", "output");
    }
    return found;
}

static int same(struct bytes one, struct bytes other) {
    return one.length == other.length && memcmp(one.at, other.at, one.length) == 0;
}

static int is_line(struct bytes text, const char *line) {
    size_t length = strlen(line);
    return text.length == length + 1 && memcmp(text.at, line, length) == 0 && text.at[length] == '\n';
}

/* Returns the length of the part of a refusal that needs no memory: up to the first colon or the place in parentheses. */
static size_t head_length(struct bytes text) {
    size_t length = strcspn(text.at, ":\n");
    char *place = strstr(text.at, " (");
    return place != NULL && place < text.at + length ? (size_t)(place - text.at) : length;
}

static int same_head(struct bytes one, struct bytes other) {
    size_t length = head_length(one);
    return length == head_length(other) && memcmp(one.at, other.at, length) == 0 && (one.length == 0) == (other.length == 0);
}

/* Returns whether the objects in two texts have the same numbers of faults. Their messages need memory. */
static int same_numbers(struct bytes one, struct bytes other) {
    static const char key[] = "\"number\":\"";
    const char *left = strstr(one.at, key), *right = strstr(other.at, key);
    while (left != NULL && right != NULL) {
        size_t length = strcspn(left += strlen(key), "\"");
        if (length != strcspn(right += strlen(key), "\"") || memcmp(left, right, length) != 0) {
            return 0;
        }
        left = strstr(left, key);
        right = strstr(right, key);
    }
    return left == NULL && right == NULL;
}

/* Splits a line into its fields; the row refers to the line's memory. */
static void read_row(char *line, struct row *row) {
    char *fields[WORDS + 5];
    int count = 0;
    row->label = strdup(line);
    line[strcspn(line, "\n")] = 0;
    for (char *field; (field = strsep(&line, "\t")) != NULL;) {
        if (count == WORDS + 4) {
            stop("too many words", row->label);
        }
        fields[count++] = field;
    }
    if (count < 6) {
        stop("too few fields", row->label);
    }
    row->status = atoi(fields[0]);
    row->number = fields[1];
    row->no_memory = strsep(&fields[2], "|");
    row->printed_no_memory = fields[2];
    int notes = 0;
    if (strcmp(fields[3], "-") != 0) {
        for (char *note; (note = strsep(&fields[3], "|")) != NULL && notes < NOTES - 1;) {
            row->notes[notes++] = note;
        }
    }
    row->input = fields[4];
    memcpy(row->words, fields + 5, (size_t)(count - 5) * sizeof *fields);
    row->next = 1;
}

static struct row *read_rows(const char *path, int *count) {
    FILE *file = fopen(path, "r");
    if (file == NULL) {
        stop("open", path);
    }
    struct row *rows = NULL;
    char *line = NULL;
    size_t size = 0;
    for (*count = 0; getline(&line, &size, file) > 0; ++*count) {
        rows = realloc(rows, (size_t)(*count + 1) * sizeof *rows);
        if (rows == NULL) {
            stop("no memory", "for rows");
        }
        memset(rows + *count, 0, sizeof *rows);
        read_row(strdup(line), rows + *count);
    }
    fclose(file);
    free(line);
    return rows;
}

static int open_in(const char *folder, const char *name) {
    char path[5000];
    snprintf(path, sizeof path, "%s/%s", folder, name);
    int file = open(path, O_RDWR | O_CREAT | O_TRUNC | O_CLOEXEC, 0600);
    if (file < 0) {
        stop("open", path);
    }
    return file;
}

static void furnish(struct process *process, const char *top, int number) {
    snprintf(process->folder, sizeof process->folder, "%s/%d", top, number);
    if (mkdir(process->folder, 0700) != 0) {
        stop("mkdir", process->folder);
    }
    process->out = open_in(process->folder, "out");
    process->err = open_in(process->folder, "err");
    process->refused = open_in(process->folder, "refused");
}

static void empty(int file) {
    if (ftruncate(file, 0) != 0 || lseek(file, 0, SEEK_SET) != 0) {
        stop("truncate", "output");
    }
}

/* Starts the program of a row with a request refused; number 0 is a run without the library. */
static void start(struct process *process, struct row *row, long number) {
    static char refuse[64], refused[64], preload[5000];
    char *environment[1024], *words[WORDS + 1] = {NULL};
    char paths[WORDS][5000];
    int count = 0;
    posix_spawn_file_actions_t files;
    posix_spawnattr_t how;
    sigset_t none;
    process->row = row;
    process->number = number;
    process->began = time(NULL);
    empty(process->out);
    empty(process->err);
    empty(process->refused);
    for (int at = 0; row->words[at] != NULL; ++at) {
        words[at] = row->words[at];
        if (strncmp(words[at], "@/", 2) == 0) {
            snprintf(paths[at], sizeof paths[at], "%s%s", process->folder, words[at] + 1);
            words[at] = paths[at];
        }
    }
    for (char **it = environ; *it != NULL && count < 1000; ++it) {
        environment[count++] = *it;
    }
    if (number > 0) {
        snprintf(refuse, sizeof refuse, "REFUSE=%ld", number);
        snprintf(refused, sizeof refused, "REFUSED=%d", REFUSED_AT);
        snprintf(preload, sizeof preload, "LD_PRELOAD=%s", library);
        environment[count++] = refuse;
        environment[count++] = refused;
        environment[count++] = preload;
    }
    environment[count] = NULL;
    sigemptyset(&none);
    posix_spawnattr_init(&how);
    posix_spawnattr_setsigmask(&how, &none);
    posix_spawnattr_setflags(&how, POSIX_SPAWN_SETSIGMASK);
    posix_spawn_file_actions_init(&files);
    posix_spawn_file_actions_addopen(&files, 0, row->input, O_RDONLY, 0);
    posix_spawn_file_actions_adddup2(&files, process->out, 1);
    posix_spawn_file_actions_adddup2(&files, process->err, 2);
    posix_spawn_file_actions_adddup2(&files, process->refused, REFUSED_AT);
    errno = posix_spawn(&process->pid, words[0], &files, &how, words, environment);
    if (errno != 0) {
        stop("start", words[0]);
    }
    posix_spawn_file_actions_destroy(&files);
    posix_spawnattr_destroy(&how);
    ++runs;
}

static void wrong(const struct process *process, int status, const char *why) {
    struct bytes out = content_of(process->out), err = content_of(process->err);
    fprintf(stderr, "refused-memory: %srequest %ld: %s: ", process->row->label, process->number, why);
    if (WIFEXITED(status)) {
        fprintf(stderr, "status %d\n", WEXITSTATUS(status));
    } else {
        fprintf(stderr, "signal %d\n", WTERMSIG(status));
    }
    fprintf(stderr, "%s%s", out.at, err.at);
    exit(1);
}

/* Stores the result of the run without the library, and checks it against the row. */
static void keep_right(const struct process *process, int status) {
    struct row *row = process->row;
    row->out = content_of(process->out);
    row->err = content_of(process->err);
    size_t first = strcspn(row->err.at, " :\n");
    const char *number = strcmp(row->number, "-") == 0 ? "" : row->number;
    if (!WIFEXITED(status) || WEXITSTATUS(status) != row->status) {
        wrong(process, status, "nothing refused");
    }
    if (first != strlen(number) || memcmp(row->err.at, number, first) != 0) {
        wrong(process, status, "nothing refused, and the refusal is not that of the row");
    }
}

/* Returns whether the run printed one of the row's notes and then the line of the first run; counts the note. */
static int is_noted(struct row *row, struct bytes err) {
    for (int at = 0; row->notes[at] != NULL; ++at) {
        size_t length = strlen(row->notes[at]);
        if (err.length > length && strncmp(err.at, row->notes[at], length) == 0 && err.at[length] == '\n') {
            struct bytes rest = {err.at + length + 1, err.length - length - 1};
            if (same(rest, row->err)) {
                ++row->printed[at];
                return 1;
            }
        }
    }
    return 0;
}

/* Returns whether the run reported refused memory, and nothing else. */
static int is_reported(const struct row *row, struct bytes out, struct bytes err) {
    return (out.length == 0 && is_line(err, row->no_memory))
        || (err.length == 0 && row->printed_no_memory != NULL && is_line(out, row->printed_no_memory));
}

/* Checks a run that has ended with a status. */
static void judge(const struct process *process, int status) {
    struct row *row = process->row;
    struct bytes out = content_of(process->out), err = content_of(process->err), refused = content_of(process->refused);
    int ended = WIFEXITED(status) ? WEXITSTATUS(status) : -1;
    int is_printed = same(out, row->out) || (row->printed_no_memory != NULL && same_numbers(out, row->out));
    int is_own = ended == row->status && is_printed;
    if (refused.length == 0) {
        if (!is_own || !same(out, row->out) || !same(err, row->err)) {
            wrong(process, status, "nothing refused");
        }
        if (row->end == 0 || process->number < row->end) {
            row->end = process->number;
        }
    } else {
        if (ended == NO_MEMORY && is_reported(row, out, err)) {
            ++reported;
        } else if (is_own && is_noted(row, err)) {
            ++reported;
        } else if (!is_own || !same_head(err, row->err)) {
            wrong(process, status, "refused");
        }
        ++row->refused;
        ++refusals;
    }
    free(out.at);
    free(err.at);
    free(refused.at);
}

/* Starts the next run of the first row that has one; returns whether there was one. */
static int start_next(struct process *process, struct row *rows, int count) {
    for (int at = 0; at < count; ++at) {
        if (rows[at].end == 0) {
            if (rows[at].next > MOST) {
                fprintf(stderr, "refused-memory: %srequests without end\n", rows[at].label);
                exit(1);
            }
            start(process, rows + at, rows[at].next++);
            return 1;
        }
    }
    return 0;
}

/* Waits until a process has ended, and returns it. */
static struct process *wait_for_one(struct process *processes, int count, int *status) {
    sigset_t ended;
    sigemptyset(&ended);
    sigaddset(&ended, SIGCHLD);
    for (;;) {
        pid_t pid = waitpid(-1, status, WNOHANG);
        for (int at = 0; at < count; ++at) {
            if (processes[at].pid != 0 && processes[at].pid == pid) {
                processes[at].pid = 0;
                return processes + at;
            }
            if (processes[at].pid != 0 && time(NULL) - processes[at].began > SECONDS) {
                kill(processes[at].pid, SIGKILL);
            }
        }
        struct timespec second = {1, 0};
        sigtimedwait(&ended, NULL, &second);
    }
}

/* Checks the counts over all runs of a row. */
static void check_counts(const struct row *row) {
    if (row->refused == 0 || row->refused != row->end - 1) {
        fprintf(stderr, "refused-memory: %s%ld of %ld requests were refused\n", row->label, row->refused, row->end - 1);
        exit(1);
    }
    for (int at = 0; row->notes[at] != NULL; ++at) {
        if (row->printed[at] == 0) {
            fprintf(stderr, "refused-memory: %sno run prints `%s`\n", row->label, row->notes[at]);
            exit(1);
        }
    }
}

int main(int count, char **words) {
    if (count != 5) {
        fprintf(stderr, "usage: refused-memory LIBRARY ROWS FOLDER PROCESSES\n");
        return 2;
    }
    library = words[1];
    int rows_count = 0, process_count = atoi(words[4]), status = 0, working = 0;
    struct row *rows = read_rows(words[2], &rows_count);
    struct process *processes = room((size_t)process_count * sizeof *processes);
    sigset_t ended;
    sigemptyset(&ended);
    sigaddset(&ended, SIGCHLD);
    sigprocmask(SIG_BLOCK, &ended, NULL);
    for (int at = 0; at < process_count; ++at) {
        furnish(processes + at, words[3], at);
    }
    for (int at = 0; at < rows_count; ++at) {
        start(processes, rows + at, 0);
        struct process *process = wait_for_one(processes, 1, &status);
        keep_right(process, status);
    }
    for (int at = 0; at < process_count; ++at) {
        working += start_next(processes + at, rows, rows_count);
    }
    while (working > 0) {
        struct process *process = wait_for_one(processes, process_count, &status);
        judge(process, status);
        working += start_next(process, rows, rows_count) - 1;
    }
    for (int at = 0; at < rows_count; ++at) {
        check_counts(rows + at);
    }
    printf("refused-memory: %d rows, %ld runs; %ld requests were refused, and %ld of these were reported\n", rows_count, runs,
           refusals, reported);
    return 0;
}
