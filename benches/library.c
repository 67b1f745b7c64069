/* Measures microseconds a sentence, for benches/library: `library PROGRAM GRAMMAR SENTENCE COUNT`. It uses one handle; then a new
   handle for each sentence; and then a process of PROGRAM for each, for COUNT / 100 sentences. Each figure is the least of five
   series. */
#define _GNU_SOURCE
#include <aggen.h>
#include <fcntl.h>
#include <spawn.h>
#include <stdio.h>
#include <stdlib.h>
#include <sys/wait.h>
#include <time.h>
#include <unistd.h>

extern char **environ;

enum { SERIES = 5 };

static char grammar[1 << 20], sentence[1 << 20], text[1 << 20];
static size_t grammar_length, sentence_length;
static aggen_handle handle = AGGEN_HANDLE_INIT;
static char *words[5];
static posix_spawn_file_actions_t actions;

static size_t read_file(const char *path, char *bytes) {
    FILE *file = fopen(path, "rb");
    size_t length = file ? fread(bytes, 1, 1 << 20, file) : 0;
    if (file) {
        fclose(file);
    }
    return length;
}

static void stop_if(int failed) {
    if (failed) {
        fprintf(stderr, "library: a call failed\n");
        exit(1);
    }
}

static void translate(void) {
    size_t length;
    stop_if(aggen_translate(&handle, sentence, sentence_length, text, sizeof text, &length, NULL, 0, NULL));
}

static void build_and_translate(void) {
    stop_if(aggen_build(grammar, grammar_length, &handle, NULL, 0, NULL));
    translate();
}

static void start_program(void) {
    pid_t process;
    int status;
    stop_if(posix_spawn(&process, words[0], &actions, NULL, words, environ));
    stop_if(waitpid(process, &status, 0) != process || status != 0);
}

static void measure(const char *name, void (*call)(void), long count) {
    double least = 0;
    for (int series = 0; series < SERIES; series++) {
        struct timespec began, ended;
        clock_gettime(CLOCK_MONOTONIC, &began);
        for (long i = 0; i < count; i++) {
            call();
        }
        clock_gettime(CLOCK_MONOTONIC, &ended);
        double took = (ended.tv_sec - began.tv_sec) * 1e6 + (ended.tv_nsec - began.tv_nsec) / 1e3;
        least = series == 0 || took < least ? took : least;
    }
    printf("%-40s %8.1f us\n", name, least / count);
}

int main(int argc, char **argv) {
    if (argc != 5) {
        return 2;
    }
    grammar_length = read_file(argv[2], grammar);
    sentence_length = read_file(argv[3], sentence);
    long count = atol(argv[4]);
    char run[] = "run";
    words[0] = argv[1];
    words[1] = run;
    words[2] = argv[2];
    words[3] = argv[3];
    stop_if(posix_spawn_file_actions_init(&actions));
    stop_if(posix_spawn_file_actions_addopen(&actions, 1, "/dev/null", O_WRONLY, 0));
    stop_if(aggen_build(grammar, grammar_length, &handle, NULL, 0, NULL));
    measure("C, one handle", translate, count);
    measure("C, a new handle for each sentence", build_and_translate, count / 10);
    measure("starting the program", start_program, count / 100);
    aggen_free(&handle);
    return 0;
}
