/*
 * Times commands against each other: bench ROUNDS < STEPS.
 *
 * A step is a line of fields with tabs between them: operation, program, and the command's words. A round takes the steps in
 * their order, so that what disturbs the machine disturbs all of them alike. Steps of the operation - are run and not timed.
 * What is timed goes from the start of a process to its end. A line for each step is printed: operation, program, the least
 * and the median milliseconds.
 */
#define _GNU_SOURCE
#include <fcntl.h>
#include <spawn.h>
#include <stdio.h>
#include <stdlib.h>
#include <string.h>
#include <sys/wait.h>
#include <time.h>
#include <unistd.h>

#define STEPS_MAX 64

extern char **environ;

struct step {
    char *operation, *program;
    char **words;
    double *times; /* one a round */
};

static void give_up(const char *what) {
    fprintf(stderr, "bench: %s\n", what);
    exit(2);
}

static void *room(size_t count, size_t size) {
    void *got = calloc(count, size);
    if (got == NULL)
        give_up("no memory");
    return got;
}

/* The words point into the line, which stays. */
static void read_step(struct step *step, char *line, size_t rounds) {
    size_t count = 0;
    step->words = room(strlen(line) / 2 + 2, sizeof *step->words);
    step->times = room(rounds, sizeof *step->times);
    line[strcspn(line, "\n")] = '\0';
    step->operation = strsep(&line, "\t");
    step->program = strsep(&line, "\t");
    while (line != NULL)
        step->words[count++] = strsep(&line, "\t");
    if (count == 0)
        give_up("a step without a command");
}

static size_t read_steps(struct step *steps, size_t rounds) {
    size_t count = 0;
    char *line = NULL;
    for (size_t size = 0; getline(&line, &size, stdin) > 0; line = NULL, size = 0) {
        if (count == STEPS_MAX)
            give_up("too many steps");
        read_step(&steps[count++], line, rounds);
    }
    return count;
}

static double now(void) {
    struct timespec time;
    clock_gettime(CLOCK_MONOTONIC, &time);
    return (double)time.tv_sec * 1e3 + (double)time.tv_nsec / 1e6;
}

/* Milliseconds. A command that fails would be timed for less than its work. */
static double run(const struct step *step, const posix_spawn_file_actions_t *actions) {
    pid_t child;
    int status;
    double start = now();
    if (posix_spawnp(&child, step->words[0], actions, NULL, step->words, environ) != 0 || waitpid(child, &status, 0) != child
        || status != 0) {
        fprintf(stderr, "bench: %s of %s failed\n", step->operation, step->program);
        exit(2);
    }
    return now() - start;
}

static void run_round(const struct step *steps, size_t count, size_t round, const posix_spawn_file_actions_t *actions) {
    for (size_t i = 0; i < count; i++)
        steps[i].times[round] = run(&steps[i], actions);
}

static int by_size(const void *left, const void *right) {
    const double *a = left, *b = right;
    return (*a > *b) - (*a < *b);
}

static void print_step(const struct step *step, size_t rounds) {
    if (strcmp(step->operation, "-") == 0)
        return;
    qsort(step->times, rounds, sizeof *step->times, by_size);
    printf("%s\t%s\t%.3f\t%.3f\n", step->operation, step->program, step->times[0], step->times[rounds / 2]);
}

int main(int argc, char **argv) {
    static struct step steps[STEPS_MAX];
    posix_spawn_file_actions_t actions;
    size_t rounds = argc == 2 ? (size_t)atoi(argv[1]) : 0;
    if (rounds == 0)
        give_up("wanted is ROUNDS");
    size_t count = read_steps(steps, rounds);
    if (posix_spawn_file_actions_init(&actions) != 0
        || posix_spawn_file_actions_addopen(&actions, STDOUT_FILENO, "/dev/null", O_WRONLY, 0) != 0)
        give_up("no memory");
    for (size_t round = 0; round < rounds; round++)
        run_round(steps, count, round, &actions);
    for (size_t i = 0; i < count; i++)
        print_step(&steps[i], rounds);
    return 0;
}
