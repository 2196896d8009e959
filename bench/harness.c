// Measures the proved analysis against the search in C, on the same texts, in one process.
//
//     harness RUNS SCHEME...
//
// Each query of each scheme is analysed RUNS times by both, in turn, and the least time of each counts: processor time
// of this thread, so that what else the machine does weighs less. The answers, the witness and the tables must agree. A
// line for each scheme; the last line is `ratio X`, the geometric mean over the schemes of the time of the proved code
// by the time of the C code.
#include "search.h"

#include <math.h>
#include <stdio.h>
#include <stdlib.h>
#include <string.h>
#include <time.h>

// The proved library's function; see crates/bench_entry. Answers 0, or the number of a refusal.
uint32_t bench_analyse(const uint8_t *text, size_t text_len, uint32_t query, uint32_t *marks, size_t marks_len,
                       struct found *found, size_t found_len, uint32_t *witness, size_t witness_len,
                       struct answer *answer);

enum { MOST_BYTES = 65535 };

// One of the two that are measured, with tables of its own.
struct side {
    const char *name;
    uint32_t (*analyse)(const uint8_t *, size_t, uint32_t, uint32_t *, size_t, struct found *, size_t, uint32_t *, size_t,
                        struct answer *);
    uint32_t *marks, *witness;
    struct found *found;
    struct answer answer;
    double least;
};

static void fail(const char *scheme, const char *what) {
    fprintf(stderr, "%s: %s\n", scheme, what);
    exit(1);
}

static size_t read_text(const char *path, uint8_t *text) {
    FILE *file = fopen(path, "rb");
    if (!file) fail(path, "cannot be opened");
    size_t len = fread(text, 1, MOST_BYTES, file);
    fclose(file);
    return len;
}

// Of processor time, spent by this thread so far.
static double seconds(void) {
    struct timespec t;
    clock_gettime(CLOCK_THREAD_CPUTIME_ID, &t);
    return (double)t.tv_sec + 1e-9 * (double)t.tv_nsec;
}

static void *filled(size_t count, size_t size) {
    void *table = malloc(count * size);
    if (!table) fail("memory", "is wanting");
    return memset(table, 0xa5, count * size); // so that every page is there, and an entry that is left shows
}

static void run(struct side *side, const char *path, const uint8_t *text, size_t len, uint32_t query, uint32_t states) {
    double begun = seconds();
    uint32_t refused = side->analyse(text, len, query, side->marks, states, side->found, states, side->witness, states,
                                     &side->answer);
    double taken = seconds() - begun;
    if (refused) fail(path, "an analysis was refused");
    if (taken < side->least) side->least = taken;
}

static void compare(const struct side *a, const struct side *b, const char *path, uint32_t states) {
    if (a->answer.leak != b->answer.leak || a->answer.found != b->answer.found || a->answer.tried != b->answer.tried
        || a->answer.length != b->answer.length)
        fail(path, "the answers differ");
    if (memcmp(a->witness, b->witness, states * sizeof *a->witness) != 0) fail(path, "the witnesses differ");
    if (memcmp(a->marks, b->marks, states * sizeof *a->marks) != 0) fail(path, "the marks differ");
    if (memcmp(a->found, b->found, states * sizeof *a->found) != 0) fail(path, "the found lists differ");
}

// The ratio of one scheme.
static double measure(const char *path, int runs) {
    static uint8_t text[MOST_BYTES];
    size_t len = read_text(path, text);
    struct counts counts = search_counts(text, len);
    struct side sides[2] = {{.name = "C", .analyse = search_analyse}, {.name = "proved", .analyse = bench_analyse}};
    double total[2] = {0, 0};
    printf("%s: %u states, %u moves;", path, counts.states, counts.moves);
    for (int i = 0; i < 2; i++) {
        sides[i].marks = filled(counts.states, sizeof *sides[i].marks);
        sides[i].found = filled(counts.states, sizeof *sides[i].found);
        sides[i].witness = filled(counts.states, sizeof *sides[i].witness);
    }
    for (uint32_t query = 0; query < counts.queries; query++) {
        sides[0].least = sides[1].least = INFINITY;
        for (int i = 0; i < 2 * runs; i++) run(&sides[i % 2], path, text, len, query, counts.states);
        compare(&sides[0], &sides[1], path, counts.states);
        const struct answer *answer = &sides[0].answer;
        printf(" %s %u found %llu tried", answer->leak ? "leak" : "never", answer->found,
               (unsigned long long)answer->tried);
        if (answer->leak) printf(" witness of %u", answer->length);
        printf(";");
        for (int i = 0; i < 2; i++) total[i] += sides[i].least;
    }
    for (int i = 0; i < 2; i++) {
        printf(" %s %.1f ms,", sides[i].name, 1e3 * total[i]);
        free(sides[i].marks);
        free(sides[i].found);
        free(sides[i].witness);
    }
    printf(" ratio %.2f\n", total[1] / total[0]);
    fflush(stdout);
    return total[1] / total[0];
}

int main(int argc, char **argv) {
    int runs = argc > 2 ? atoi(argv[1]) : 0;
    if (runs < 1) {
        fprintf(stderr, "usage: harness RUNS SCHEME...\n");
        return 2;
    }
    double logs = 0;
    for (int i = 2; i < argc; i++) logs += log(measure(argv[i], runs));
    printf("ratio %.2f\n", exp(logs / (argc - 2)));
    return 0;
}
