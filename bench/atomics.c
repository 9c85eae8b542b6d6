// Single steps of C's atomics, each between two readings of the clock, by one thread or several at one time. Prints lines of what was done, how many
// there were and the nanoseconds of all of them.
//     atomics THREADS
//
// `load`, `store`, `add`: a step on a word, where the words of the threads lie 512 bytes apart (`apart`), side by side (`near`), or are one (`same`). A store is
// sequentially consistent, which on this processor is an exchange. `publish`, `claim`, `finish`: what a worker does with a record of 21 words that is its
// own. `publish` is an addition to a counter that all share, and eleven stores; `relaxed` the same where the first ten are relaxed and the last is a release. `claim` is a
// compare-exchange of the last word, `finish` an exchange of it.
#include <pthread.h>
#include <stdint.h>
#include <stdio.h>
#include <stdlib.h>
#include <time.h>

typedef uint64_t u64;

enum { MOST = 8, TURNS = 100000, RECORDS = 4000, FIELDS = 21, STORES = 11, APART = 64 };

enum kind { EMPTY, LOAD, STORE, ADD, PUBLISH, RELAXED, CLAIM, FINISH };

static u64 words[MOST * APART] __attribute__((aligned(4096)));
static u64 records[MOST][RECORDS * FIELDS] __attribute__((aligned(4096)));
static u64 drawn __attribute__((aligned(64)));
static int threads;
static pthread_barrier_t together;

struct job {
    int thread, stride;
    enum kind kind;
    u64 count, nanoseconds;
};

static u64 now(void) {
    struct timespec t;
    clock_gettime(CLOCK_MONOTONIC, &t);
    return t.tv_sec * 1000000000ull + t.tv_nsec;
}

static inline void publish(u64 *record, int order, int last) {
    u64 number = __atomic_fetch_add(&drawn, 1, __ATOMIC_SEQ_CST);
    for (int field = STORES - 1; field > 0; field--) {
        if (order == __ATOMIC_SEQ_CST) __atomic_store_n(&record[field], number, __ATOMIC_SEQ_CST);
        else __atomic_store_n(&record[field], number, __ATOMIC_RELAXED);
    }
    if (last == __ATOMIC_SEQ_CST) __atomic_store_n(&record[0], 1, __ATOMIC_SEQ_CST);
    else __atomic_store_n(&record[0], 1, __ATOMIC_RELEASE);
}

static inline void step(enum kind kind, u64 *word, u64 turn) {
    switch (kind) {
    case EMPTY: break;
    case LOAD: (void)__atomic_load_n(word, __ATOMIC_SEQ_CST); break;
    case STORE: __atomic_store_n(word, turn, __ATOMIC_SEQ_CST); break;
    case ADD: (void)__atomic_fetch_add(word, turn, __ATOMIC_SEQ_CST); break;
    case PUBLISH: publish(word, __ATOMIC_SEQ_CST, __ATOMIC_SEQ_CST); break;
    case RELAXED: publish(word, __ATOMIC_RELAXED, __ATOMIC_RELEASE); break;
    case CLAIM: {
        u64 found = 1;
        __atomic_compare_exchange_n(word, &found, 2, 0, __ATOMIC_SEQ_CST, __ATOMIC_SEQ_CST);
        break;
    }
    case FINISH: __atomic_store_n(word, 3, __ATOMIC_SEQ_CST); break;
    }
}

static inline void timed(enum kind kind, struct job *job) {
    int of_records = kind >= PUBLISH;
    u64 turns = of_records ? RECORDS : TURNS, total = 0;
    u64 *word = of_records ? records[job->thread] : &words[job->thread * job->stride];
    pthread_barrier_wait(&together);
    for (u64 turn = 0; turn < turns; turn++) {
        u64 *at = of_records ? word + turn * FIELDS : word;
        u64 start = now();
        step(kind, at, turn);
        total += now() - start;
    }
    job->count = turns;
    job->nanoseconds = total;
}

// Each kind a loop of its own, so that nothing is chosen between the readings.
static void *run(void *given) {
    struct job *job = given;
    switch (job->kind) {
    case EMPTY: timed(EMPTY, job); break;
    case LOAD: timed(LOAD, job); break;
    case STORE: timed(STORE, job); break;
    case ADD: timed(ADD, job); break;
    case PUBLISH: timed(PUBLISH, job); break;
    case RELAXED: timed(RELAXED, job); break;
    case CLAIM: timed(CLAIM, job); break;
    case FINISH: timed(FINISH, job); break;
    }
    return NULL;
}

static void tell(enum kind kind, const char *name, int stride, const char *where) {
    struct job jobs[MOST];
    pthread_t others[MOST];
    for (int k = 0; k < threads; k++) {
        jobs[k] = (struct job){k, stride, kind, 0, 0};
        if (k > 0 && pthread_create(&others[k], NULL, run, &jobs[k])) exit(1);
    }
    run(&jobs[0]);
    u64 count = jobs[0].count, nanoseconds = jobs[0].nanoseconds;
    for (int k = 1; k < threads; k++) {
        pthread_join(others[k], NULL);
        count += jobs[k].count;
        nanoseconds += jobs[k].nanoseconds;
    }
    printf("%s %s %llu %llu\n", where, name, (unsigned long long)count, (unsigned long long)nanoseconds);
}

int main(int count, char **given) {
    threads = count == 2 ? atoi(given[1]) : 0;
    if (threads < 1 || threads > MOST) return 2;
    pthread_barrier_init(&together, NULL, threads);
    // The pages are there before they are timed.
    for (int k = 0; k < threads; k++)
        for (int i = 0; i < RECORDS * FIELDS; i++) records[k][i] = 1;
    tell(EMPTY, "empty", APART, "clock");
    static const struct { const char *where; int stride; } places[] = {{"apart", APART}, {"near", 1}, {"same", 0}};
    for (int i = 0; i < 3; i++) {
        tell(LOAD, "load", places[i].stride, places[i].where);
        tell(STORE, "store", places[i].stride, places[i].where);
        tell(ADD, "fold", places[i].stride, places[i].where);
    }
    tell(RELAXED, "relaxed", 0, "records");
    tell(PUBLISH, "publish", 0, "records");
    tell(CLAIM, "claim_own", 0, "records");
    tell(FINISH, "finish", 0, "records");
    return 0;
}
