/*
 * Every call in eight threads at once, each on a set of its own, all with the same shift tables: each has the result of the call alone. The
 * threads have 192 kB of stack, as docs/GUIDE.md says is enough for every call but gf_find_permutation. Exits with 0 only if all holds.
 */
#define _XOPEN_SOURCE 700
#include "calls.h"

#include <pthread.h>

enum { THREADS = 8, STACK = 192 * 1000, LARGE_STACK = 1000 * 1000 };

static const struct size sizes[] = {{0, 0, 0, false}, {0, 0, 0, false}, {24, 32, 300, true}, {8, 10, 40, true}, {4, 5, 40, true}};

struct job {
    const struct call *call;
    struct input input;
    uint8_t answer;
};

static void *run(void *at)
{
    struct job *job = at;
    job->answer = job->call->plain(&job->input);
    return NULL;
}

static bool in_threads(const struct call *call)
{
    struct job alone = {call, input_of(call, sizes[call->order]), 0}, jobs[THREADS];
    int64_t *const shared[] = {alone.input.p2s, alone.input.s2pp, alone.input.nsym_list, alone.input.perms};
    pthread_t threads[THREADS];
    pthread_attr_t attributes;
    bool same = true;
    run(&alone);
    pthread_attr_init(&attributes);
    pthread_attr_setstacksize(&attributes, strcmp(call->name, "find_permutation") == 0 ? LARGE_STACK : STACK);
    for (size_t k = 0; k < THREADS; k++) {
        struct job *job = &jobs[k];
        job->call = call, job->input = input_of(call, sizes[call->order]);
        free(job->input.p2s), free(job->input.s2pp), free(job->input.nsym_list), free(job->input.perms);
        job->input.p2s = shared[0], job->input.s2pp = shared[1], job->input.nsym_list = shared[2], job->input.perms = shared[3];
        if (pthread_create(&threads[k], &attributes, run, job) != 0)
            puts("no thread"), exit(1);
    }
    for (size_t k = 0; k < THREADS; k++)
        pthread_join(threads[k], NULL);
    for (size_t k = 0; k < THREADS; k++) {
        struct input *r = &jobs[k].input;
        same = same && jobs[k].answer == alone.answer && !GF_REFUSED(alone.answer) && same_memory(r, &alone.input);
        r->p2s = r->s2pp = r->nsym_list = r->perms = NULL; /* they are alone's */
        give_back(r);
    }
    give_back(&alone.input);
    return same;
}

int main(void)
{
    int failures = 0;
    for (size_t k = 0; k < CALLS; k++)
        if (!in_threads(&calls[k]))
            failures++, printf("threads: %s has another result than alone\n", calls[k].name);
    printf("threads: %d calls, %d differ\n", (int)CALLS, failures);
    return failures != 0;
}
