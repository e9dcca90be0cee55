/* Every byte as `blocked` of every place of a state, handed in from C: a thread is blocked (1) or runnable (0), any other byte makes
   the state unsound, and a place past N holds 0. */
#include "thawonlai.h"
#include <stdio.h>
#include <string.h>

enum { IN_USE = 20, FILL = 0xa5 };

/* Threads of the three policies in turn, by threes runnable and blocked. */
static struct table a_table(void) {
    struct table t;
    memset(&t, 0, sizeof t);
    for (int i = 0; i < IN_USE; i++) {
        struct parameters *p = &t.threads[i];
        p->policy = i % 3;
        p->priority = 2 + i % 4;
        p->flag = i / 3 % 2 == 0;
        p->low = p->policy == 2 ? 1 : 0;
        p->max_repl = p->policy == 2 ? 2 : 0;
        p->budget = p->policy == 0 ? 0 : 10;
        p->period = p->policy == 2 ? 40 : 0;
    }
    return t;
}

static int same_thread(const struct thread *a, const struct thread *b) {
    const struct parameters *p = &a->parameters, *q = &b->parameters;
    return p->policy == q->policy && p->priority == q->priority && p->low == q->low && p->max_repl == q->max_repl && p->flag == q->flag
        && p->budget == q->budget && p->period == q->period && a->blocked == b->blocked && a->total == b->total && a->left == b->left
        && a->server.capacity == b->server.capacity && a->server.used == b->server.used && a->server.activation == b->server.activation;
}

/* Field by field: the bytes between fields may differ. */
static int same(const struct core *a, const struct core *b) {
    int threads = 1;
    for (int i = 0; i < THREADS; i++)
        threads = threads && same_thread(&a->threads[i], &b->threads[i]);
    return threads && a->header.n == b->header.n && a->header.start == b->header.start && a->now == b->now && a->idle == b->idle
        && a->word == b->word && !memcmp(a->counts, b->counts, sizeof a->counts) && !memcmp(a->lists, b->lists, sizeof a->lists);
}

int main(void) {
    static uint64_t dues[SLOTS], amounts[SLOTS], told[NUMBERS], zeros[SLOTS];
    struct answer opened = thawonlai_open((struct header){ .n = IN_USE, .start = 7 }, a_table(), dues, amounts);
    if (opened.status != 0) {
        printf("tests/blocked: opening is refused with %d\n", opened.status);
        return 1;
    }
    int wrong = 0;
    for (int i = 0; i < THREADS; i++) {
        for (int byte = 0; byte < 256; byte++) {
            int sound = byte == (i < IN_USE && i / 3 % 2 != 0);
            struct core s = opened.core;
            s.threads[i].blocked = byte;
            struct core given = s;
            int found = thawonlai_sound(&s, dues, amounts);
            struct event clock = { .time = s.now };
            memset(told, FILL, sizeof told);
            struct reply r = thawonlai_event(&s, dues, amounts, told, clock);
            int replied = sound ? r.status == 0 && r.running == opened.running && r.next == opened.next
                                : r.status == 9 && r.running == 255 && r.next == 0;
            int kept = same(&s, &given) && !memcmp(dues, zeros, sizeof dues) && !memcmp(amounts, zeros, sizeof amounts);
            int nothing = !memcmp(told, zeros, sizeof told);
            if (found != sound || !replied || !kept || !nothing) {
                if (wrong++ < 5)
                    printf("tests/blocked: byte %d of thread %d: sound %d, status %d running %d next %llu%s%s\n", byte, i, found, r.status,
                           r.running, (unsigned long long)r.next, kept ? "" : ", another state", nothing ? "" : ", something told");
            }
        }
    }
    printf("tests/blocked: %d of %d bytes answered wrongly\n", wrong, THREADS * 256);
    return wrong != 0;
}
