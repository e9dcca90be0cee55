/* The stack that each exported function takes, measured: it runs on a stack that was painted, and what it wrote over is counted from its
   return address down. Every file that is named is read, copied and listed, its listing is checked, and its events are given to the
   opened state one by one. The arguments that the caller puts on the stack are counted apart. */
#define _GNU_SOURCE
#include "../tests/thawonlai.h"
#include <pthread.h>
#include <stdio.h>
#include <stdlib.h>
#include <string.h>
#include <sys/mman.h>

enum { STACK = 1 << 20, PAINT = 0xa5, LONGEST = 65536 };
enum { EVENT, OPEN, SOUND, NEXT_DUE, READ, COPY, LISTING, CHECK, REPLAY, TO_TEXT, FUNCTIONS };
static const char *const names[] = { "thawonlai_event", "thawonlai_open", "thawonlai_sound", "thawonlai_next_due", "thawonlai_read",
                                     "thawonlai_copy", "thawonlai_listing", "thawonlai_check", "thawonlai_replay", "thawonlai_to_text" };
/* by value, and too large for registers; a struct of up to 16 bytes goes in registers */
static const size_t arguments[] = { sizeof(struct event), sizeof(struct table), 0, 0, 0, 0, 0, 0, 0, 0 };

/* `at_F` notes where the stack stands as F is entered, and goes on to F. */
char *entered;
#define AT(f) \
    extern __typeof__(f) at_##f; \
    __asm__(".text\n.globl at_" #f "\nat_" #f ":\n\tmov %rsp, entered(%rip)\n\tjmp " #f "\n");
AT(thawonlai_event)
AT(thawonlai_open)
AT(thawonlai_sound)
AT(thawonlai_next_due)
AT(thawonlai_read)
AT(thawonlai_copy)
AT(thawonlai_listing)
AT(thawonlai_check)
AT(thawonlai_replay)
AT(thawonlai_to_text)

static uint8_t file[LONGEST], out[LONGEST], text[1 << 18];
static size_t length;
static struct core core;
static uint64_t dues[SLOTS], amounts[SLOTS], told[NUMBERS], replayed_dues[SLOTS], replayed_amounts[SLOTS];
static struct event event;
static struct table table;
static uint64_t start;
static uint32_t n;
static struct answer opened, replayed;
static struct found found;
static struct listed listed;

static void *call(void *which) {
    switch ((int)(intptr_t)which) {
    case EVENT: at_thawonlai_event(&core, dues, amounts, told, event); break;
    case OPEN: opened = at_thawonlai_open((struct header){ .n = n, .start = start }, table, dues, amounts); break;
    case SOUND: at_thawonlai_sound(&core, dues, amounts); break;
    case NEXT_DUE: at_thawonlai_next_due(core.counts, dues, n); break;
    case READ: found = at_thawonlai_read(file, length); break;
    case COPY: at_thawonlai_copy(file, length, out, LONGEST); break;
    case LISTING: listed = at_thawonlai_listing(file, length, out, LONGEST); break;
    case CHECK: at_thawonlai_check(file, length, out, listed.length); break;
    case REPLAY: replayed = at_thawonlai_replay(file, length, EVENTS, replayed_dues, replayed_amounts); break;
    default: at_thawonlai_to_text(file, length, text, sizeof text);
    }
    return NULL;
}

static size_t most[FUNCTIONS];

static void measure(int which) {
    static uint8_t *stack;
    if (!stack) {
        stack = mmap(NULL, STACK, PROT_READ | PROT_WRITE, MAP_PRIVATE | MAP_ANONYMOUS, -1, 0);
        if (stack == MAP_FAILED) { perror("mmap"); exit(2); }
    }
    memset(stack, PAINT, STACK);
    pthread_attr_t how;
    pthread_t thread;
    if (pthread_attr_init(&how) || pthread_attr_setstack(&how, stack, STACK) || pthread_create(&thread, &how, call, (void *)(intptr_t)which)
        || pthread_join(thread, NULL)) { fputs("no thread\n", stderr); exit(2); }
    size_t low = 0;
    while (stack[low] == PAINT) low++;
    if (!low) { fputs("the stack is too small\n", stderr); exit(2); }
    size_t used = (size_t)((uint8_t *)entered + 8 - (stack + low));
    if (used > most[which]) most[which] = used;
}

int main(int count, char **words) {
    int events = 0;
    for (int k = 1; k < count; k++) {
        FILE *f = fopen(words[k], "rb");
        if (!f) { perror(words[k]); return 2; }
        length = fread(file, 1, LONGEST, f);
        fclose(f);
        for (int which = READ; which < FUNCTIONS; which++) measure(which);
        if (found.status) continue;
        memset(&table, 0, sizeof table);
        n = found.n, start = found.start;
        memcpy(table.threads, file + 32, n * sizeof(struct parameters)); /* a record is laid out as the struct */
        measure(OPEN);
        core = opened.core;
        for (size_t i = 0; i < found.count; i++, events++) {
            memcpy(&event, file + 32 + n * sizeof(struct parameters) + i * sizeof event, sizeof event);
            measure(EVENT);
            if (i % 16 == 0) measure(SOUND), measure(NEXT_DUE);
        }
        measure(SOUND);
        measure(NEXT_DUE);
    }
    printf("%d files, %d events; a state has %zu bytes\n", count - 1, events, sizeof core + sizeof dues + sizeof amounts);
    puts("| Function | Stack | Arguments on the stack |\n|---|---|---|");
    for (int which = 0; which < FUNCTIONS; which++) printf("| `%s` | %zu | %zu |\n", names[which], most[which], arguments[which]);
    return 0;
}
