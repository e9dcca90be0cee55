/* What the static libraries export, for C: the functions of crates/board, board_opening, board_bound, board_counter, board_search, board_shares,
   board_trace, board_listing, board_replay, board_text, board_check and share_listing, and the structs that they name. A slice is a pointer and then a length. */
#ifndef THAWONLAI_H
#define THAWONLAI_H
#include <stddef.h>
#include <stdint.h>

enum { THREADS = 32, ENTRIES = 8, SLOTS = THREADS * ENTRIES, NUMBERS = THREADS * 4, ROW = 33, EVENTS = 1500, SHARE_LINES = 4096 };

struct parameters { uint8_t policy, priority, low, max_repl; uint32_t flag; uint64_t budget, period; };
struct event { uint64_t time; uint8_t kind, thread; struct parameters parameters; };
/* an event whose time is a reading of a counter of 32 bits */
struct counter_event { uint32_t reading; uint8_t kind, thread; struct parameters parameters; };
struct header { uint32_t n; uint64_t start; };
struct server { uint64_t capacity, used, activation; };
struct thread { struct parameters parameters; uint8_t blocked; uint64_t total, left; struct server server; };
/* a state without its slots; these, SLOTS dues and SLOTS amounts, are lent beside it */
struct core {
    struct header header;
    uint64_t now, idle;
    uint32_t word;
    struct thread threads[THREADS];
    uint8_t counts[THREADS];
    uint8_t lists[THREADS * ROW];
};
struct reply { uint8_t status, running; uint64_t next; };
/* status 0, or 5 where n is out of range; thread THREADS where no thread has anything pending, then due 0 */
struct next_due { uint8_t status, thread; uint64_t due; };
/* status 0, or 6 where the parameters are no sporadic ones in range, then ticks 0 */
struct most { uint8_t status; uint64_t ticks; };
/* form 0 a share, 1 no time has passed, 2 refused with the status; what doesn't apply is 0 */
struct share { uint8_t form, status; double share; };
struct share_summary { uint8_t form, status, largest_thread, smallest_thread; double largest, smallest; };
struct answer { uint8_t status, running; uint64_t next; struct core core; };
struct table { struct parameters threads[THREADS]; };
struct events { struct event events[EVENTS]; };
struct found { uint8_t status; uint32_t n; uint64_t start; size_t count; };
struct written { uint8_t status; size_t total; };
struct listed { uint8_t status; size_t length; };
struct made { uint8_t status; size_t line, total; };
struct checked { uint8_t verdict, status; size_t line; };

/* writes over all of the NUMBERS told: from 4 * i on what happened to thread i, that is the limits reached, the quanta ended, the
   replenishments carried out and the sum of their amounts; zeros where the event is refused */
struct reply thawonlai_event(struct core *core, uint64_t *dues, uint64_t *amounts, uint64_t *told, struct event e);
struct reply thawonlai_counter_event(struct core *core, uint64_t *dues, uint64_t *amounts, uint64_t *told, struct counter_event e);
struct answer thawonlai_open(struct header header, struct table table, uint64_t *dues, uint64_t *amounts);
uint8_t thawonlai_sound(const struct core *core, const uint64_t *dues, const uint64_t *amounts);
struct next_due thawonlai_next_due(const uint8_t counts[THREADS], const uint64_t dues[SLOTS], uint32_t n);
/* the most of `length` ticks that a sporadic thread takes at its upper priority */
struct most thawonlai_bound(struct parameters p, uint64_t length);
struct share thawonlai_share(const struct core *core, const uint64_t *dues, const uint64_t *amounts, uint8_t thread);
struct share_summary thawonlai_share_summary(const struct core *core, const uint64_t *dues, const uint64_t *amounts);
/* the lines of a trace's shares into SHARE_LINES bytes, zeros after them; how many bytes they are */
size_t thawonlai_share_listing(const uint8_t *file, size_t length, uint8_t out[SHARE_LINES]);
struct found thawonlai_read(const uint8_t *file, size_t length);
struct written thawonlai_write(struct header header, struct table table, struct events events, size_t count, uint8_t *out, size_t room);
struct written thawonlai_copy(const uint8_t *file, size_t length, uint8_t *out, size_t room);
struct listed thawonlai_listing(const uint8_t *file, size_t length, uint8_t *out, size_t room);
struct answer thawonlai_replay(const uint8_t *file, size_t length, size_t count, uint64_t *dues, uint64_t *amounts);
struct made thawonlai_from_text(const uint8_t *text, size_t length, uint8_t *out, size_t room);
struct made thawonlai_to_text(const uint8_t *file, size_t length, uint8_t *out, size_t room);
struct checked thawonlai_check(const uint8_t *file, size_t length, const uint8_t *theirs, size_t their_length);
#endif
