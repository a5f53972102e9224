/* Calls every function on standard input, each call in a thread of its own with the smallest stack that the system gives:
   16 KB on x86-64, 128 KB on Arm. Prints a line for each: the function, what it answered, and how many bytes of the stack
   were used, with what the thread itself needs. Below the stack nothing can be touched: a call that needs more ends the
   program. A list of starts is large and is returned on the stack: its bytes don't count, and that stack is twice as long. */
#define _GNU_SOURCE
#include "sdp.h"
#include <inttypes.h>
#include <pthread.h>
#include <stdio.h>
#include <string.h>
#include <sys/mman.h>

enum { SMALLEST = 16384, MOST = 1 << 20, BELOW = 1 << 20, PAINT = 0xa5 };

static uint8_t text[2 * SDP_LONGEST], area[SDP_AREA_SIZE], noise[SDP_AREA_SIZE], out[SDP_ROOM];
static size_t len;
static uint64_t needed; /* bytes that what is read is written with */

static uint64_t utf8_end(void) { return sdp_utf8_end(text, len); }
static uint64_t is_token(void) { return sdp_is_token(text, len); }
static uint64_t number16(void) { return sdp_number16(text, len).number; }
static uint64_t number64(void) { return sdp_number64(text, len).number; }
static uint64_t typed_time(void) { return sdp_typed_time(text, len).number; }
static uint64_t cut(void) { return sdp_cut(text, len, 0, 1).kind; }
static uint64_t cut_last(void) { return sdp_cut(text, len, len > 0 ? len - 1 : 0, SIZE_MAX).kind; }
static uint64_t read_text(void) { return sdp_read(text, len, area, sizeof area).answer.number; }
static uint64_t length(void) {
    struct sdp_answer answer = sdp_length(text, len, area, sizeof area);
    needed = answer.len;
    return answer.number;
}
static uint64_t length_noise(void) { return sdp_length(text, len, noise, sizeof noise).number; }
static uint64_t fill(void) { return sdp_fill(text, len, area, sizeof area, out, sizeof out).number; }
static uint64_t fill_exact(void) {
    return sdp_fill(text, len, area, sizeof area, out, needed < sizeof out ? (size_t)needed : sizeof out).number;
}
static uint64_t fill_short(void) { return sdp_fill(text, len, area, sizeof area, out, 0).number; }
static uint64_t fill_noise(void) { return sdp_fill(text, len, noise, sizeof noise, out, sizeof out).number; }
static uint64_t letter_order(void) { return sdp_letter_order(text, len).yes; }
static uint64_t area_size(void) { return sdp_area_size(); }
static uint64_t list(const uint8_t *of, uint64_t from, uint64_t to) {
    struct sdp_starts starts = sdp_starts(text, len, of, SDP_AREA_SIZE, from, to);
    return starts.number > 0 ? starts.number : 1000 + starts.count;
}
static uint64_t starts(void) { return list(area, 0, UINT64_MAX); }
static uint64_t starts_in_week(void) { return list(area, 1, 604801); }
static uint64_t starts_of_noise(void) { return list(noise, 0, UINT64_MAX); }

struct call {
    const char *name;
    uint64_t (*function)(void);
    size_t returned; /* bytes of the stack that an answer takes which is no number */
    uint64_t answer;
};

static void *make(void *argument) {
    struct call *call = argument;
    call->answer = call->function();
    return argument;
}

int main(void) {
    /* what is read is there for the calls that write it */
    struct call calls[] = {
        {"sdp_utf8_end", utf8_end, 0, 0},
        {"sdp_is_token", is_token, 0, 0},
        {"sdp_number16", number16, 0, 0},
        {"sdp_number64", number64, 0, 0},
        {"sdp_typed_time", typed_time, 0, 0},
        {"sdp_cut", cut, 0, 0},
        {"sdp_cut", cut_last, 0, 0},
        {"sdp_read", read_text, 0, 0},
        {"sdp_length", length, 0, 0},
        {"sdp_length", length_noise, 0, 0},
        {"sdp_fill", fill, 0, 0},
        {"sdp_fill", fill_exact, 0, 0},
        {"sdp_fill", fill_short, 0, 0},
        {"sdp_fill", fill_noise, 0, 0},
        {"sdp_letter_order", letter_order, 0, 0},
        {"sdp_area_size", area_size, 0, 0},
        {"sdp_starts", starts, sizeof(struct sdp_starts), 0},
        {"sdp_starts", starts_in_week, sizeof(struct sdp_starts), 0},
        {"sdp_starts", starts_of_noise, sizeof(struct sdp_starts), 0},
    };
    uint8_t *room = mmap(NULL, BELOW + MOST, PROT_NONE, MAP_PRIVATE | MAP_ANONYMOUS, -1, 0);
    size_t smallest = SMALLEST;
    pthread_attr_t small;
    if (room == MAP_FAILED || pthread_attr_init(&small) != 0) return 2;
    /* its upper end stays where it is */
    while (pthread_attr_setstack(&small, room + BELOW + MOST - smallest, smallest) != 0)
        if ((smallest *= 2) > MOST / 2) return 2;
    len = fread(text, 1, sizeof text, stdin);
    memcpy(noise, text, sizeof noise);
    /* the C library's functions are looked up at their first call, which takes stack of its own */
    (void)sdp_read(text, 0, area, sizeof area);
    for (size_t i = 0; i < sizeof calls / sizeof calls[0]; i++) {
        pthread_t thread;
        void *made = NULL;
        size_t left = 0, size = calls[i].returned > 0 ? 2 * smallest : smallest;
        uint8_t *stack = room + BELOW + MOST - size;
        if (mprotect(room, BELOW + MOST, PROT_NONE) != 0) return 2;
        if (mprotect(stack, size, PROT_READ | PROT_WRITE) != 0) return 2;
        if (pthread_attr_setstack(&small, stack, size) != 0) return 2;
        printf("%s ", calls[i].name);
        fflush(stdout); /* so that after a crash the function is known */
        memset(stack, PAINT, size);
        if (pthread_create(&thread, &small, make, &calls[i]) != 0 || pthread_join(thread, &made) != 0) return 2;
        if (made != &calls[i]) return 2;
        while (left < size && stack[left] == PAINT) left++;
        printf("%" PRIu64 " %zu\n", calls[i].answer, size - left - calls[i].returned);
    }
    return 0;
}
