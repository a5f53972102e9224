/* Prints what a session description announces, each with the line that it was read from, when it starts in the week that
 * begins with its first time, how many of its lines were kept, ignored and empty, and then its written form, as
 * rust/sdp/examples/announce.rs does. The text comes from a file or from standard input. The exit status is 0, or 1 for a
 * text that is refused, or 2 where something can't be read or written. From the root of the repository:
 *
 *     ./archive && cc -std=c11 -Ic -o target/example c/example.c target/staticlib/libsdp.a
 *     target/example FILE
 */
#include "sdp.h"
#include "sdp_words.h"

#include <assert.h>
#include <errno.h>
#include <stdlib.h>

static uint8_t text[SDP_LONGEST + 1]; /* one byte more, so that a text that is too long is seen */
static size_t text_len;
static uint8_t area[SDP_AREA_SIZE];
static struct sdp_starts starts;

/* Numbers of the area, lower byte first. */
static unsigned two(size_t at) {
    return area[at] | (unsigned)area[at + 1] << 8;
}

static uint64_t eight(size_t at) {
    uint64_t number = 0;
    for (size_t byte = 8; byte > 0; byte--) number = number << 8 | area[at + byte - 1];
    return number;
}

/* A zone's offset has a sign. */
static int64_t signed_eight(size_t at) {
    uint64_t number = eight(at);
    int64_t value;
    memcpy(&value, &number, sizeof value);
    return value;
}

/* A string of the area is a place in the text and a length. */
static void put_string(size_t at) {
    fwrite(text + two(at), 1, two(at + 2), stdout);
}

/* Row n of a table, from 1. */
static size_t row(size_t table, size_t width, unsigned n) {
    return table + 2 + (n - 1) * width;
}

/* The line of row n of a table, by the table's column of lines; of a field n is 1. Nothing where there is none. */
static void put_line(size_t lines, uint64_t n) {
    unsigned line = two(lines + (n - 1) * 2);
    if (line > 0) printf(" (line %u)", line);
}

static void print_starts(void) {
    const uint64_t week = 7 * 86400;
    uint64_t from = two(SDP_TIMES) > 0 ? eight(row(SDP_TIMES, SDP_TIMES_ROW, 1)) : 0;
    uint64_t to = from < UINT64_MAX - week ? from + week : UINT64_MAX;
    starts = sdp_starts(text, text_len, area, sizeof area, from, to);
    if (starts.number != SDP_DONE) {
        struct sdp_answer refusal = {starts.number, 0, 0, 0, 0};
        char sentence[SDP_SENTENCE_SIZE];
        printf("starts: %s\n", sdp_sentence(refusal, sentence, sizeof sentence));
    }
    for (uint64_t i = 0; i < starts.count; i++) {
        printf("starts: %" PRIu64 " by time %" PRIu64, starts.at[i], starts.time[i]);
        put_line(SDP_TIMES_LINES, starts.time[i]);
        if (starts.repeat[i] > 0) {
            printf(", repeat %" PRIu64, starts.repeat[i]);
            put_line(SDP_REPEATS_LINES, starts.repeat[i]);
        }
        printf("\n");
    }
}

static void print_session(struct sdp_counts counts) {
    printf("name: ");
    put_string(SDP_NAME);
    put_line(SDP_NAME_LINE, 1);
    printf("\n");
    for (unsigned t = 1; t <= two(SDP_TIMES); t++) {
        size_t time = row(SDP_TIMES, SDP_TIMES_ROW, t);
        printf("time: %" PRIu64 " to %" PRIu64, eight(time), eight(time + 8));
        put_line(SDP_TIMES_LINES, t);
        printf("\n");
        for (unsigned r = 1; r <= two(SDP_REPEATS); r++) {
            size_t repeat = row(SDP_REPEATS, SDP_REPEATS_ROW, r);
            if (two(repeat) != t) continue; /* of another time */
            printf("  every %" PRIu64 " s for %" PRIu64 " s, from", eight(repeat + 2), eight(repeat + 10));
            for (unsigned o = 1; o <= two(SDP_OFFSETS); o++) {
                size_t offset = row(SDP_OFFSETS, SDP_OFFSETS_ROW, o);
                if (two(offset) == r) printf(" %" PRIu64, eight(offset + 2));
            }
            put_line(SDP_REPEATS_LINES, r);
            printf("\n");
        }
    }
    for (unsigned z = 1; z <= two(SDP_ZONES); z++) {
        size_t zone = row(SDP_ZONES, SDP_ZONES_ROW, z);
        printf("zone: %" PRId64 " s from %" PRIu64 " on", signed_eight(zone + 8), eight(zone));
        put_line(SDP_ZONES_LINES, z);
        printf("\n");
    }
    print_starts();
    for (unsigned m = 1; m <= two(SDP_MEDIAS); m++) {
        size_t media = row(SDP_MEDIAS, SDP_MEDIAS_ROW, m);
        printf("media: ");
        put_string(media);
        printf(" to port %u", two(media + 4));
        put_line(SDP_MEDIAS_LINES, m);
        printf("\n");
        if (two(media + SDP_MEDIAS_TITLE_MARK) == 1) {
            printf("  title: ");
            put_string(media + SDP_MEDIAS_TITLE);
            put_line(SDP_MEDIA_TITLES_LINES, m);
            printf("\n");
        }
        for (unsigned a = 1; a <= two(SDP_ATTRIBUTES); a++) {
            size_t attribute = row(SDP_ATTRIBUTES, SDP_ATTRIBUTES_ROW, a);
            if (two(attribute) != m) continue; /* of the session, or of another media */
            printf("  ");
            put_string(attribute + 2);
            if (two(attribute + 6) == 1) { /* it has a value, if only an empty one */
                printf(":");
                put_string(attribute + 8);
            }
            put_line(SDP_ATTRIBUTES_LINES, a);
            printf("\n");
        }
    }
    /* how much of the text was passed over */
    printf("lines: %" PRIu64 " kept, %" PRIu64 " ignored, %" PRIu64 " empty\n", counts.kept, counts.ignored, counts.empty);
}

static int failed(const char *what) {
    fprintf(stderr, "example: %s: %s\n", what, strerror(errno));
    return 2;
}

static int refused(struct sdp_answer answer) {
    char sentence[SDP_SENTENCE_SIZE];
    fprintf(stderr, "example: %s\n", sdp_sentence_in(answer, text, text_len, sentence, sizeof sentence));
    return 1;
}

int main(int argc, char **argv) {
    assert(sdp_area_size() == SDP_AREA_SIZE); /* this header and this archive belong together */

    const char *name = argc > 1 ? argv[1] : "standard input";
    FILE *in = argc > 1 ? fopen(name, "rb") : stdin;
    if (in == NULL) return failed(name);
    text_len = fread(text, 1, sizeof text, in);
    if (ferror(in)) return failed(name);

    struct sdp_told told = sdp_read(text, text_len, area, sizeof area);
    if (told.answer.number != SDP_DONE) return refused(told.answer);
    print_session(told.counts);

    /* the length, then memory of just that size, then the text */
    struct sdp_answer answer = sdp_length(text, text_len, area, sizeof area);
    if (answer.number != SDP_DONE) return refused(answer);
    uint8_t *out = malloc(answer.len);
    if (out == NULL) return failed("the written form");
    answer = sdp_fill(text, text_len, area, sizeof area, out, answer.len);
    if (answer.number != SDP_DONE) return refused(answer);
    fwrite(out, 1, answer.len, stdout);
    free(out);
    if (fflush(stdout) != 0 || ferror(stdout)) return failed("standard output");
    return 0;
}
