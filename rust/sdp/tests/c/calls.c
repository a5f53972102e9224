/* Calls every function on standard input and prints the answers, a line for each. It is C and C++. */
#include "sdp_words.h"

static void answer(struct sdp_answer a) {
    printf("%" PRIu64 " %" PRIu64 " %" PRIu64 " %" PRIu64 " %" PRIu64 "\n", a.number, a.line, a.field, a.place, a.len);
}

static void counts(struct sdp_counts c) {
    printf("%" PRIu64 " %" PRIu64 " %" PRIu64 "\n", c.empty, c.ignored, c.kept);
}

static void numeral(struct sdp_numeral n) {
    printf("%" PRIu64 " %" PRIu64 "\n", n.number, n.value);
}

/* All its numbers, the zeros too. */
static void list(struct sdp_starts s) {
    printf("%" PRIu64 " %" PRIu64, s.number, s.count);
    for (size_t i = 0; i < SDP_MOST_STARTS; i++) printf(" %" PRIu64 " %" PRIu64 " %" PRIu64, s.at[i], s.time[i], s.repeat[i]);
    printf("\n");
}

/* "With length 0 a pointer may be anything": every function, with NULL. The answers are those for no bytes. */
static int empty(void) {
    static uint8_t area[SDP_AREA_SIZE];
    struct sdp_answer read = sdp_read(NULL, 0, area, sizeof area).answer;
    struct sdp_answer short_area = sdp_read(NULL, 0, NULL, 0).answer;
    struct sdp_answer length = sdp_length(NULL, 0, area, sizeof area);
    struct sdp_answer filled = sdp_fill(NULL, 0, area, sizeof area, NULL, 0);
    if (read.number != SDP_NO_VERSION || short_area.number != SDP_AREA_TOO_SHORT) return 2;
    /* a zero area is a session of its own, that of v=0 */
    if (length.number != SDP_DONE || length.len != 40) return 3;
    if (filled.number != SDP_OUTPUT_TOO_SHORT || filled.len != 40) return 4;
    if (sdp_length(NULL, 0, NULL, 0).number != SDP_AREA_TOO_SHORT) return 5;
    if (sdp_fill(NULL, 0, NULL, 0, NULL, 0).number != SDP_AREA_TOO_SHORT) return 6;
    if (sdp_utf8_end(NULL, 0) != 0 || sdp_is_token(NULL, 0)) return 7;
    if (sdp_number16(NULL, 0).number != SDP_BAD_FORM || sdp_number64(NULL, 0).number != SDP_BAD_FORM) return 8;
    if (sdp_typed_time(NULL, 0).number != SDP_BAD_FORM || sdp_cut(NULL, 0, 0, 1).kind != 0) return 9;
    if (sdp_letter_order(NULL, 0).number != 0 || sdp_letter_order(NULL, 0).yes != 0) return 10;
    if (sdp_starts(NULL, 0, NULL, 0, 0, UINT64_MAX).number != SDP_AREA_TOO_SHORT) return 11;
    if (sdp_starts(NULL, 0, area, sizeof area, 0, UINT64_MAX).number != SDP_DONE) return 12;
    /* one that was kept before records had lines is too short by itself */
    if (sdp_length(NULL, 0, area, SDP_EARLIER_AREA_SIZE).number != SDP_AREA_TOO_SHORT) return 13;
    return 0;
}

int main(void) {
    static uint8_t text[SDP_LONGEST], area[SDP_AREA_SIZE], out[20], exact[SDP_ROOM];
    struct sdp_told told;
    struct sdp_answer length;
    size_t len = fread(text, 1, sizeof text, stdin);
    struct sdp_piece p = sdp_cut(text, len, 0, 7);
    struct sdp_order order = sdp_letter_order(text, len);
    char sentence[SDP_SENTENCE_SIZE], with_text[SDP_SENTENCE_SIZE];
    struct sdp_answer bad = {SDP_BAD_FORM, 2, 15, 0, 0};
    if (strstr(sdp_sentence(bad, sentence, sizeof sentence), "start time") == NULL) return 1;
    if (strcmp(sdp_sentence_in(bad, text, len, with_text, sizeof with_text), sentence) != 0) return 1;
    printf("%zu %d\n", sdp_utf8_end(text, len), sdp_is_token(text, len) ? 1 : 0);
    numeral(sdp_number16(text, len));
    numeral(sdp_number64(text, len));
    numeral(sdp_typed_time(text, len));
    printf("%" PRIu64 " %" PRIu64 " %" PRIu64 " %" PRIu64 " ", p.kind, p.number, p.line, p.letter);
    printf("%" PRIu64 " %" PRIu64 " %" PRIu64 " %" PRIu64 "\n", p.place, p.len, p.next_place, p.next_line);
    told = sdp_read(text, len, area, sizeof area);
    answer(told.answer);
    counts(told.counts);
    length = sdp_length(text, len, area, sizeof area);
    answer(length);
    answer(sdp_fill(text, len, area, sizeof area, out, sizeof out));
    answer(sdp_fill(text, len, area, sizeof area, exact, (size_t)length.len));
    list(sdp_starts(text, len, area, sizeof area, 100, 1000));
    printf("%" PRIu64 " %" PRIu64 "\n%zu\n", order.number, order.yes, sdp_area_size());
    return empty();
}
