/* A sentence for each refusal of sdp_read, sdp_length, sdp_fill and sdp_starts, such as
 *
 *     line 2: the start time is not a whole number below 2^64 (refusal 9)
 *
 * That of sdp_starts has a number alone: struct sdp_answer refusal = {starts.number, 0, 0, 0, 0}.
 *
 * Of sdp_read, whose answer is in what it returns, give the text too (sdp_sentence_in). Then 8 also says which byte of its
 * line it is for:
 *
 *     line 14: the session name is not UTF-8 from byte 512 on, the 9th byte of the line (refusal 8)
 *
 * The words are those of docs/REFUSALS.md; a test (rust/sdp/tests/words.rs) holds them together.
 */
#ifndef SDP_WORDS_H
#define SDP_WORDS_H

#include "sdp.h"

#include <inttypes.h>
#include <stdio.h>
#include <string.h>

/* Enough for any sentence and the zero byte behind it; the test tries them all. */
enum { SDP_SENTENCE_SIZE = 200 };

/* The sentences, each with its number. What stands in braces is put in; of a bad byte, from and nth where they are known. */
static const struct {
    uint64_t number;
    const char *words;
} sdp_sentences[] = {
    {1, "the text has more than 32768 bytes"},
    {2, "the area has fewer than 16938 bytes"},
    {3, "there is a NUL or a CR in the line"},
    {4, "the line has no ="},
    {5, "the first = is not the second byte of the line"},
    {6, "there is no version: the first line must be v=0"},
    {7, "the version is not 0"},
    {8, "{field} is not UTF-8{from}{nth}"},
    {9, "{field} is not {form}"},
    {10, "{field} is missing"},
    {11, "{field} must not be there"},
    {12, "there is a second o line"},
    {13, "there is a second s line"},
    {14, "there is a second i line of the session"},
    {15, "there is a second u line"},
    {16, "there is a second c line of the session"},
    {17, "there is a second z line"},
    {18, "there is a second i line in this media"},
    {19, "there is a second k line"}, /* by an earlier archive: k lines are ignored now */
    {20, "there is an r line with no t line before it"},
    {21, "there are more than {rows} {table}"},
    {22, "the output is too short: {len} bytes are needed"},
    {23, "the area holds no session for this text"},
    {28, "the adjustment times of the z line fall"},
    {29, "there are more than 256 starts in the window"},
};

#define SDP_WHOLE "a whole number below 2^64"
#define SDP_PORT "a whole number below 2^16"
#define SDP_TIMED "a time below 2^64 seconds: a whole number, then d, h, m, s or nothing"
#define SDP_SIGNED "a time from -2^63 to 2^63-1 seconds: a - or none, a whole number, then d, h, m, s or nothing"
#define SDP_TOKEN "a token"

/* The fields 1 to 38: how a sentence names each, and what it must be, where 9 can refuse it. */
static const char *const sdp_fields[][2] = {
    {"the origin's username", ""},
    {"the origin's session id", ""},
    {"the origin's version", SDP_WHOLE},
    {"the origin's network type", SDP_TOKEN},
    {"the origin's address type", SDP_TOKEN},
    {"the origin's address", ""},
    {"what follows the origin's address", ""},
    {"the connection's network type", SDP_TOKEN},
    {"the connection's address type", SDP_TOKEN},
    {"the connection's address", ""},
    {"what follows the connection's address", ""},
    {"the bandwidth's type", ""},
    {"the bandwidth's value", SDP_WHOLE},
    {"what follows the bandwidth's value", ""},
    {"the start time", SDP_WHOLE},
    {"the stop time", SDP_WHOLE},
    {"what follows the stop time", ""},
    {"the repeat interval", SDP_TIMED},
    {"the repeat's duration", SDP_TIMED},
    {"a repeat's offset", SDP_TIMED},
    {"a zone's adjustment time", SDP_WHOLE},
    {"a zone's offset", SDP_SIGNED},
    {"the attribute's name", ""},
    {"the attribute's value", ""},
    {"the key's method", ""}, /* this one and the next by an earlier archive */
    {"the key", ""},
    {"the media's name", ""},
    {"the port", SDP_PORT},
    {"the port's encoding", ""},
    {"the number of ports", SDP_PORT},
    {"the media's protocol", ""},
    {"the media's formats", ""},
    {"the media's title", ""},
    {"the session name", ""},
    {"the session's description", ""},
    {"the URI", ""},
    {"the e-mail address", ""},
    {"the phone number", ""},
};

#undef SDP_WHOLE
#undef SDP_PORT
#undef SDP_TIMED
#undef SDP_SIGNED
#undef SDP_TOKEN

/* The tables 1 to 10: what each holds, and how many fit. */
static const char *const sdp_tables[][2] = {
    {"e lines", "16"},
    {"p lines", "16"},
    {"c lines of medias", "64"},
    {"b lines", "64"},
    {"t lines", "32"},
    {"r lines", "64"},
    {"offsets in r lines", "256"},
    {"pairs in the z line", "64"},
    {"a lines", "512"},
    {"m lines", "32"},
};

/* Puts words behind what stands in out, as far as they fit. */
static inline void sdp_put(char *out, size_t out_len, const char *words, size_t words_len) {
    size_t len = strlen(out);
    snprintf(out + len, out_len - len, "%.*s", (int)words_len, words);
}

/* Which byte of its line stands at a place of the text, from 1; 0 where the text has no such place. */
static inline uint64_t sdp_nth_in_line(const uint8_t *text, size_t text_len, uint64_t place) {
    uint64_t nth = 1;
    if (place >= text_len) return 0;
    while (place > 0 && text[place - 1] != '\n') place--, nth++;
    return nth;
}

/* What stands behind the digits of 1st, 2nd, 3rd, 4th, 11th, 21st. */
static inline const char *sdp_ordinal(uint64_t number) {
    uint64_t last = number % 10;
    if (number % 100 - last == 10) return "th";
    return last == 1 ? "st" : last == 2 ? "nd" : last == 3 ? "rd" : "th";
}

/* Puts the sentence of a refusal into out, with a zero byte behind it, cut where out_len is too short. Returns out. The text
 * is the one that was read; with length 0 its pointer may be anything, and 8 doesn't say which byte of the line it is. */
static inline const char *sdp_sentence_in(struct sdp_answer answer, const uint8_t *text, size_t text_len,
                                          char *out, size_t out_len) {
    static const char *const none[2] = {"", ""};
#define SDP_HAS(list, number) ((number) - 1 < sizeof(list) / sizeof *(list))
    const char *const *field = SDP_HAS(sdp_fields, answer.field) ? sdp_fields[answer.field - 1] : none;
    const char *const *table = SDP_HAS(sdp_tables, answer.field) ? sdp_tables[answer.field - 1] : none;
#undef SDP_HAS
    const char *rest = "refused"; /* by a later archive */
    for (size_t i = 0; i < sizeof sdp_sentences / sizeof *sdp_sentences; i++)
        if (sdp_sentences[i].number == answer.number) rest = sdp_sentences[i].words;
    char line[32], len[32], number[32], from[48] = "", nth[64] = "";
    snprintf(line, sizeof line, "line %" PRIu64 ": ", answer.line);
    snprintf(len, sizeof len, "%" PRIu64, answer.len);
    snprintf(number, sizeof number, " (refusal %" PRIu64 ")", answer.number);
    if (answer.place > 0) { /* 0 by an earlier archive: the version line stands there */
        uint64_t at = sdp_nth_in_line(text, text_len, answer.place);
        snprintf(from, sizeof from, " from byte %" PRIu64 " on", answer.place);
        if (at > 0) snprintf(nth, sizeof nth, ", the %" PRIu64 "%s byte of the line", at, sdp_ordinal(at));
    }
    const char *const known[][2] = {{"{field}", field[0]}, {"{form}", field[1]}, {"{table}", table[0]},
                                    {"{rows}", table[1]},  {"{len}", len},       {"{from}", from},
                                    {"{nth}", nth}};
    if (out_len == 0) return out;
    out[0] = 0;
    if (answer.line > 0) sdp_put(out, out_len, line, sizeof line);
    for (;;) {
        size_t plain = strcspn(rest, "{");
        sdp_put(out, out_len, rest, plain);
        rest += plain;
        if (*rest == 0) break;
        for (size_t i = 0; i < sizeof known / sizeof *known; i++)
            if (strncmp(rest, known[i][0], strlen(known[i][0])) == 0)
                sdp_put(out, out_len, known[i][1], strlen(known[i][1]));
        rest = strchr(rest, '}') + 1;
    }
    sdp_put(out, out_len, number, sizeof number);
    return out;
}

/* The same without a text. */
static inline const char *sdp_sentence(struct sdp_answer answer, char *out, size_t out_len) {
    return sdp_sentence_in(answer, NULL, 0, out, out_len);
}

#endif
