/* Session descriptions (SDP, RFC 8866): the functions of the archive libsdp.a, for Linux on x86-64 or Arm (aarch64).
 *
 *     ./archive                                          # makes target/staticlib/libsdp.a, for x86-64
 *     ./archive --arm                                    # makes target/arm/libsdp.a
 *     cc -Ic program.c target/staticlib/libsdp.a         # a program with it
 *
 * In short:
 *
 *     static uint8_t area[SDP_AREA_SIZE];
 *     struct sdp_told told = sdp_read(text, text_len, area, sizeof area);
 *     if (told.answer.number != 0) ...                   // refused: sdp_words.h makes a sentence of the answer
 *     ...                                                // the area holds the session: see "The area" below, and
 *                                                        // "The lines" for where in the text each record stands
 *     ... told.counts.ignored ...                        // so many lines had no use
 *     struct sdp_answer answer = sdp_length(text, text_len, area, sizeof area);
 *     uint8_t *out = malloc(answer.len);                 // or lend SDP_ROOM bytes, and don't ask for the length
 *     answer = sdp_fill(text, text_len, area, sizeof area, out, answer.len);
 *     if (answer.number == 0) ...                        // the first answer.len bytes of out are the written text
 *     static struct sdp_starts starts;
 *     starts = sdp_starts(text, text_len, area, sizeof area, from, to);
 *     for (i = 0; i < starts.count; i++) ...             // it starts at starts.at[i]; or starts.number says why not
 *
 * Memory. Every function takes bytes with their length, and answers for all contents, all lengths and all numbers.
 * Bytes need no zero behind them and no alignment. What is const must not change during the call. What is not const, the
 * area of sdp_read and the out of sdp_fill, must not overlap another argument, and nothing else may touch it during the
 * call. With length 0 a pointer may be anything: it is not used. No function keeps a pointer, allocates, or has state
 * of its own, so threads may call them at the same time on memory of their own.
 *
 * A test (rust/sdp/tests/header.rs) holds this file to the source of the archive.
 */
#ifndef SDP_H
#define SDP_H

#include <stdbool.h>
#include <stddef.h>
#include <stdint.h>

#ifdef __cplusplus
extern "C" {
#endif

enum {
    SDP_AREA_SIZE = 16938,         /* bytes of an area; sdp_area_size() answers the same: assert it once at the start */
    SDP_EARLIER_AREA_SIZE = 14558, /* bytes of one that was kept before records had lines: see "The lines" below */
    SDP_LONGEST = 32768,           /* bytes that a text may have */
    SDP_ROOM = 43727,              /* bytes of output that are enough for any text that was read */
    SDP_MOST_STARTS = 256          /* starts that sdp_starts lists at most */
};

/* The number of an answer: 0, or why not. docs/REFUSALS.md has more words, and the numbers of the fields. */
enum sdp_refusal {
    SDP_DONE = 0,
    SDP_TEXT_TOO_LONG = 1,
    SDP_AREA_TOO_SHORT = 2,
    SDP_NUL_OR_CR = 3,             /* in a line; gives line */
    SDP_NO_EQUALS = 4,             /* a line without =; gives line */
    SDP_EQUALS_NOT_SECOND = 5,     /* the first = is not the line's second byte; gives line */
    SDP_NO_VERSION = 6,            /* the first line that isn't empty is no v line, or there is none */
    SDP_VERSION_NOT_0 = 7,         /* gives line, and place and len of the value */
    SDP_NOT_UTF8 = 8,              /* gives line and field, and as place that of the first bad byte */
    SDP_BAD_FORM = 9,              /* of a number, a time or a token; gives line and field */
    SDP_MISSING_FIELD = 10,        /* gives line and field */
    SDP_TRAILING_DATA = 11,        /* gives line and field */
    SDP_SECOND_ORIGIN = 12,        /* a second o line; gives line, as do those down to 20 */
    SDP_SECOND_NAME = 13,          /* s */
    SDP_SECOND_DESCRIPTION = 14,   /* i of the session */
    SDP_SECOND_URI = 15,           /* u */
    SDP_SECOND_CONNECTION = 16,    /* c of the session */
    SDP_SECOND_ZONES = 17,         /* z */
    SDP_SECOND_MEDIA_TITLE = 18,   /* i of one media */
    SDP_SECOND_KEY = 19,           /* never any more: k lines are ignored. Nor are the fields 25 and 26 given */
    SDP_REPEAT_WITHOUT_TIME = 20,  /* an r line with no t line before it */
    SDP_TABLE_FULL = 21,           /* gives line, and the table as field: 1 emails .. 10 medias, as in "The area" */
    SDP_OUTPUT_TOO_SHORT = 22,     /* by sdp_fill alone; gives as len the bytes that an output needs */
    SDP_BAD_SESSION = 23,          /* the area holds no session for this text; a line above 32768 too */
    SDP_ZONES_FALL = 28,           /* an adjustment time of the z line is below the one before it */
    SDP_TOO_MANY_STARTS = 29       /* more than SDP_MOST_STARTS in the window */
};

/* What sdp_length and sdp_fill say, and sdp_read with the counts of lines below. What a number doesn't give is 0. */
struct sdp_answer {
    uint64_t number; /* enum sdp_refusal */
    uint64_t line;   /* from 1 */
    uint64_t field;
    uint64_t place;  /* from 0 in the text. For 7 where the value starts; for 8 where the first byte stands that is no
                        part of the field's longest well-formed beginning, and of a cut-off character its first */
    uint64_t len;    /* on success of sdp_length and sdp_fill the length of the written text */
};

/* How many lines of a text are empty, ignored and kept: together all its lines, which are its LFs, and one more where the
 * last line has none. After a refusal all three are 0. */
struct sdp_counts {
    uint64_t empty;   /* nothing before the line's ending */
    uint64_t ignored; /* no use where they stand: a later v line, k lines, letters unknown or with a use elsewhere only */
    uint64_t kept;    /* the version line and all with a use, a z line without pairs too */
};

/* What sdp_read returns. */
struct sdp_told {
    struct sdp_answer answer;
    struct sdp_counts counts;
};

/* A number that was read: number is 0 and value has it; or number is 8 or 9 as above, and value is 0. */
struct sdp_numeral {
    uint64_t number;
    uint64_t value;
};

/* What stands where a line is due. What a kind doesn't have is 0. */
struct sdp_piece {
    uint64_t kind;       /* 0 the end of the text, 1 an empty line, 2 a line of good form, 3 a refused line */
    uint64_t number;     /* kind 3: the refusal, 3, 4 or 5 */
    uint64_t line;       /* kinds 1, 2, 3: the number of the line, as it was given */
    uint64_t letter;     /* kind 2: the byte before the = */
    uint64_t place;      /* kind 2: where the value starts */
    uint64_t len;        /* kind 2: the bytes of the value, without the line's ending */
    uint64_t next_place; /* kinds 1, 2: where the next line starts */
    uint64_t next_line;  /* kinds 1, 2: its number */
};

/* Whether letters are in order. */
struct sdp_order {
    uint64_t number; /* 0, or 1 for a text that is too long */
    uint64_t yes;    /* 1 or 0 */
};

/* When a session starts within a window. After a refusal, and from count on, all is 0. */
struct sdp_starts {
    uint64_t number;                  /* 0, or 2, 1, 23, 28 or 29 as above */
    uint64_t count;                   /* how many starts there are */
    uint64_t at[SDP_MOST_STARTS];     /* the instant of each, in seconds since 1900, as SDP counts */
    uint64_t time[SDP_MOST_STARTS];   /* the row of its time in SDP_TIMES, from 1 */
    uint64_t repeat[SDP_MOST_STARTS]; /* the row of its repeat in SDP_REPEATS, from 1; 0 for a time without repeats */
};

/* Reads a text into the area, which may hold anything before, and may be longer than SDP_AREA_SIZE. On 0 its first
 * SDP_AREA_SIZE bytes hold the session. After 1 and 2 the area is unchanged, after 3 to 21 these bytes are zero. The
 * strings of the session are places in the text: keep the text, unchanged, as long as you use the area. Lines whose letter
 * has no use are ignored, whatever follows the =; k lines too, which RFC 8866 calls obsolete: they leave no key. With 0 the
 * counts say how many lines were passed over; they tell of the text, and are not in the area. */
struct sdp_told sdp_read(const uint8_t *text, size_t text_len, uint8_t *area, size_t area_len);

/* Writing takes two calls: sdp_length says how long the written text is, the caller finds memory, sdp_fill writes it there.
 * Who has SDP_ROOM bytes to lend needs only the second.
 *
 * How many bytes the session of an area is written with, given the text that it was read from. On 0 len is the length,
 * which is never 0. The refusals are 2, 1 and 23, judged in this order; their len is 0. An area that sdp_read filled is
 * never refused with 23 by either call, given the same text. */
struct sdp_answer sdp_length(const uint8_t *text, size_t text_len, const uint8_t *area, size_t area_len);

/* Writes the session of an area into out, given the text that it was read from. On 0 the first len bytes of out are the
 * written text, each line ended by CR LF, with no zero byte behind. After a refusal out is unchanged, all of it: 2, 1 and 23
 * as sdp_length answers them, then 22 where out is too short, with the length that is needed as len. Into as many bytes as
 * sdp_length answered it is never 22. A key is never written. One that an earlier release left in the area is judged by
 * both calls as all else there: 23 where its marks are neither 0 nor 1, or its strings don't stand in the text or are not
 * UTF-8, or its line is above 32768. */
struct sdp_answer sdp_fill(const uint8_t *text, size_t text_len, const uint8_t *area, size_t area_len,
                           uint8_t *out, size_t out_len);

/* When the session of an area starts, given the text that it was read from: every start that is not before from and is
 * before to, in rising order; of equal instants the lower time first, then the lower repeat. A time without repeats starts
 * once, at its start. A repeat starts at its time's start + k * interval + offset, for each of its offsets (0 where it has
 * none) and each k from 0 on; only for k = 0 where the interval is 0. What is at or after a stop that isn't 0 is left out.
 * Then the offset of the last zone whose adjustment time is not after it is added to a repeat's start, with its sign. A
 * start of 0 lists nothing. Where from >= to the list is empty. The refusals are 2, 1 and 23 as for sdp_fill, then 28 and
 * 29, judged in this order. */
struct sdp_starts sdp_starts(const uint8_t *text, size_t text_len, const uint8_t *area, size_t area_len,
                             uint64_t from, uint64_t to);

/* SDP_AREA_SIZE, as the archive has it. */
size_t sdp_area_size(void);

/* Whether the letters of the text's lines run in the order of RFC 8866: v o s i? u? e* p* c? b*, then one or more of
 * (t, then optionally (r+ z?)), then k? a*, then any number of (m i? c* b* k? a*). Values are not judged, and sdp_read takes
 * other orders too. But it takes only one z line: a text with one behind the r lines of each of two times is in order, and
 * is refused with 17. sdp_fill puts z behind all times: what it writes, within SDP_LONGEST bytes, is in order if there are
 * no zones, and otherwise exactly when the last time has a repeat. */
struct sdp_order sdp_letter_order(const uint8_t *text, size_t text_len);

/* What stands at a place of the text, where the line of that number is due. Begin with place 0 and line 1; after the
 * kinds 1 and 2 go on with next_place and next_line. */
struct sdp_piece sdp_cut(const uint8_t *text, size_t text_len, size_t place, size_t line);

/* The end of the longest beginning that is well-formed UTF-8: s is UTF-8 exactly when this is s_len. */
size_t sdp_utf8_end(const uint8_t *s, size_t s_len);

/* Whether s is a token of RFC 8866. */
bool sdp_is_token(const uint8_t *s, size_t s_len);

/* A whole number below 2^16: a + or none, then digits. */
struct sdp_numeral sdp_number16(const uint8_t *s, size_t s_len);

/* The same below 2^64. */
struct sdp_numeral sdp_number64(const uint8_t *s, size_t s_len);

/* A whole number, then d, h, m, s or nothing: in seconds, below 2^64. */
struct sdp_numeral sdp_typed_time(const uint8_t *s, size_t s_len);

/* The area.
 *
 * Numbers of 2 and 8 bytes have their lower byte first; nothing is aligned. A string is 4 bytes: its place in the text,
 * 2 bytes, then its length, 2 bytes. A mark is 2 bytes: 1 present, 0 absent; an absent field's cells are zero. A table is
 * a count of 2 bytes and then its rows; row n, from 1, starts at SDP_x + 2 + (n - 1) * SDP_x_ROW. An owner is 2 bytes and
 * says to what a row belongs, from 1; owners never fall from row to row. */
enum {
    SDP_ORIGIN = 0,       /* mark, username mark, username, sess-id, version 8 bytes, nettype, addrtype, address.
                             Where the mark is 0 the origin is - 0 0 IN IP4 0.0.0.0 */
    SDP_NAME = 32,        /* string; empty where there is no s line */
    SDP_DESCRIPTION = 36, /* mark, string */
    SDP_URI = 42,         /* mark, string */
    SDP_CONNECTION = 48,  /* of the session: mark, nettype, addrtype, address */
    SDP_KEY = 62,         /* of the session: mark, method, text mark, text. All zero, but in areas of earlier releases */

    SDP_EMAILS = 74,
    SDP_EMAILS_ROW = 4, /* string */
    SDP_PHONES = 140,
    SDP_PHONES_ROW = 4, /* string */
    SDP_MEDIA_CONNECTIONS = 206,
    SDP_MEDIA_CONNECTIONS_ROW = 14, /* owner: the media; nettype, addrtype, address */
    SDP_BANDWIDTHS = 1104,
    SDP_BANDWIDTHS_ROW = 14, /* owner: 0 the session, else the media; type; value 8 bytes */
    SDP_TIMES = 2002,
    SDP_TIMES_ROW = 16, /* start 8 bytes, stop 8 bytes */
    SDP_REPEATS = 2516,
    SDP_REPEATS_ROW = 18, /* owner: the time; interval 8 bytes, duration 8 bytes, in seconds */
    SDP_OFFSETS = 3670,
    SDP_OFFSETS_ROW = 10, /* owner: the repeat; 8 bytes, in seconds */
    SDP_ZONES = 6232,
    SDP_ZONES_ROW = 16, /* adjustment time 8 bytes; offset 8 bytes, SIGNED (two's complement), in seconds */
    SDP_ATTRIBUTES = 7258,
    SDP_ATTRIBUTES_ROW = 12, /* owner: 0 the session, else the media; name; value mark; value */
    SDP_MEDIAS = 13404,
    SDP_MEDIAS_ROW = 36 /* media; port 2 bytes; num-ports mark; num-ports 2 bytes; proto; fmt; title mark; title;
                           key mark; key method; key text mark; key text: zero, as SDP_KEY */
};

/* Where a field stands, counted from its part's start, and in a table from its row's. */
enum {
    SDP_ORIGIN_MARK = 0, SDP_ORIGIN_USERNAME_MARK = 2, SDP_ORIGIN_USERNAME = 4, SDP_ORIGIN_SESS_ID = 8,
    SDP_ORIGIN_SESS_VERSION = 12, SDP_ORIGIN_NETTYPE = 20, SDP_ORIGIN_ADDRTYPE = 24,
    SDP_ORIGIN_UNICAST_ADDRESS = 28,
    SDP_NAME_NAME = 0,
    SDP_DESCRIPTION_MARK = 0, SDP_DESCRIPTION_DESCRIPTION = 2,
    SDP_URI_MARK = 0, SDP_URI_URI = 2,
    SDP_CONNECTION_MARK = 0, SDP_CONNECTION_NETTYPE = 2, SDP_CONNECTION_ADDRTYPE = 6,
    SDP_CONNECTION_ADDRESS = 10,
    SDP_KEY_MARK = 0, SDP_KEY_METHOD = 2, SDP_KEY_TEXT_MARK = 6, SDP_KEY_TEXT = 8,
    SDP_EMAILS_EMAIL = 0,
    SDP_PHONES_PHONE = 0,
    SDP_MEDIA_CONNECTIONS_OWNER = 0, SDP_MEDIA_CONNECTIONS_NETTYPE = 2, SDP_MEDIA_CONNECTIONS_ADDRTYPE = 6,
    SDP_MEDIA_CONNECTIONS_ADDRESS = 10,
    SDP_BANDWIDTHS_OWNER = 0, SDP_BANDWIDTHS_TYPE = 2, SDP_BANDWIDTHS_VALUE = 6,
    SDP_TIMES_START = 0, SDP_TIMES_STOP = 8,
    SDP_REPEATS_OWNER = 0, SDP_REPEATS_INTERVAL = 2, SDP_REPEATS_DURATION = 10,
    SDP_OFFSETS_OWNER = 0, SDP_OFFSETS_VALUE = 2,
    SDP_ZONES_ADJUSTMENT = 0, SDP_ZONES_OFFSET = 8,
    SDP_ATTRIBUTES_OWNER = 0, SDP_ATTRIBUTES_NAME = 2, SDP_ATTRIBUTES_VALUE_MARK = 6,
    SDP_ATTRIBUTES_VALUE = 8,
    SDP_MEDIAS_MEDIA = 0, SDP_MEDIAS_PORT = 4, SDP_MEDIAS_NUM_PORTS_MARK = 6, SDP_MEDIAS_NUM_PORTS = 8,
    SDP_MEDIAS_PROTO = 10, SDP_MEDIAS_FMT = 14, SDP_MEDIAS_TITLE_MARK = 18, SDP_MEDIAS_TITLE = 20,
    SDP_MEDIAS_KEY_MARK = 24, SDP_MEDIAS_KEY_METHOD = 26, SDP_MEDIAS_KEY_TEXT_MARK = 30,
    SDP_MEDIAS_KEY_TEXT = 32
};

/* The lines.
 *
 * Behind the session the area has the line of the text that each record was read from, 2 bytes for each: a cell for each
 * field, and for each table a column with a cell for each row that it has room for. That of row n, from 1, is at
 * SDP_x_LINES + (n - 1) * 2. So the line of the second media stands at SDP_MEDIAS_LINES + 2, and that of its title at
 * SDP_MEDIA_TITLES_LINES + 2. Lines count from 1, as in an answer. An offset has the line of its r line, a zone that of the
 * z line. 0 is no line: the field is absent or the name missing, the cell is past the table's count, or the session was made
 * by hand.
 *
 * An area that was kept before records had lines has SDP_EARLIER_AREA_SIZE bytes, and is too short now. Copy it into one
 * that is zero. Then it is the same session, judged and written as before, and no line is known:
 *
 *     static uint8_t area[SDP_AREA_SIZE];                // zero, since it is static
 *     memcpy(area, earlier, SDP_EARLIER_AREA_SIZE); */
enum {
    SDP_ORIGIN_LINE = 14558,
    SDP_NAME_LINE = 14560,
    SDP_DESCRIPTION_LINE = 14562,
    SDP_URI_LINE = 14564,
    SDP_CONNECTION_LINE = 14566, /* of the session */
    SDP_KEY_LINE = 14568,        /* zero, as SDP_KEY */
    SDP_EMAILS_LINES = 14570,
    SDP_PHONES_LINES = 14602,
    SDP_MEDIA_CONNECTIONS_LINES = 14634,
    SDP_BANDWIDTHS_LINES = 14762,
    SDP_TIMES_LINES = 14890,
    SDP_REPEATS_LINES = 14954,
    SDP_OFFSETS_LINES = 15082,
    SDP_ZONES_LINES = 15594,
    SDP_ATTRIBUTES_LINES = 15722,
    SDP_MEDIAS_LINES = 16746,
    SDP_MEDIA_TITLES_LINES = 16810, /* of the title of media n */
    SDP_MEDIA_KEYS_LINES = 16874    /* zero, as SDP_KEY */
};

#ifdef __cplusplus
}
#endif

#endif
