/* Prints the sentence of each answer that a line of standard input gives: number, line, field, place, length, the room, and
 * the text, as the number of its bytes and two hexadecimal digits for each. */
#include "sdp_words.h"

int main(void) {
    static uint8_t text[SDP_LONGEST];
    struct sdp_answer answer = {0, 0, 0, 0, 0};
    size_t room, text_len;
    while (scanf("%" SCNu64 " %" SCNu64 " %" SCNu64 " %" SCNu64 " %" SCNu64 " %zu %zu", &answer.number, &answer.line,
                 &answer.field, &answer.place, &answer.len, &room, &text_len) == 7) {
        char sentence[SDP_SENTENCE_SIZE], without[SDP_SENTENCE_SIZE];
        unsigned byte;
        if (room > sizeof sentence || text_len > sizeof text) return 1;
        for (size_t i = 0; i < text_len; i++) {
            if (scanf("%2x", &byte) != 1) return 1;
            text[i] = (uint8_t)byte;
        }
        memset(sentence, '?', sizeof sentence); /* whatever stood there before */
        puts(sdp_sentence_in(answer, text_len > 0 ? text : NULL, text_len, sentence, room));
        /* where there is no text, the shorter call says the same */
        if (text_len == 0 && strcmp(sdp_sentence(answer, without, room), sentence) != 0) return 1;
    }
    return 0;
}
