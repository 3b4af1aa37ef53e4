/* The header's inline functions against the calls that they wrap: the same reply, and the same cells afterwards, for calls that
   succeed and calls that are refused. C and C++. Prints the words of each refusal, `NUMBER WORDS` a line, and at the end how many
   pairs of calls agreed. tests/header builds and runs it. */
#include "yendrufal.h"
#include <stdio.h>
#include <stdlib.h>
#include <string.h>

enum { PLATE = YENDRUFAL_PLATE_WORDS, METRICS = 64, DECISIONS = 16, LINE = YENDRUFAL_LINE_MOST };

static int32_t metrics[2][METRICS];
static uint64_t decisions[2][DECISIONS];
static int agreed = 0;

/* Old values in both pairs of rooms, alike. */
static void fill(void) {
    for (int side = 0; side < 2; side++) {
        for (int i = 0; i < METRICS; i++) metrics[side][i] = 1000 + i;
        for (int i = 0; i < DECISIONS; i++) decisions[side][i] = 2000 + (uint64_t)i;
    }
}

static void hold(int same, const char *what, int line) {
    same = same && memcmp(metrics[0], metrics[1], sizeof metrics[0]) == 0 &&
           memcmp(decisions[0], decisions[1], sizeof decisions[0]) == 0;
    if (!same) {
        printf("differ: %s, line %d\n", what, line);
        exit(1);
    }
    agreed++;
}
#define HOLD(same, what) hold((same), what, __LINE__)

/* A case of a block: plate, samples, and how much of the rooms is lent. */
struct block {
    const yendrufal_plate *plate;
    const int16_t *samples;
    size_t count;
    size_t metrics, decisions;
};

static void decodings(const struct block *b) {
    const yendrufal_rooms rooms = {metrics[0], b->metrics, decisions[0], b->decisions};
    const uint64_t *plate = b->plate->words;
    uint64_t word, counts[2], place, number;
    int32_t metric;

    fill();
    yendrufal_answer answer = {7, 7, 7, 7};
    word = counts[0] = counts[1] = 7, metric = 7, place = 0;
    yendrufal_reply reply = yendrufal_plate_decode(b->plate, b->samples, b->count, &rooms, &answer);
    number = yendrufal_decode(plate, PLATE, b->samples, b->count, metrics[1], b->metrics, decisions[1], b->decisions, &word, 1,
                              &metric, 1, counts, 2, &place, 1);
    HOLD(reply.number == number && reply.place == place && answer.word == word && answer.metric == metric &&
             answer.additions == counts[0] && answer.comparisons == counts[1],
         "decode");

    fill();
    const yendrufal_rooms no_decisions = {metrics[0], b->metrics, NULL, 0};
    yendrufal_answer measured = {7, 7, 7, 7};
    counts[0] = counts[1] = 7, metric = 7, place = 0;
    reply = yendrufal_plate_metric(b->plate, b->samples, b->count, &no_decisions, &measured);
    number = yendrufal_metric(plate, PLATE, b->samples, b->count, metrics[1], b->metrics, &metric, 1, counts, 2, &place, 1);
    HOLD(reply.number == number && reply.place == place && measured.word == 7 && measured.metric == metric &&
             measured.additions == counts[0] && measured.comparisons == counts[1],
         "metric");

    fill();
    yendrufal_answer chosen = {7, 7, 7, 7};
    word = counts[0] = counts[1] = 7, place = 0;
    reply = yendrufal_plate_word(b->plate, b->samples, b->count, &rooms, &chosen);
    number = yendrufal_word(plate, PLATE, b->samples, b->count, metrics[1], b->metrics, decisions[1], b->decisions, &word, 1,
                            counts, 2, &place, 1);
    HOLD(reply.number == number && reply.place == place && chosen.word == word && chosen.metric == 7 &&
             chosen.additions == counts[0] && chosen.comparisons == counts[1],
         "word");
}

/* A batch: so many times the block, with as many answers lent, or one fewer. */
static void batches(const struct block *b) {
    enum { MOST = 3 };
    const yendrufal_rooms rooms = {metrics[0], b->metrics, decisions[0], b->decisions};
    int16_t samples[8 * MOST];
    for (size_t i = 0; i < b->count * MOST; i++) samples[i] = b->samples[i % b->count];
    for (size_t blocks = 0; blocks <= MOST; blocks++)
        for (size_t count = blocks > 0 ? blocks - 1 : 0; count <= blocks; count++) {
            uint64_t words[2][MOST] = {{7, 7, 7}, {7, 7, 7}}, counts[2] = {7, 7}, place = 0;
            int32_t scores[2][MOST] = {{7, 7, 7}, {7, 7, 7}};
            yendrufal_batch batch = {words[0], scores[0], count, 7, 7};
            fill();
            const yendrufal_reply reply = yendrufal_plate_decode_blocks(b->plate, samples, blocks * b->count, &rooms, &batch);
            const uint64_t number =
                yendrufal_decode_blocks(b->plate->words, PLATE, samples, blocks * b->count, metrics[1], b->metrics,
                                        decisions[1], b->decisions, words[1], count, scores[1], count, counts, 2, &place, 1);
            HOLD(reply.number == number && reply.place == place && batch.additions == counts[0] &&
                     batch.comparisons == counts[1] && memcmp(words[0], words[1], sizeof words[0]) == 0 &&
                     memcmp(scores[0], scores[1], sizeof scores[0]) == 0,
                 "decode_blocks");
        }
}

/* All positions of a block: each is as firmness has it, and what stands from n on is old. */
static void positions(const struct block *b) {
    const yendrufal_rooms rooms = {metrics[0], b->metrics, decisions[0], b->decisions};
    yendrufal_readings readings;
    uint64_t fixed[64], place = 0;
    int32_t values[64];
    for (int i = 0; i < 64; i++) readings.fixed[i] = fixed[i] = 7, readings.values[i] = values[i] = 7;
    fill();
    const yendrufal_reply reply = yendrufal_plate_firmness_all(b->plate, b->samples, b->count, &rooms, &readings);
    const uint64_t number =
        yendrufal_firmness_all(b->plate->words, PLATE, b->samples, b->count, metrics[1], b->metrics, decisions[1],
                               b->decisions, fixed, 64, values, 64, &place, 1);
    HOLD(reply.number == number && reply.place == place && memcmp(readings.fixed, fixed, sizeof fixed) == 0 &&
             memcmp(readings.values, values, sizeof values) == 0,
         "firmness_all");
    for (uint64_t i = 0; i < 64; i++) {
        uint64_t one = 7;
        int32_t value = 7;
        if (number == YENDRUFAL_DONE && i < 8)
            yendrufal_firmness(b->plate->words, PLATE, b->samples, b->count, i, metrics[1], b->metrics, decisions[1],
                               b->decisions, &one, 1, &value, 1, &place, 1);
        HOLD(fixed[i] == one && values[i] == value, "a position of firmness_all");
    }
}

static void questions(const struct block *b) {
    const yendrufal_rooms rooms = {metrics[0], b->metrics, decisions[0], b->decisions};
    const uint64_t *plate = b->plate->words;
    for (uint64_t position = 0; position <= 8; position++) {
        fill();
        yendrufal_reading reading = {7, 7};
        uint64_t fixed = 7, place = 0;
        int32_t value = 7;
        const yendrufal_reply reply =
            yendrufal_plate_firmness(b->plate, b->samples, b->count, position, &rooms, &reading);
        const uint64_t number =
            yendrufal_firmness(plate, PLATE, b->samples, b->count, position, metrics[1], b->metrics, decisions[1],
                               b->decisions, &fixed, 1, &value, 1, &place, 1);
        HOLD(reply.number == number && reply.place == place && reading.fixed == fixed && reading.value == value, "firmness");
    }
    for (uint64_t word = 0; word < 600; word += 15) {
        fill();
        yendrufal_reason reason = {7, 7, 7};
        uint64_t told[2] = {7, 7}, place = 0;
        int32_t difference = 7;
        const yendrufal_reply reply = yendrufal_plate_why_not(b->plate, b->samples, b->count, word, &rooms, &reason);
        const uint64_t number =
            yendrufal_why_not(plate, PLATE, b->samples, b->count, word, metrics[1], b->metrics, decisions[1], b->decisions,
                              told, 2, &difference, 1, &place, 1);
        HOLD(reply.number == number && reply.place == place && reason.number == told[0] && reason.position == told[1] &&
                 reason.difference == difference,
             "why_not");
    }
}

static void weighings(const yendrufal_plate *plate) {
    enum { WORKING = 130 << 3 };
    static uint64_t working[2][WORKING];
    for (size_t room = WORKING - 1; room <= WORKING; room++) {
        yendrufal_weighed weighed;
        uint64_t counts[YENDRUFAL_WEIGHT_COUNTS], least = 7;
        memset(&weighed, 0, sizeof weighed);
        memset(counts, 0, sizeof counts);
        weighed.least = 7;
        for (int i = 0; i < WORKING; i++) working[0][i] = working[1][i] = 7;
        const yendrufal_reply reply = yendrufal_plate_weights(plate, working[0], room, &weighed);
        const uint64_t number =
            yendrufal_weights(plate->words, PLATE, counts, YENDRUFAL_WEIGHT_COUNTS, working[1], room, &least, 1);
        fill();
        HOLD(reply.number == number && reply.place == 0 && weighed.least == least &&
                 memcmp(weighed.counts, counts, sizeof counts) == 0 && memcmp(working[0], working[1], sizeof working[0]) == 0,
             "weights");
    }
    uint64_t ours = 7, theirs = 7;
    const yendrufal_reply reply = yendrufal_plate_widest_entry(plate, &ours);
    const uint64_t number = yendrufal_widest_entry(plate->words, PLATE, &theirs, 1);
    HOLD(reply.number == number && reply.place == 0 && ours == theirs, "widest_entry");
}

/* The calls about levels take no plate: a block's levels against those of its values, one by one. */
static void levels(void) {
    static const float values[4] = {1.9f, -1.9f, 100.0f, -0.0f};
    for (uint64_t erased = 0; erased < 16; erased++)
        for (uint64_t top = 0; top < 1024; top += 63) {
            int16_t room[4] = {7, 7, 7, 7};
            uint64_t place = 7;
            const uint64_t number = yendrufal_levels(4, 0.5f, top, values, 4, erased, room, 4, &place, 1);
            for (int i = 0; i < 4; i++) {
                int16_t level = 7;
                const uint64_t one = yendrufal_level(0.5f, top, values[i], erased >> i & 1, &level, 1);
                fill();
                HOLD(number == one && one == (top == 0 || top > 127 ? YENDRUFAL_SETTING : YENDRUFAL_DONE) &&
                         room[i] == level && place == 0,
                     "levels");
            }
        }
}

static void codings(const yendrufal_plate *plate) {
    uint64_t ours, theirs, number;
    yendrufal_reply reply;
    fill();
    for (uint64_t depth = 0; depth <= 8; depth++)
        for (uint64_t at = 0; at < 27; at++) {
            ours = theirs = 7;
            reply = yendrufal_plate_branch(plate, depth, at / 3, at % 3, &ours);
            number = yendrufal_branch(plate->words, PLATE, depth, at / 3, at % 3, &theirs, 1);
            HOLD(reply.number == number && reply.place == 0 && ours == theirs, "branch");
        }
    for (uint64_t value = 0; value < 300; value++) {
        ours = theirs = 7;
        reply = yendrufal_plate_encode(plate, value, &ours);
        number = yendrufal_encode(plate->words, PLATE, value, &theirs, 1);
        HOLD(reply.number == number && reply.place == 0 && ours == theirs, "encode");
        ours = theirs = 7;
        reply = yendrufal_plate_read_back(plate, value, &ours);
        number = yendrufal_read_back(plate->words, PLATE, value, &theirs, 1);
        HOLD(reply.number == number && reply.place == 0 && ours == theirs, "read_back");
    }
}

static void lines(const yendrufal_plate *plate) {
    const yendrufal_answer answer = {0x0f, -19, 44, 11};
    for (size_t room = 0; room <= LINE; room++) {
        uint8_t line[6][LINE];
        uint64_t size[6] = {7, 7, 7, 7, 7, 7}, number[3];
        yendrufal_reply reply[3];
        memset(line, 'x', sizeof line);
        reply[0] = yendrufal_plate_write_plate(plate, line[0], room, &size[0]);
        reply[1] = yendrufal_plate_write_profile(plate, line[1], room, &size[1]);
        reply[2] = yendrufal_plate_write_word(plate, &answer, line[2], room, &size[2]);
        number[0] = yendrufal_write_plate(plate->words, PLATE, line[3], room, &size[3], 1);
        number[1] = yendrufal_write_profile(plate->words, PLATE, line[4], room, &size[4], 1);
        number[2] = yendrufal_write_word(plate->words, PLATE, 0x0f, -19, 44, 11, line[5], room, &size[5], 1);
        for (int i = 0; i < 3; i++)
            HOLD(reply[i].number == number[i] && reply[i].place == 0 && size[i] == size[3 + i] &&
                     memcmp(line[i], line[3 + i], LINE) == 0,
                 "a line");
    }
}

static void preparings(uint64_t n, uint64_t kind, const uint64_t *rows, size_t count, uint64_t mask) {
    yendrufal_plate ours, theirs;
    uint64_t place = 0;
    memset(&ours, 7, sizeof ours);
    memset(&theirs, 7, sizeof theirs);
    const yendrufal_reply reply = yendrufal_plate_prepare(n, kind, rows, count, mask, &ours);
    const uint64_t number = yendrufal_prepare(n, kind, rows, count, mask, theirs.words, PLATE, &place, 1);
    fill();
    HOLD(reply.number == number && reply.place == place && memcmp(&ours, &theirs, sizeof ours) == 0, "prepare");
}

static void sheets(void) {
    static const char *const texts[] = {"", "cover\t3\tG\tfirst\nrow\t011\nend\n", "cover\t3\tH\tlast\nrow\t011\nend\n",
                                        "cover\t3\tH\tlast\nrow\t01\nend\n", "cover\t3\tH\tfirst\n", "end\n"};
    for (size_t i = 0; i < sizeof texts / sizeof texts[0]; i++) {
        const uint8_t *text = (const uint8_t *)texts[i];
        yendrufal_plate ours, theirs;
        uint64_t order[2] = {7, 7}, field = 7, place[2] = {0, 0};
        memset(&ours, 7, sizeof ours);
        memset(&theirs, 7, sizeof theirs);
        const yendrufal_reply reply = yendrufal_plate_plate_of_sheet(text, strlen(texts[i]), &ours, &order[0], &field);
        const uint64_t number = yendrufal_plate_of_sheet(text, strlen(texts[i]), theirs.words, PLATE, &order[1], 1, place, 2);
        fill();
        HOLD(reply.number == number && reply.place == place[0] && field == place[1] && order[0] == order[1] &&
                 memcmp(&ours, &theirs, sizeof ours) == 0,
             "plate_of_sheet");
    }
}

/* A matrix written as alist text and read again is the same matrix, and a fault is told by its line. */
static void matrices(uint64_t n, const uint64_t *rows, size_t count) {
    static uint8_t text[YENDRUFAL_ALIST_MOST + 1];
    uint64_t size = 7, sizes[2] = {7, 7}, read[65], place = 7;
    for (int i = 0; i < 65; i++) read[i] = 7;
    memset(text, 'x', sizeof text);
    uint64_t number = yendrufal_write_alist(n, rows, count, text, YENDRUFAL_ALIST_MOST, &size, 1, &place, 1);
    HOLD(number == YENDRUFAL_DONE && place == 0 && size <= YENDRUFAL_ALIST_MOST && text[size] == 'x', "write_alist");
    number = yendrufal_read_alist(text, size, sizes, 2, read, 65, &place, 1);
    int same = number == YENDRUFAL_DONE && place == 0 && sizes[0] == n && sizes[1] == count && read[64] == 7;
    for (size_t i = 0; i < 64; i++) same = same && read[i] == (i < count ? rows[i] : 0);
    HOLD(same, "read_alist");
    number = yendrufal_write_alist(n, rows, count, text, size - 1, &size, 1, &place, 1);
    HOLD(number == YENDRUFAL_LINE_ROOM && place == 0, "write_alist, refused");
    text[size - 1] = ' ';
    number = yendrufal_read_alist(text, size, sizes, 2, read, 65, &place, 1);
    HOLD(number == YENDRUFAL_ALIST_FAULT && place == 4 + n + count && sizes[0] == n && read[0] == rows[0], "read_alist, refused");
}

/* Listings of branches against a plate of length 3, in rooms of each size. */
static void listings(const yendrufal_plate *plate) {
    static const char ours[] = "branch\t0\t0\t0\t0\nbranch\t0\t0\t1\t1\nbranch\t1\t0\t0\t0\nbranch\t1\t0\t1\t1\n"
                               "branch\t1\t1\t1\t0\nbranch\t1\t1\t0\t1\nbranch\t2\t0\t0\t0\nbranch\t2\t1\t1\t0\n";
    static const char *const others[] = {ours, "", "branch\t0\t0\t0\t0\nbranch\t1\t0\t0\t0\nbranch\t2\t0\t1\t0\n", "branch\t3\t0\t0\t0\n",
                                         "branch\t0\t0\t0\t0\nbranch\t0\t0\t0\t1\n"};
    for (size_t i = 0; i < sizeof others / sizeof others[0]; i++)
        for (size_t lent = 0; lent <= YENDRUFAL_JUDGING(9); lent++) {
            const uint8_t *text = (const uint8_t *)others[i];
            uint64_t room[2][YENDRUFAL_JUDGING(9)], told[2] = {7, 7}, place = 0;
            yendrufal_judgement judgement[2];
            memset(room, 7, sizeof room);
            memset(judgement, 0, sizeof judgement);
            judgement[0].verdict = judgement[0].word = 7;
            const yendrufal_reply reply = yendrufal_plate_judge(plate, text, strlen(others[i]), room[0], lent, &judgement[0]);
            const uint64_t number = yendrufal_judge(plate->words, PLATE, text, strlen(others[i]), room[1], lent, told, 2,
                                                    judgement[1].states, 65, judgement[1].branches, 64, &place, 1);
            judgement[1].verdict = told[0];
            judgement[1].word = told[1];
            HOLD(reply.number == number && reply.place == place && memcmp(room[0], room[1], sizeof room[0]) == 0 &&
                     memcmp(&judgement[0], &judgement[1], sizeof judgement[0]) == 0,
                 "judge");
        }
}

int main(void) {
    static const uint64_t rows[4] = {0x0f, 0x5a, 0x3c, 0xf0};
    static const int16_t good[8] = {-3, -2, 4, -1, 5, 6, -1, 7}, far[8] = {0, 0, 0, 2048, 0, 0, 0, 0};
    yendrufal_plate plates[3], even;
    for (uint64_t n = 0; n <= 65; n++)
        for (uint64_t kind = 0; kind <= 2; kind++) {
            preparings(n, kind, rows, 4, 0);
            preparings(n, kind, rows, 4, 0x81);
            preparings(n, kind, NULL, 0, 0);
        }
    if (yendrufal_plate_prepare(8, YENDRUFAL_KIND_G, rows, 4, 0, &plates[0]).number != YENDRUFAL_DONE) return 1;
    if (yendrufal_plate_prepare(8, YENDRUFAL_KIND_H, rows, 4, 0x81, &plates[1]).number != YENDRUFAL_DONE) return 1;
    plates[2] = plates[0];
    plates[2].words[YENDRUFAL_PLATE_K] = 3;
    const size_t m = yendrufal_plate_metrics_needed(&plates[0]), d = yendrufal_plate_decisions_needed(&plates[0]);
    fill();
    HOLD(m == YENDRUFAL_METRICS(3) && d == YENDRUFAL_DECISIONS(8, 3) && m <= METRICS && d <= DECISIONS, "needs");
    sheets();
    static const uint64_t check[1] = {7};
    uint64_t full[64];
    for (int i = 0; i < 64; i++) full[i] = ~UINT64_C(0);
    matrices(8, rows, 4);
    matrices(64, full, 64);
    if (yendrufal_plate_prepare(3, YENDRUFAL_KIND_H, check, 1, 0, &even).number != YENDRUFAL_DONE) return 1;
    listings(&even);
    listings(&plates[0]);
    listings(&plates[2]);
    levels();
    for (int i = 0; i < 3; i++) {
        const struct block blocks[] = {{&plates[i], good, 8, m, d},     {&plates[i], good, 8, METRICS, DECISIONS},
                                       {&plates[i], good, 7, m, d},     {&plates[i], far, 8, m, d},
                                       {&plates[i], good, 8, m - 1, d}, {&plates[i], good, 8, m, d - 1}};
        for (size_t b = 0; b < sizeof blocks / sizeof blocks[0]; b++) {
            decodings(&blocks[b]);
            batches(&blocks[b]);
            questions(&blocks[b]);
            positions(&blocks[b]);
        }
        weighings(&plates[i]);
        codings(&plates[i]);
        lines(&plates[i]);
    }
    for (uint64_t number = 1; number < YENDRUFAL_NO_BRANCH; number++)
        if (strcmp(yendrufal_refusal_words(number), yendrufal_refusal_words(~UINT64_C(0))) != 0)
            printf("%d %s\n", (int)number, yendrufal_refusal_words(number));
    printf("%d pairs agree\n", agreed);
    return 0;
}
