/* Labels through the C interface: written, read back, damaged and refused. What is expected follows from documents 01 and 02, or
 * was computed by another program, which is said there. Exits with 1 at the first answer that differs. Symbols keep to document 01's limits for
 * programs: C at most 1,047, wc 3, wr 9, at most 53,964 work bytes. */
#include "jabcode.h"
#include <inttypes.h>
#include <stdio.h>
#include <stdlib.h>
#include <string.h>

/* the structs lie in memory as arrays of their members do */
_Static_assert(sizeof(jab_params) == 11 * sizeof(uint32_t), "jab_params");
_Static_assert(sizeof(jab_sizes_answer) == 9 * sizeof(uint64_t), "jab_sizes_answer");
_Static_assert(sizeof(jab_write_answer) == 2 * sizeof(uint64_t), "jab_write_answer");
_Static_assert(sizeof(jab_read_answer) == 6 * sizeof(uint64_t), "jab_read_answer");

enum { SIDE = 21, MODULES = SIDE * SIDE, MOST_WORK = 53964, ROOM = 120, CHECKS = 348, FILL = 0xA5, NUMBER = 0xA5A5 };

/* the buffers, with some bytes or numbers behind what is lent of them */
static uint8_t matrix[MODULES + 20], work[MOST_WORK + 100], message[ROOM + 20];
static uint16_t list[3 * 64], places[CHECKS + 20];

/* document 01's points P3 and P6: primary, version 1, 8 colours, wc 3, wr 9, with 24 entries: C 1,047 and 696 net bits */
static const jab_params small = {.horizontal = 1, .vertical = 1, .colours = 8, .cyan = 3, .yellow = 6, .wc = 3, .wr = 9};

/* an answer's numbers: its members, which are all uint64_t */
static void fail(const char *what, const void *answer, size_t bytes) {
    printf("c_interface: %s:", what);
    for (size_t i = 0; i < bytes / sizeof(uint64_t); i++)
        printf(" %" PRIu64, ((const uint64_t *)answer)[i]);
    printf("\n");
    exit(1);
}

static void expect(const char *what, const void *answer, const void *expected, size_t bytes) {
    if (memcmp(answer, expected, bytes) != 0)
        fail(what, answer, bytes);
}

static void expect_sizes(const char *what, jab_sizes_answer a, jab_sizes_answer expected) {
    expect(what, &a, &expected, sizeof a);
}

static void expect_write(const char *what, jab_write_answer a, uint64_t number, uint64_t place) {
    jab_write_answer expected = {.number = number, .place = place};
    expect(what, &a, &expected, sizeof a);
}

static void expect_read(const char *what, jab_read_answer a, jab_read_answer expected) {
    expect(what, &a, &expected, sizeof a);
}

static void must(const char *what, int holds) {
    if (!holds)
        fail(what, NULL, 0);
}

/* whether all n bytes are b */
static int all(const uint8_t *bytes, size_t n, uint8_t b) {
    for (size_t i = 0; i < n; i++)
        if (bytes[i] != b)
            return 0;
    return 1;
}

/* whether the places from the nth on are as they came, those behind what is lent of them too */
static int kept_places(size_t n) {
    for (size_t i = n; i < sizeof places / sizeof *places; i++)
        if (places[i] != NUMBER)
            return 0;
    return 1;
}

/* n entries of one colour from row 8 on; the patterns of version 1 lie in rows 2 to 6 and 16 to 20 */
static void reserve(size_t n, uint16_t colour) {
    for (size_t i = 0; i < n; i++) {
        list[3 * i] = 1 + i % SIDE;
        list[3 * i + 1] = 8 + i / SIDE;
        list[3 * i + 2] = colour;
    }
}

/* some bytes, others for each label */
static void label(uint8_t *bytes, size_t n, unsigned seed) {
    for (size_t i = 0; i < n; i++)
        bytes[i] = (uint8_t)(37 * i + 101 * seed + i * i / 7);
}

/* the least work buffer of a symbol */
static size_t work_bytes(const jab_params *params, size_t entries) {
    jab_sizes_answer answer;
    jab_sizes(params, list, 3 * entries, &answer);
    must("a symbol of at most 53,964 work bytes", answer.number == 0 && answer.work <= MOST_WORK);
    return answer.work;
}

/* A write and a read of legal input, each with a work buffer that comes dirty, is lent no byte more than it needs, and is all zero
 * afterwards. The read is lent so many numbers for places. */
static jab_write_answer write_label(const jab_params *params, size_t entries, const uint8_t *bytes, size_t n) {
    jab_write_answer answer;
    size_t need = work_bytes(params, entries);
    memset(work, FILL, sizeof work);
    memset(matrix + MODULES, FILL, sizeof matrix - MODULES);
    jab_write(params, list, 3 * entries, bytes, n, matrix, MODULES, work, need, &answer);
    must("the bytes behind the matrix", all(matrix + MODULES, sizeof matrix - MODULES, FILL));
    must("the work buffer after a write", all(work, need, 0) && all(work + need, sizeof work - need, FILL));
    return answer;
}

static jab_read_answer read_places(const jab_params *params, size_t entries, size_t room, size_t slots) {
    jab_read_answer answer;
    size_t need = work_bytes(params, entries);
    memset(work, FILL, sizeof work);
    memset(message, FILL, sizeof message);
    memset(places, FILL, sizeof places);
    jab_read(params, list, 3 * entries, matrix, MODULES, work, need, message, room, places, slots, &answer);
    must("the work buffer after a read", all(work, need, 0) && all(work + need, sizeof work - need, FILL));
    must("the bytes behind the message buffer", all(message + room, sizeof message - room, FILL));
    must("a message longer than its buffer", answer.length <= room);
    must("the message buffer behind the message, or on refusal",
         all(message + answer.length, room - answer.length, FILL) && (answer.number == 0 || answer.length == 0));
    must("the places behind those of the repairs, or on refusal", kept_places(answer.number == 0 ? answer.repairs : 0));
    for (size_t i = 0; answer.number == 0 && i < answer.repairs; i++)
        must("a place outside the word", places[i] >= 1 && places[i] <= 1044);
    return answer;
}

/* the same with room for every place: this many are always enough */
static jab_read_answer read_label(const jab_params *params, size_t entries, size_t room) {
    return read_places(params, entries, room, CHECKS);
}

/* P3 and P6, document 01's 53,964 work bytes, and refusals without sizes */
static void sizes(void) {
    jab_sizes_answer answer;
    jab_params params = small;
    reserve(24, 7);
    jab_sizes(&small, list, 72, &answer);
    expect_sizes("sizes", answer,
                 (jab_sizes_answer){.columns = 21, .rows = 21, .capacity = 1047, .net = 696, .work = 53964, .gross = 1044, .checks = 348});
    params.vertical = 33;
    jab_sizes(&params, list, 72, &answer);
    expect_sizes("sizes of side-version 33", answer, (jab_sizes_answer){.number = 1});
    jab_sizes(&small, list, 71, &answer);
    expect_sizes("sizes with 71 numbers in the list", answer, (jab_sizes_answer){.number = 2, .place = 23});
}

/* Each kind, number of colours, mask and turn: what is written reads back with no repair. With these entries C is 676 and 778 at 4
 * colours, and 1,047 at 8. */
static void round_trips(void) {
    unsigned labels = 0;
    for (uint32_t bits = 0; bits < 64; bits++) {
        jab_params params = {bits & 1, 1, 1, bits & 2 ? 8 : 4, 0, 1, 2, 3, 9, bits >> 3, bits >> 2 & 1};
        size_t entries = params.colours == 4 ? (params.kind == 0 ? 35 : 24) : (params.kind == 0 ? 24 : 64);
        uint8_t bytes[ROOM];
        /* at C 676 there are 450 net bits, and n bytes take at most 8 n + 25 with the end mark */
        size_t n = bits > 50 && params.colours == 4 ? 50 : bits;
        reserve(entries, 3);
        label(bytes, n, bits);
        memset(matrix, FILL, sizeof matrix);
        expect_write("write", write_label(&params, entries, bytes, n), 0, 0);
        for (size_t i = 0; i < MODULES; i++)
            must("a module of N or more", matrix[i] < params.colours);
        expect_read("read", read_label(&params, entries, n), (jab_read_answer){.length = n});
        must("the message read back", memcmp(message, bytes, n) == 0);
        labels++;
    }
    printf("c_interface: %u labels read back\n", labels);
}

/* The 1,047 bits of a label, turned one at a time. Three of them are stuffing bits, which are counted and refuse nothing (document 02,
 * W-202): the label is read with no repair. Each other bit stands in wc = 3 checks, so 3 are unmet at first, and the bit itself is
 * suspect. Each repair lowers their number, and one that leaves none unmet turns a bit whose three checks were all unmet: so a word that
 * is mended has 1 repair, and one that is stuck 1 or 2. No two columns of this A stand in the same three checks, so the bit that is
 * turned and leaves none unmet is the damaged one, and the message the right one. That, and that 949 of the 1,044 are mended, was
 * computed by another program, which follows the library's definitions of A and of the rule, not its code; the second program, written
 * from the papers alone, gave 949, 95 and 3 too (second/tests/round_trips.rs). Each bit has a place of its own in the word, so the
 * places of the 949 are all different. */
static void one_bit_turned(void) {
    uint8_t bytes[80], clean[MODULES], seen[1045] = {0};
    unsigned stuffing = 0, mended = 0, stuck = 0;
    reserve(24, 7);
    label(bytes, sizeof bytes, 7);
    expect_write("write", write_label(&small, 24, bytes, sizeof bytes), 0, 0);
    memcpy(clean, matrix, MODULES);
    for (size_t i = 0; i < MODULES; i++) {
        for (uint8_t bit = 1; bit < 8; bit <<= 1) {
            memcpy(matrix, clean, MODULES);
            matrix[i] ^= bit;
            jab_read_answer answer = read_label(&small, 24, ROOM);
            if (answer.number == 9) {
                expect_read("a bit turned and stuck", answer,
                            (jab_read_answer){.number = 9, .repairs = answer.repairs == 1 ? 1 : 2, .unmet = 3});
                stuck++;
                continue;
            }
            if (answer.stuffing != 0) {
                expect_read("a stuffing bit turned", answer, (jab_read_answer){.length = sizeof bytes, .stuffing = 1});
                stuffing++;
            } else if (answer.repairs == 0) {
                /* a pattern or reserved module, which the reader does not compare */
                expect_read("a module that holds no data", answer, (jab_read_answer){.length = sizeof bytes});
            } else {
                expect_read("a bit turned and mended", answer, (jab_read_answer){.length = sizeof bytes, .repairs = 1, .unmet = 3});
                must("a place that another bit has", seen[places[0]]++ == 0);
                mended++;
            }
            must("the message of a damaged label", memcmp(message, bytes, sizeof bytes) == 0);
        }
    }
    printf("c_interface: one bit turned: %u mended, %u stuck, %u read with a wrong stuffing bit\n", mended, stuck, stuffing);
    must("949 mended, 95 stuck, 3 stuffing", mended == 949 && stuck == 95 && stuffing == 3);
}

/* A label that was answered so with room for all places, read again with just as many, with one fewer, and with as many as checks were
 * unmet at first: the same, but 16 in the place of 0 and of 10 to 14 where there is one too few. */
static void fewer_places(jab_read_answer answer) {
    uint16_t turned[CHECKS];
    memcpy(turned, places, sizeof turned);
    expect_read("just enough places", read_places(&small, 24, ROOM, answer.repairs), answer);
    must("the same places", memcmp(turned, places, sizeof turned) == 0);
    expect_read("as many places as unmet checks", read_places(&small, 24, ROOM, answer.unmet), answer);
    must("the same places again", memcmp(turned, places, sizeof turned) == 0);
    if (answer.repairs == 0)
        return;
    jab_read_answer expected = answer;
    if (answer.number != 9) {
        expected.number = 16;
        expected.length = 0;
    }
    expect_read("one place too few", read_places(&small, 24, ROOM, answer.repairs - 1), expected);
}

/* Labels with up to 40 modules of another colour: whatever is answered, there are no more repairs than checks unmet at first, of 348
 * in all, and no more wrong stuffing bits than the three there are. */
static void many_modules_turned(void) {
    uint8_t bytes[60], clean[MODULES];
    unsigned numbers[15] = {0}, stuffed = 0;
    uint32_t random = 12345;
    reserve(24, 7);
    label(bytes, sizeof bytes, 3);
    expect_write("write", write_label(&small, 24, bytes, sizeof bytes), 0, 0);
    memcpy(clean, matrix, MODULES);
    for (unsigned round = 0; round < 1000; round++) {
        memcpy(matrix, clean, MODULES);
        for (unsigned k = 0; k < 2 + round % 39; k++) {
            random = random * 1664525u + 1013904223u;
            matrix[(random >> 8) % MODULES] ^= 1 + (random >> 24) % 7;
        }
        jab_read_answer answer = read_label(&small, 24, ROOM);
        must("0, or 9 to 14: all places have room", answer.number == 0 || (answer.number >= 9 && answer.number <= 14));
        must("a place", answer.place == 0);
        must("no more repairs than unmet checks", answer.repairs <= answer.unmet && answer.unmet <= 348);
        must("no more wrong stuffing bits than there are", answer.stuffing <= 3);
        stuffed += answer.stuffing != 0;
        numbers[answer.number]++;
        fewer_places(answer);
    }
    printf("c_interface: up to 40 modules turned:");
    for (unsigned n = 0; n < 15; n++)
        if (numbers[n] != 0)
            printf(" %u answered %u,", numbers[n], n);
    printf(" %u with wrong stuffing bits, no rule broken\n", stuffed);
    must("some with wrong stuffing bits", stuffed != 0);
}

/* a write and a read that one of the tests 1 to 5 refuses: same answer, and every buffer as it came */
static void refused_early(const char *what, jab_params params, size_t numbers, size_t modules, size_t work_len, uint64_t number,
                          uint64_t place) {
    uint8_t bytes[10] = {0};
    jab_write_answer written;
    jab_read_answer read;
    memset(work, FILL, sizeof work);
    memset(matrix, FILL, sizeof matrix);
    memset(message, FILL, sizeof message);
    memset(places, FILL, sizeof places);
    jab_write(&params, list, numbers, bytes, sizeof bytes, matrix, modules, work, work_len, &written);
    expect_write(what, written, number, place);
    jab_read(&params, list, numbers, matrix, modules, work, work_len, message, ROOM, places, CHECKS, &read);
    expect_read(what, read, (jab_read_answer){.number = number, .place = place});
    must(what, all(work, sizeof work, FILL) && all(matrix, sizeof matrix, FILL) && all(message, sizeof message, FILL) && kept_places(0));
}

/* 1 to 5 in both calls, the lower number where two apply */
static void early_refusals(void) {
    jab_params params = small;
    reserve(24, 7);
    params.cyan = 0;
    refused_early("cyan as black", params, 71, MODULES, 0, 1, 0);
    refused_early("71 numbers in the list", small, 71, MODULES, MOST_WORK, 2, 23);
    list[3 * 5] = 0;
    refused_early("an entry in column 0", small, 72, MODULES - 1, MOST_WORK, 2, 5);
    reserve(24, 7);
    /* version 32 has 145 * 145 modules, and C is far above 4,096 */
    params = small;
    params.horizontal = params.vertical = 32;
    refused_early("side-version 32", params, 72, MODULES, MOST_WORK, 3, 0);
    refused_early("a matrix one module short", small, 72, MODULES - 1, MOST_WORK - 1, 4, 0);
    refused_early("a work buffer one byte short", small, 72, MODULES, MOST_WORK - 1, 5, 0);
}

/* 6, 7, 14 and 16 at their limits */
static void late_refusals(void) {
    uint8_t bytes[84];
    reserve(24, 7);
    label(bytes, sizeof bytes, 1);

    /* 84 bytes take 24 + 672 bits and the end mark, one more than the 696 net bits of P6; 83 fit */
    memset(matrix, FILL, sizeof matrix);
    expect_write("a message with no room", write_label(&small, 24, bytes, 84), 6, 0);
    must("the matrix after 6", all(matrix, sizeof matrix, FILL));
    expect_write("a message that just fits", write_label(&small, 24, bytes, 83), 0, 0);

    expect_read("a message buffer one byte short", read_label(&small, 24, 82), (jab_read_answer){.number = 14});
    expect_read("a message buffer that just fits", read_label(&small, 24, 83), (jab_read_answer){.length = 83});

    /* the first module whose last bit, turned, is mended by one repair */
    uint8_t clean[MODULES];
    memcpy(clean, matrix, MODULES);
    jab_read_answer mended = {0};
    for (size_t i = 0; i < MODULES && (mended.number != 0 || mended.repairs != 1); i++) {
        memcpy(matrix, clean, MODULES);
        matrix[i] ^= 1;
        mended = read_label(&small, 24, ROOM);
    }
    expect_read("one repair and one place", read_places(&small, 24, 83, 1), (jab_read_answer){.length = 83, .repairs = 1, .unmet = 3});
    expect_read("one repair and no place", read_places(&small, 24, 83, 0), (jab_read_answer){.number = 16, .repairs = 1, .unmet = 3});
    expect_read("16 before 14", read_places(&small, 24, 82, 0), (jab_read_answer){.number = 16, .repairs = 1, .unmet = 3});
    expect_read("14 leaves the places", read_places(&small, 24, 82, 1), (jab_read_answer){.number = 14, .repairs = 1, .unmet = 3});
    memcpy(matrix, clean, MODULES);
    expect_read("no repair and no place", read_places(&small, 24, 83, 0), (jab_read_answer){.length = 83});

    matrix[300] = 8;
    matrix[400] = 255;
    expect_read("a module of 8", read_label(&small, 24, ROOM), (jab_read_answer){.number = 7, .place = 300});
}

int main(void) {
    sizes();
    round_trips();
    one_bit_turned();
    many_modules_turned();
    early_refusals();
    late_refusals();
    printf("c_interface: 1 to 7, 14 and 16 refused where documents 01 and 02 have them\n");
    return 0;
}
