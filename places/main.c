/* Asks where messages go wrong (document 02, request 2), for `tests/places`.
 *
 * Standard input has for each message its type and subtype, the counts of its sheet's entries, of its
 * payload's bytes and of the codes that are asked about, then the sheet, the payload, and each of these
 * codes: `p`, a bit, a count of bits and the code, which is put there in the payload; or `s`, an entry and
 * the code, which is put there in the sheet. Printed is a heading a message and a line an answer. */
#include "homralgyu.h"
#include <inttypes.h>
#include <stdio.h>
#include <string.h>

/* document 01, "Answer numbers" */
static const char *const names[] = {
    "OK", "SHORT", "PREAMBLE", "FRAME_CRC", "LENGTH", "MESSAGE_CRC", "UNKNOWN_TYPE", "MASK_EMPTY", "FIELD",
    "ROOM", "SEALED", "TAG", "NOT_OURS", "AREA_OFF", "CONFLICT", "BOOK_FULL", "LEFTOVER", "STATE", "FORM"};

/* what lies in the counts before a call, and beside a refusal behind it too */
#define UNTOUCHED UINT64_C(0x5a5a5a5a5a5a5a5a)

static uint64_t sheet[HOMRALGYU_SHEET_ROOM + 1], counts[2];
static uint8_t payload[HOMRALGYU_LONGEST_PAYLOAD], changed[HOMRALGYU_LONGEST_PAYLOAD];

/* The rest of a line: the answer's name; of a place the SF number and the bit or entry; of an accepted
 * message its two counts. */
static void say(uint64_t answer, const char *first, const char *second) {
    uint8_t number = homralgyu_number(answer);
    uint32_t sf = homralgyu_sf(answer), place = homralgyu_place(answer);
    printf(": %s", number < sizeof names / sizeof *names ? names[number] : "no number of document 01");
    if (sf != 0 || place != 0) printf(" SF%03" PRIu32 " %" PRIu32, sf, place);
    if (answer != number + ((uint64_t)sf << 8) + ((uint64_t)place << 32)) printf(", taken apart wrongly");
    if (answer == 0) printf(", %" PRIu64 " %s, %" PRIu64 " %s", counts[0], first, counts[1], second);
    else if (counts[0] != UNTOUCHED || counts[1] != UNTOUCHED) printf(", counts written beside a refusal");
    printf("\n");
}

static void ask_payload(unsigned kind, unsigned subtype, const uint8_t *bytes, size_t length) {
    counts[0] = counts[1] = UNTOUCHED;
    uint64_t answer = homralgyu_payload_judge((uint8_t)kind, (uint8_t)subtype, bytes, length, counts, 2);
    say(answer, "bits", "entries");
}

static void ask_sheet(unsigned kind, unsigned subtype, size_t length) {
    counts[0] = counts[1] = UNTOUCHED;
    uint64_t answer = homralgyu_sheet_judge((uint8_t)kind, (uint8_t)subtype, sheet, length, counts, 2);
    say(answer, "bits", "bytes");
}

/* The code into the payload's bits from this one on, the most significant first. */
static void put(uint8_t *bytes, size_t bit, unsigned bits, uint64_t code) {
    for (unsigned k = 0; k < bits; k++) {
        size_t at = bit + k;
        uint8_t one = (uint8_t)(0x80 >> at % 8);
        if (code >> (bits - 1 - k) & 1) bytes[at / 8] |= one;
        else bytes[at / 8] &= (uint8_t)~one;
    }
}

int main(void) {
    unsigned kind, subtype, bits;
    size_t entries, bytes, asked, at;
    uint64_t code;
    char where;
    while (scanf("%u %u %zu %zu %zu", &kind, &subtype, &entries, &bytes, &asked) == 5) {
        if (entries > HOMRALGYU_SHEET_ROOM || bytes > sizeof payload) return 1;
        for (size_t k = 0; k < entries; k++)
            if (scanf("%" SCNu64, &sheet[k]) != 1) return 1;
        for (size_t k = 0; k < bytes; k++)
            if (scanf("%" SCNu8, &payload[k]) != 1) return 1;
        printf("%u-%u\n", kind, subtype);
        printf("the whole payload");
        ask_payload(kind, subtype, payload, bytes);
        printf("the whole sheet");
        ask_sheet(kind, subtype, entries);
        for (size_t n = 0; n < entries; n++) {
            printf("the sheet cut to %zu entries", n);
            ask_sheet(kind, subtype, n);
        }
        for (size_t k = 1; k < bytes; k++) {
            printf("the payload cut to %zu bytes", k);
            ask_payload(kind, subtype, payload, k);
        }
        for (size_t k = 0; k < asked; k++) {
            if (scanf(" %c %zu", &where, &at) != 2) return 1;
            if (where == 'p') {
                if (scanf("%u %" SCNu64, &bits, &code) != 2 || bits > 64 || at + bits > 8 * bytes) return 1;
                memcpy(changed, payload, bytes);
                put(changed, at, bits, code);
                printf("code %" PRIu64 " at bit %zu", code, at);
                ask_payload(kind, subtype, changed, bytes);
            } else {
                if (scanf("%" SCNu64, &code) != 1 || at >= entries) return 1;
                uint64_t before = sheet[at];
                sheet[at] = code;
                printf("code %" PRIu64 " at entry %zu", code, at);
                ask_sheet(kind, subtype, entries);
                sheet[at] = before;
            }
        }
        sheet[entries] = 0;
        printf("the sheet with one entry more");
        ask_sheet(kind, subtype, entries + 1);
    }
    return feof(stdin) ? 0 : 1;
}
