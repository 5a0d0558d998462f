/* How much stack the calls take, beside what the caller lends: each runs on a stack of its own, painted before and looked at behind, over messages
 * of every type, accepted and refused. What is counted is all below the place of the call: arguments that go by the stack and the return address
 * too. Prints a line a call: its name, the most bytes that it took, and on which input (bench/stack/report reads it). Exits with 2 if an input is
 * not what it should be, so that nothing was measured. */
#define _XOPEN_SOURCE 700
#include "homralgyu.h"
#include <stdio.h>
#include <string.h>
#include <ucontext.h>

enum { ROOM = 128 * 1024, PAINT = 0xA5, AIOU = 3, SIOU = 5, TAG = 100, SOLUTION = 5, PROCESSOR = 11 };

static unsigned char stack[ROOM];
static ucontext_t here, there;
static size_t base;

/* ---- inputs */

struct input {
    const char *name;
    uint8_t kind, subtype;
    uint64_t sheet[HOMRALGYU_SHEET_ROOM];
    size_t entries;
    uint8_t payload[HOMRALGYU_LONGEST_PAYLOAD];
    size_t bits, bytes;
    uint8_t frame[HOMRALGYU_LONGEST_FRAME];
    size_t length;
};

static struct input inputs[32];
static size_t made;
static struct input *at;
static int wrong;

static void expect(int holds, const char *what) {
    if (holds) return;
    fprintf(stderr, "stack: %s: %s\n", at ? at->name : "no input", what);
    wrong = 1;
}

static void code(uint64_t x) { at->sheet[at->entries++] = x; }

static void codes(size_t count, uint64_t x) {
    while (count-- > 0) code(x);
}

static struct input *begin(const char *name, uint8_t kind, uint8_t subtype) {
    at = &inputs[made++];
    at->name = name, at->kind = kind, at->subtype = subtype;
    return at;
}

static void frame_of(uint64_t tag, uint8_t solution) {
    uint64_t size[1] = {0};
    uint8_t answer = homralgyu_frame_write(at->kind, 2, at->subtype, 0, tag, solution, PROCESSOR, at->payload, at->bytes, at->frame,
                                           HOMRALGYU_LONGEST_FRAME, size, 1);
    expect(answer == 0, "the frame is not written");
    at->length = size[0];
}

/* Payload and frame of the sheet. */
static void end(void) {
    uint64_t counts[2] = {0, 0};
    uint64_t answer =
        homralgyu_sheet_write(at->kind, at->subtype, at->sheet, at->entries, at->payload, HOMRALGYU_LONGEST_PAYLOAD, counts, 2);
    expect(answer == 0, "the sheet is not written");
    at->bits = counts[0], at->bytes = counts[1];
    frame_of(TAG, SOLUTION);
}

/* Sixteen satellites with every block; so many bias bits each. */
static void ocb(const char *name, uint8_t subtype, uint64_t satellites, uint64_t bias, int biases) {
    begin(name, 0, subtype);
    code(5), code(0), code(0), code(1), code(0), code(0), code(3), code(satellites);
    for (; satellites; satellites &= satellites - 1) {
        code(0), code(7), code(2), code(99);
        codes(3, 16382), code(63), code(1), code(8200), code(4);
        code(1), code(bias);
        for (int i = 0; i < biases; i++) code(1), code(6), code(8000);
        code(1), code(bias), codes((size_t)biases, 1023);
    }
    end();
}

/* Areas from an ID on, each with so many points and eight satellites; blocks 1 is without grids. */
static void hpac(const char *name, uint64_t areas, uint64_t id, uint64_t points, uint64_t blocks) {
    begin(name, 1, 0);
    code(SIOU), code(AIOU), code(0), code(areas - 1);
    for (uint64_t area = 0; area < areas; area++) {
        code(id + 7 * area), code(points), code(blocks), code(blocks);
        code(2), code(0), code(254), code(1), codes(4, 9);
        if (blocks == 2) code(1), codes(points, 255);
        code(2), code(0), code(0x88888888);
        for (int k = 0; k < 8; k++) {
            code(15), code(1), codes(4, 9);
            if (blocks == 2) code(2), codes(points, 1023);
        }
    }
    end();
}

/* So many areas with rows and columns, as codes, and their reference corner as far south as told. */
static void gad(const char *name, uint64_t areas, uint64_t rows, uint64_t latitude) {
    begin(name, 2, 0);
    code(SIOU), code(AIOU), code(0), code(areas - 1);
    for (uint64_t area = 1; area <= areas; area++)
        code(7 * area), code(latitude), code(10 * area), code(rows), code(7), code(9), code(9);
    end();
}

static void bpac(void) {
    begin("BPAC, two areas of 128 nodes", 3, 0);
    code(5), code(0), code(1), code(1);
    for (uint64_t area = 0; area < 2; area++) {
        code(area), code(170), code(360), code(15), code(7), code(3), code(3), code(9);
        codes(2, 0xF0F0F0F0F0F0F0F0);
        for (int node = 0; node < 64; node++) code(15), code(node % 2), code(99);
    }
    end();
}

static struct input *again(const struct input *of, const char *name) {
    struct input *to = begin(name, of->kind, of->subtype);
    *to = *of;
    to->name = name;
    return to;
}

/* The message without its last entry and its last byte. */
static void cut(const struct input *of, const char *name) {
    struct input *to = again(of, name);
    to->entries--, to->bytes--;
    frame_of(TAG, SOLUTION);
}

/* So many bits from a bit on are set, and an entry has the top code. */
static void top(const struct input *of, const char *name, size_t bit, size_t width, size_t entry) {
    struct input *to = again(of, name);
    for (size_t b = bit; b < bit + width; b++) to->payload[b / 8] |= (uint8_t)(0x80 >> b % 8);
    to->sheet[entry] = ((uint64_t)1 << width) - 1;
    frame_of(TAG, SOLUTION);
}

/* The message with another SIOU. */
static void another(const struct input *of, const char *name) {
    again(of, name)->sheet[0]++;
    end();
}

static struct input *known, *placed, *renewed, *outdated;

static void make(void) {
    ocb("OCB of GPS, 16 satellites", 0, 0xFFFF, 0x7FF, 11);
    struct input *rich = at;
    ocb("OCB of Galileo, 10 satellites", 2, 0x3FF, 0x7FFF, 15);
    hpac("HPAC, 64 nodes, 8 satellites", 1, 7, 64, 2);
    placed = at;
    hpac("HPAC, no grids, 6 areas", 6, 7, 64, 1);
    struct input *plain = at;
    hpac("HPAC, an area left out", 1, 8, 64, 2);
    gad("GAD of 32", 32, 7, 1800);
    known = at;
    gad("GAD in conflict", 32, 6, 1800);
    gad("GAD off", 32, 7, 0);
    bpac();
    struct input *vtec = at;
    cut(rich, "OCB, cut");
    cut(placed, "HPAC, cut");
    cut(known, "GAD, cut");
    cut(vtec, "BPAC, cut");
    top(rich, "OCB, the last code refused", rich->bits - 11, 11, rich->entries - 1);
    top(plain, "HPAC, the last code refused", plain->bits - 15, 15, plain->entries - 1);
    top(known, "GAD, the last latitude refused", known->bits - 39, 11, known->entries - 6);
    another(known, "GAD of another SIOU");
    renewed = at;
    another(placed, "HPAC of another SIOU");
    outdated = at;
    again(placed, "HPAC, a tag out of range"), frame_of(43200, SOLUTION);
    again(placed, "HPAC, another solution"), frame_of(TAG, SOLUTION + 1);
    again(placed, "HPAC, damaged")->frame[30] ^= 4;
    again(placed, "HPAC, a sheet that goes on")->entries++;
}

/* ---- what is lent */

static uint8_t bytes[HOMRALGYU_LONGEST_FRAME], live[HOMRALGYU_BOOK_BYTES], run[HOMRALGYU_BOOK_BYTES], log_[HOMRALGYU_LOG_ROOM];
static uint64_t tray[3], desk[HOMRALGYU_DESK], told[HOMRALGYU_TOLD], header[HOMRALGYU_HEADER], written[1], counts[2], book[HOMRALGYU_BOOK];
static uint64_t sheet[HOMRALGYU_SHEET_ROOM], entry[HOMRALGYU_ENTRY], what[2], view[HOMRALGYU_SATELLITE], found[1];
static uint8_t out[HOMRALGYU_LONGEST_FRAME], kept[HOMRALGYU_KEPT_ROOM], entries[16384];
static size_t kept_bytes, length;
static double value[1], floats[HOMRALGYU_SATELLITE_FLOATS];
static uint64_t place, coded;
static uint8_t id, area[6], held[HOMRALGYU_BOOK_BYTES];
static uint16_t sf;
static const uint8_t *part;
static size_t part_bytes;
static uint64_t answer;

#define DESK desk, HOMRALGYU_DESK, live, sizeof live, run, sizeof run, log_, sizeof log_
#define TRAY bytes, sizeof bytes, tray, 3
#define TOLD(room) told, room, header, HOMRALGYU_HEADER

static void nothing(void) {}
static void on_desk_take(void) { answer = homralgyu_desk_take(at->frame, at->length, 1, DESK, written, 1); }
static void on_payload_judge(void) { answer = homralgyu_payload_judge(at->kind, at->subtype, at->payload, at->bytes, counts, 2); }
static void on_payload_read(void) {
    answer = homralgyu_payload_read(at->kind, at->subtype, at->payload, at->bytes, sheet, HOMRALGYU_SHEET_ROOM, counts, 2);
}
static void on_sheet_judge(void) { answer = homralgyu_sheet_judge(at->kind, at->subtype, at->sheet, at->entries, counts, 2); }
static void on_sheet_write(void) {
    answer = homralgyu_sheet_write(at->kind, at->subtype, at->sheet, at->entries, out, HOMRALGYU_LONGEST_PAYLOAD, counts, 2);
}
static void on_frame_check(void) { answer = homralgyu_frame_check(at->frame, at->length, header, HOMRALGYU_HEADER); }
static void on_frame_write(void) {
    answer = homralgyu_frame_write(at->kind, 3, at->subtype, 1, TAG, SOLUTION, PROCESSOR, at->payload, at->bytes, out, sizeof out,
                                   written, 1);
}
static void on_book_take(void) { answer = homralgyu_book_take(book, HOMRALGYU_BOOK, live, sizeof live, at->payload, at->bytes); }
static void on_kept_write(void) { answer = homralgyu_kept_write(book, HOMRALGYU_BOOK, live, sizeof live, out, sizeof out, written, 1); }
static void on_kept_read(void) { answer = homralgyu_kept_read(kept, kept_bytes, book, HOMRALGYU_BOOK, live, sizeof live); }
static void on_satellite_at(void) {
    answer = homralgyu_satellite_at(at->subtype, at->sheet, at->entries, place, view, HOMRALGYU_SATELLITE, floats, HOMRALGYU_SATELLITE_FLOATS);
}
static void on_gad_area(void) { answer = homralgyu_gad_area(id, at->sheet, at->entries, view, 3, floats, 4); }
static void on_hpac_area(void) { answer = homralgyu_hpac_area(at->subtype, id, at->sheet, at->entries, view, 5); }
static void on_bpac_area(void) { answer = homralgyu_bpac_area(id, at->sheet, at->entries, view, 4, floats, 5); }
static void on_value(void) { answer = homralgyu_value(sf, coded, what, 2, value, 1); }
static void on_orbit(void) { answer = homralgyu_orbit(coded, coded, coded, floats, 3); }
static void on_desk_new(void) { answer = homralgyu_desk_new(SOLUTION, PROCESSOR, 0, desk, HOMRALGYU_DESK); }
static void on_desk_is_sound(void) { answer = homralgyu_desk_is_sound(desk, HOMRALGYU_DESK, live, sizeof live, run, sizeof run); }
static void on_desk_take_book(void) {
    answer = homralgyu_desk_take_book(desk, HOMRALGYU_DESK, live, sizeof live, run, sizeof run, book, HOMRALGYU_BOOK, held, sizeof held);
}
static void on_desk_find(void) {
    answer = homralgyu_desk_find(desk, HOMRALGYU_DESK, live, sizeof live, run, sizeof run, id, area, 6, found, 1);
}
static void on_book_find(void) { answer = homralgyu_book_find(book, HOMRALGYU_BOOK, live, sizeof live, id, area, 6, found, 1); }
static void on_stream_call(void) { answer = homralgyu_stream_call(TRAY, part, part_bytes, TOLD(3)); }
static void on_stream_finish(void) { answer = homralgyu_stream_finish(TRAY, TOLD(3)); }
static void on_prepare_call(void) { answer = homralgyu_prepare_call(TRAY, DESK, part, part_bytes, 1, TOLD(HOMRALGYU_TOLD)); }
static void on_prepare_finish(void) { answer = homralgyu_prepare_finish(TRAY, DESK, 1, TOLD(HOMRALGYU_TOLD)); }
static void on_entry_read(void) { answer = homralgyu_entry_read(entries, length, entry, HOMRALGYU_ENTRY); }
static void on_entry_troposphere(void) { answer = homralgyu_entry_troposphere(entries, length, 63, what, 2, value, 1); }
static void on_entry_satellite(void) { answer = homralgyu_entry_satellite(entries, length, 63, what, 2); }
static void on_entry_residual(void) { answer = homralgyu_entry_residual(entries, length, 63, 63, what, 2, value, 1); }

/* ---- measuring */

/* Every call of homralgyu.h. A call is made by the function on_NAME, of which bench/stack/report adds up what the calls below it set aside. */
#define EVERY(X)                                                                                                                        \
    X(prepare_call) X(prepare_finish) X(desk_take) X(payload_read) X(payload_judge) X(sheet_judge) X(sheet_write) X(stream_call)        \
    X(stream_finish) X(frame_check) X(frame_write) X(book_take) X(kept_read) X(kept_write) X(entry_read) X(entry_troposphere)           \
    X(entry_satellite) X(entry_residual) X(satellite_at) X(gad_area) X(hpac_area) X(bpac_area) X(value) X(orbit) X(desk_new)            \
    X(desk_is_sound) X(desk_take_book) X(desk_find) X(book_find)
#define INDEX(name) IS_##name,
#define ROW(name) {#name, on_##name, 0, ""},

enum { EVERY(INDEX) CALLS };

static struct most {
    const char *name;
    void (*call)(void);
    size_t bytes;
    const char *input;
} calls[] = {EVERY(ROW)};

/* The call is made on the other stack, which is left from there and not behind it: so nothing but the call writes below. */
static void (*calling)(void);

static void call_there(void) {
    calling();
    swapcontext(&there, &here);
}

static size_t taken(void (*f)(void)) {
    calling = f;
    memset(stack, PAINT, ROOM);
    getcontext(&there);
    there.uc_stack.ss_sp = stack;
    there.uc_stack.ss_size = ROOM;
    there.uc_link = NULL;
    makecontext(&there, call_there, 0);
    swapcontext(&here, &there);
    size_t left = 0;
    while (left < ROOM && stack[left] == PAINT) left++;
    return ROOM - left;
}

static void measure(int call, const char *input) {
    size_t used = taken(calls[call].call) - base;
    if (used > calls[call].bytes) calls[call].bytes = used, calls[call].input = input;
}

/* A tray and a desk at the start; the desk with a book of 32 areas, and with an open run too. */
static void fresh(int state) {
    memset(bytes, 0, sizeof bytes), memset(tray, 0, sizeof tray);
    homralgyu_desk_new(SOLUTION, PROCESSOR, 0, desk, HOMRALGYU_DESK);
    struct input *now = at;
    if (state >= 1) at = known, on_desk_take(), expect(answer == 0, "the book is not taken");
    if (state >= 2) at = placed, on_desk_take(), expect(answer == 0, "the message is not taken");
    at = now;
}

/* The bytes in portions, then the end. */
static void feed(const uint8_t *stream, size_t size, size_t portion, int desk_too) {
    for (size_t from = 0; from < size; from += portion) {
        size_t left = size - from < portion ? size - from : portion;
        part = stream + from, part_bytes = left;
        do {
            measure(desk_too ? IS_prepare_call : IS_stream_call, at->name);
            expect(answer == 0, "the stream refuses");
            part += told[1], part_bytes -= told[1];
        } while (told[0] != 0 && !wrong);
    }
    do {
        measure(desk_too ? IS_prepare_finish : IS_stream_finish, at->name);
        expect(answer == 0, "the end of the stream refuses");
    } while (told[0] != 3 && !wrong);
}

/* Noise, the start of a frame that never ends, and the frame: so the end of the stream still has it to tell. */
static void streams(int state) {
    static uint8_t stream[HOMRALGYU_LONGEST_FRAME * 2];
    struct input *longest = placed;
    memset(stream, 0x21, 3);
    memcpy(stream + 3, longest->frame, 8);
    memcpy(stream + 11, at->frame, at->length);
    for (int desk_too = 0; desk_too < 2; desk_too++) {
        fresh(state), feed(at->frame, at->length, at->length, desk_too);
        fresh(state), feed(stream, at->length + 11, at->length + 11, desk_too);
        fresh(state), feed(stream, at->length + 11, 97, desk_too);
    }
}

/* Each satellite or area of the sheet, and some that it does not have. */
static void views(void) {
    int refused = (on_sheet_judge(), answer != 0), shown = 0;
    for (place = 0; at->kind == 0 && place < 20; place++)
        measure(IS_satellite_at, at->name), shown += answer == 0;
    for (id = 0; at->kind > 0 && id < 255; id++) {
        if (at->kind == 1) measure(IS_hpac_area, at->name);
        if (at->kind == 2) measure(IS_gad_area, at->name);
        if (at->kind == 3) measure(IS_bpac_area, at->name);
        shown += answer == 0 && view[0] == 1;
    }
    expect((shown == 0) == refused, "the views of the sheet");
}

/* Codes of every field. */
static void values(void) {
    int known_values = 0;
    for (sf = 0; sf <= 107; sf++)
        for (int width = 0; width < 16; width++) {
            coded = ((uint64_t)1 << width) - 1;
            measure(IS_value, "codes of a width"), known_values += answer == 0;
        }
    expect(known_values > 100, "the values of codes");
    for (coded = 0; coded < 20000; coded += 1999) measure(IS_orbit, "codes of SF020");
}

/* The desk's smaller calls, on a desk in each state. */
static void lookups(const char *name) {
    measure(IS_desk_is_sound, name);
    expect(answer == 0, "the desk is not sound");
    for (id = 0; id < 255; id++) measure(IS_desk_find, name);
    measure(IS_desk_new, name);
}

/* The kept book as an older version kept it: form 1, without the SIOU, whose number has one byte here. */
static void older(void) {
    uint8_t newer[sizeof kept];
    memcpy(newer, kept, sizeof kept);
    kept[0] = 1;
    memmove(kept + 2, kept + 3, --kept_bytes - 2);
    measure(IS_kept_read, "a kept book of form 1");
    expect(answer == 0 && book[HOMRALGYU_BOOK_SIOU_PLUS_ONE] == 0, "a kept book of form 1 does not read");
    memcpy(kept, newer, sizeof kept), kept_bytes++;
}

static void books(void) {
    memset(book, 0, sizeof book), memset(live, 0, sizeof live);
    measure(IS_book_take, at->name);
    measure(IS_book_take, at->name);
    if (answer != 0) return;
    for (id = 0; id < 255; id++) measure(IS_book_find, at->name);
    memcpy(held, live, sizeof held);
    homralgyu_desk_new(SOLUTION, PROCESSOR, 0, desk, HOMRALGYU_DESK);
    measure(IS_desk_take_book, at->name);
    expect(answer == 0, "the desk does not take the book");
    measure(IS_kept_write, at->name);
    expect(answer == 0, "the book is not kept");
    kept_bytes = written[0];
    memcpy(kept, out, sizeof kept);
    measure(IS_kept_read, at->name);
    expect(answer == 0, "the kept book does not read");
    kept_bytes--;
    measure(IS_kept_read, "a kept book, cut");
    kept_bytes++;
    older();
    kept[1] = 99;
    measure(IS_kept_read, "a kept book of no form");
    expect(answer != 0, "a kept book of no form reads");
    book[HOMRALGYU_BOOK_AREAS] = 33;
    measure(IS_kept_write, "a book that is not sound");
}

static void put(uint64_t x) {
    for (; x >= 128; x /= 128) entries[length++] = (uint8_t)(128 + x % 128);
    entries[length++] = (uint8_t)x;
}

static void entry_calls(const char *name) {
    measure(IS_entry_read, name);
    measure(IS_entry_troposphere, name);
    measure(IS_entry_satellite, name);
    measure(IS_entry_residual, name);
}

/* The longest entry, 8,525 bytes: area 255, whose ID takes two bytes and whose 47 bits take seven, with 8 x 8 nodes, both grids with the
 * widest residuals, 64 satellites of two bytes each; then cut, and of no form. */
static void run_log(void) {
    uint64_t id = 255, bits = (id << 39) | ((uint64_t)1800 << 28) | (7 << 13) | (7 << 10);
    put(2), put(id), put(bits), put(64), put(1);
    for (int node = 0; node < 64; node++) put(255);
    put(64);
    for (int k = 0; k < 64; k++) {
        put(193 + (uint64_t)k), put(3);
        for (int node = 0; node < 64; node++) put(16383);
    }
    on_entry_read();
    expect(answer == 0 && entry[HOMRALGYU_ENTRY_USED] == length && length == 8525, "the longest entry does not read");
    on_entry_residual();
    expect(answer == 0, "the longest entry has no last residual");
    entry_calls("the longest entry");
    length--;
    entry_calls("the longest entry, cut");
    entries[length++] = 0;
    entry_calls("the longest entry, of no form");
}

static void all(void) {
    for (size_t i = 0; i < made; i++) {
        at = &inputs[i];
        measure(IS_payload_judge, at->name);
        measure(IS_payload_read, at->name);
        measure(IS_sheet_judge, at->name);
        measure(IS_sheet_write, at->name);
        measure(IS_frame_check, at->name);
        measure(IS_frame_write, at->name);
        views();
        if (at->kind == 2) books();
        for (int state = 0; state < 3; state++) {
            fresh(state), measure(IS_desk_take, at->name);
            lookups(at->name);
            streams(state);
        }
    }
    at = NULL;
    values();
    run_log();
}

/* What the calls must say of the inputs, so that the depths are of the ways that they are meant for. */
static void answers(void) {
    for (size_t i = 0; i < made; i++) {
        at = &inputs[i];
        int refused = strchr(at->name, ',') && (strstr(at->name, "cut") || strstr(at->name, "refused"));
        on_payload_judge(), expect((answer != 0) == refused, "the payload's answer");
        if (refused) expect(homralgyu_sf(answer) != 0, "the payload's refusal has no place");
        on_sheet_judge(), expect((answer != 0) == (refused || strstr(at->name, "goes on")), "the sheet's answer");
    }
    at = placed, fresh(1), on_desk_take(), expect(answer == 0 && written[0] > 600, "the area is not placed");
    at = outdated, fresh(2), on_desk_take(), expect(answer == 0 && written[0] == 3 && log_[2] == 5, "the area is not left out for its SIOU");
    at = renewed, fresh(2), on_desk_take();
    expect(answer == 0 && desk[HOMRALGYU_DESK_SIOU_PLUS_ONE] == SIOU + 2, "the GAD begins no new book");
}

int main(void) {
    base = taken(nothing);
    make(), answers();
    if (!wrong) all();
    for (size_t i = 0; i < CALLS; i++) {
        at = NULL, expect(calls[i].bytes > 0, calls[i].name);
        printf("%s %zu %s\n", calls[i].name, calls[i].bytes, calls[i].input);
    }
    return wrong ? 2 : 0;
}
