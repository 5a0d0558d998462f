/* One job in C: messages come as a stream with noise before them, in portions of 40 bytes. Each event of the stream is printed by its number;
 * then a desk is made, the same stream is prepared, a portion a second, and each event is printed with the log bytes that it adds, and these are
 * read back entry by entry; of the last message a byte is lost, and the desk says where it ends too early. Then an area is looked up, a message
 * comes before and after a gap, the provider restarts its solver while a run is open, and the book is kept and taken in by a second desk, and one
 * that an older version kept by a third. Last come views of two sheets, and where a third is at fault. */
#include "homralgyu.h"

#include <stdio.h>
#include <stdlib.h>
#include <string.h>

enum { SOLUTION = 5, PROCESSOR = 11, GPS = 0, HPAC = 1, GAD = 2, PORTION = 40, MOST_EVENTS = 100, START = 1000, OUTAGE = 450 };

/* the events of a stream */
enum { HUNGRY, FRAME, NOISE, DONE };

/* the entries of the run log */
enum { RUN_OPENED = 1, AREA_PLACED, LEFT_OUT };

/* Everything that a job lends to its calls. */
struct job {
    uint64_t desk[HOMRALGYU_DESK], tray[3], told[HOMRALGYU_TOLD], header[HOMRALGYU_HEADER];
    unsigned events;
    uint8_t bytes[HOMRALGYU_LONGEST_FRAME], live[HOMRALGYU_BOOK_BYTES], run[HOMRALGYU_BOOK_BYTES], log[HOMRALGYU_LOG_ROOM];
};

struct input {
    uint8_t bytes[1024];
    size_t size;
};

/* An answer: its number, and of a refusal with a place the field and the bit of the payload or the entry of the sheet. */
static void tell_answer(unsigned number, unsigned sf, const char *unit, unsigned place)
{
    printf("%u", number);
    if (sf != 0)
        printf(" at SF%03u, %s %u", sf, unit, place);
    printf("\n");
}

static void must(uint64_t answer, const char *call)
{
    if (answer != 0) {
        printf("%s answered ", call);
        tell_answer(homralgyu_number(answer), homralgyu_sf(answer), "place", homralgyu_place(answer));
        exit(1);
    }
}

static void print_bytes(const char *what, const uint8_t *bytes, size_t size)
{
    printf("%s", what);
    for (size_t i = 0; i < size; i++)
        printf(" %02X", bytes[i]);
    printf("\n");
}

/* A sheet as a plain frame at the end of the input, without the last bytes of its payload, as many as are lost. */
static void add_cut(struct input *input, uint8_t type, uint8_t solution, uint64_t tag, const uint64_t *sheet, size_t entries,
                    size_t lost)
{
    uint8_t payload[HOMRALGYU_LONGEST_PAYLOAD], frame[HOMRALGYU_LONGEST_FRAME];
    uint64_t counts[2], size[1];
    must(homralgyu_sheet_write(type, GPS, sheet, entries, payload, sizeof payload, counts, 2), "sheet_write");
    must(homralgyu_frame_write(type, 2, GPS, 0, tag, solution, PROCESSOR, payload, counts[1] - lost, frame, sizeof frame, size, 1),
         "frame_write");
    memcpy(input->bytes + input->size, frame, size[0]);
    input->size += size[0];
}

static void add(struct input *input, uint8_t type, uint8_t solution, uint64_t tag, const uint64_t *sheet, size_t entries)
{
    add_cut(input, type, solution, tag, sheet, entries, 0);
}

static void make_input(struct input *input)
{
    /* SF005, SF068, SF069, SF030, then of area 5: SF039 and twice SF040; of the GAD: SF031 to SF037, two nodes */
    const uint64_t bare[] = {0, 3, 0, 0, 5, 9, 0, 0};
    const uint64_t gad[] = {0, 3, 0, 0, 5, 900, 0, 1, 0, 0, 0};
    /* both grids: SF053 invalid and 254; satellite 32 with SF067 invalid and 16382 */
    const uint64_t grids[] = {0, 3, 0, 0, 5, 2, 2, 2, 0, 0, 0, 0, 0, 1, 255, 254, 0, 0, 1, 0, 0, 0, 3, 16383, 16382};
    /* satellites alone, without troposphere residuals: satellite 1 with SF064 invalid and 8 */
    const uint64_t slant[] = {0, 3, 0, 0, 5, 2, 0, 2, 0, 0, (uint64_t)1 << 31, 0, 0, 0, 0, 15, 8};
    const uint8_t noise[] = {0x00, 0x73, 0x00};
    memcpy(input->bytes, noise, sizeof noise);
    input->size = sizeof noise;
    add(input, HPAC, SOLUTION, 43199, bare, sizeof bare / sizeof *bare); /* document 01, measured case 10 */
    add(input, GAD, SOLUTION, 0, gad, sizeof gad / sizeof *gad);
    add(input, HPAC, SOLUTION, 9, grids, sizeof grids / sizeof *grids); /* an earlier tag opens a run too */
    add(input, HPAC, SOLUTION, 9, slant, sizeof slant / sizeof *slant);
    add(input, HPAC, SOLUTION + 1, 9, bare, sizeof bare / sizeof *bare);
    add(input, HPAC, SOLUTION, 43200, bare, sizeof bare / sizeof *bare);
    add_cut(input, GAD, SOLUTION, 0, gad, sizeof gad / sizeof *gad, 1); /* 64 bits, and SF037 has five from bit 61 on */
}

/* One event printed by its number; 0 where nothing more is due. With another number for an event this job would print something else, stop
 * here, or have more events than its stream has. */
static int tell(struct job *job)
{
    job->events++;
    if (job->events == MOST_EVENTS) {
        printf("no end\n");
        exit(1);
    }
    switch (job->told[HOMRALGYU_TOLD_EVENT]) {
    case HUNGRY:
        printf("hungry\n");
        return 0;
    case FRAME:
        printf("frame %u %u %u\n", (unsigned)job->header[HOMRALGYU_LENGTH], (unsigned)job->header[HOMRALGYU_TYPE],
               (unsigned)job->header[HOMRALGYU_SUBTYPE]);
        return 1;
    case NOISE:
        printf("noise %u\n", (unsigned)job->told[HOMRALGYU_TOLD_NOISE]);
        return 1;
    case DONE:
        printf("done\n");
        return 0;
    default:
        printf("event %u\n", (unsigned)job->told[HOMRALGYU_TOLD_EVENT]);
        exit(1);
    }
}

/* A residual of the log: invalid, or in its unit (1 metres, 3 TECU). */
static void tell_residual(const uint64_t what[2], double value)
{
    if (what[0] == 0)
        printf(" %u invalid", (unsigned)what[1]);
    else
        printf(" %u %+.3f %s", (unsigned)what[1], value, what[0] == 1 ? "metres" : "TECU");
}

/* The troposphere residuals of a placed area, if there are any, then satellite by satellite those of the ionosphere, one a node. */
static void tell_placed(const uint8_t *bytes, size_t size, const uint64_t *entry)
{
    uint64_t satellite[2], what[2];
    double value[1];
    printf("area %u placed, nodes %u, satellites %u", (unsigned)entry[HOMRALGYU_ENTRY_ID], (unsigned)entry[HOMRALGYU_ENTRY_NODES],
           (unsigned)entry[HOMRALGYU_ENTRY_S]);
    if (entry[HOMRALGYU_ENTRY_T] != 0)
        printf(", troposphere:");
    for (uint64_t node = 0; node < entry[HOMRALGYU_ENTRY_T]; node++) {
        must(homralgyu_entry_troposphere(bytes, size, node, what, 2, value, 1), "entry_troposphere");
        tell_residual(what, value[0]);
    }
    printf("\n");
    for (uint64_t k = 0; k < entry[HOMRALGYU_ENTRY_S]; k++) {
        must(homralgyu_entry_satellite(bytes, size, k, satellite, 2), "entry_satellite");
        printf("satellite %u, size %u:", (unsigned)satellite[0], (unsigned)satellite[1]);
        for (uint64_t node = 0; node < entry[HOMRALGYU_ENTRY_NODES]; node++) {
            must(homralgyu_entry_residual(bytes, size, k, node, what, 2, value, 1), "entry_residual");
            tell_residual(what, value[0]);
        }
        printf("\n");
    }
}

static void tell_opened(const uint64_t *entry)
{
    printf("run opened, tag %u, ", (unsigned)entry[HOMRALGYU_ENTRY_TAG]);
    if (entry[HOMRALGYU_ENTRY_AIOU_PLUS_ONE] == 0)
        printf("no book\n");
    else
        printf("AIOU %u, areas %u\n", (unsigned)entry[HOMRALGYU_ENTRY_AIOU_PLUS_ONE] - 1, (unsigned)entry[HOMRALGYU_ENTRY_COUNT]);
}

/* The entries of the run log, as the display has them. */
static void read_log(const uint8_t *log, size_t size)
{
    uint64_t entry[HOMRALGYU_ENTRY];
    for (size_t at = 0; at < size; at += entry[HOMRALGYU_ENTRY_USED]) {
        must(homralgyu_entry_read(log + at, size - at, entry, HOMRALGYU_ENTRY), "entry_read");
        switch (entry[HOMRALGYU_ENTRY_KIND]) {
        case RUN_OPENED:
            tell_opened(entry);
            break;
        case AREA_PLACED:
            tell_placed(log + at, size - at, entry);
            break;
        case LEFT_OUT:
            printf("area %u left out, reason %u\n", (unsigned)entry[HOMRALGYU_ENTRY_ID], (unsigned)entry[HOMRALGYU_ENTRY_REASON]);
            break;
        default:
            printf("entry %u\n", (unsigned)entry[HOMRALGYU_ENTRY_KIND]);
            exit(1);
        }
    }
}

/* An event with what the desk made of it. */
static int tell_desk(struct job *job)
{
    int more = tell(job);
    if (job->told[HOMRALGYU_TOLD_EVENT] == FRAME) {
        printf("the desk answers ");
        tell_answer((unsigned)job->told[HOMRALGYU_TOLD_NUMBER], (unsigned)job->told[HOMRALGYU_TOLD_SF], "bit",
                    (unsigned)job->told[HOMRALGYU_TOLD_BIT]);
    }
    if (job->told[HOMRALGYU_TOLD_LOG] != 0)
        print_bytes("log", job->log, job->told[HOMRALGYU_TOLD_LOG]);
    read_log(job->log, job->told[HOMRALGYU_TOLD_LOG]);
    return more;
}

static size_t portion_at(const struct input *input, size_t at)
{
    size_t left = input->size - at;
    return left < PORTION ? left : PORTION;
}

/* The stream alone: each portion until hungry, then finish until done. */
static void listen(struct job *job, const struct input *input)
{
    for (size_t at = 0; at < input->size; at += PORTION) {
        size_t size = portion_at(input, at), used = 0;
        do {
            must(homralgyu_stream_call(job->bytes, sizeof job->bytes, job->tray, 3, input->bytes + at + used, size - used, job->told,
                                       HOMRALGYU_TOLD, job->header, HOMRALGYU_HEADER),
                 "stream_call");
            used += job->told[HOMRALGYU_TOLD_USED];
        } while (tell(job));
    }
    do {
        must(homralgyu_stream_finish(job->bytes, sizeof job->bytes, job->tray, 3, job->told, HOMRALGYU_TOLD, job->header,
                                     HOMRALGYU_HEADER),
             "stream_finish");
    } while (tell(job));
}

/* The same with a desk. The seconds are a running count, here one a portion; a program counts those of a clock that nobody sets. */
static void prepare(struct job *job, const struct input *input)
{
    uint64_t second = START;
    for (size_t at = 0; at < input->size; at += PORTION, second++) {
        size_t size = portion_at(input, at), used = 0;
        do {
            must(homralgyu_prepare_call(job->bytes, sizeof job->bytes, job->tray, 3, job->desk, HOMRALGYU_DESK, job->live,
                                        sizeof job->live, job->run, sizeof job->run, job->log, sizeof job->log,
                                        input->bytes + at + used, size - used, second, job->told, HOMRALGYU_TOLD, job->header,
                                        HOMRALGYU_HEADER),
                 "prepare_call");
            used += job->told[HOMRALGYU_TOLD_USED];
        } while (tell_desk(job));
    }
    do {
        must(homralgyu_prepare_finish(job->bytes, sizeof job->bytes, job->tray, 3, job->desk, HOMRALGYU_DESK, job->live,
                                      sizeof job->live, job->run, sizeof job->run, job->log, sizeof job->log, second, job->told,
                                      HOMRALGYU_TOLD, job->header, HOMRALGYU_HEADER),
             "prepare_finish");
    } while (tell_desk(job));
}

static void find(const struct job *job, uint8_t id)
{
    uint8_t area[6];
    uint64_t found[1];
    must(homralgyu_desk_find(job->desk, HOMRALGYU_DESK, job->live, sizeof job->live, job->run, sizeof job->run, id, area,
                             sizeof area, found, 1),
         "desk_find");
    printf("area %u:", id);
    print_bytes("", area, found[0]);
}

/* A message on a copy of this desk, so many seconds behind the last accepted frame. */
static void tell_later(const struct job *job, const struct input *message, unsigned seconds)
{
    struct job then = *job;
    uint64_t written[1];
    must(homralgyu_desk_take(message->bytes, message->size, job->desk[HOMRALGYU_DESK_SECOND] + seconds, then.desk, HOMRALGYU_DESK,
                             then.live, sizeof then.live, then.run, sizeof then.run, then.log, sizeof then.log, written, 1),
         "desk_take");
    printf("%u seconds later:\n", seconds);
    read_log(then.log, written[0]);
}

/* A message that opens a run: a second before the gap by the book, at the gap without one. */
static void tell_gap(const struct job *job)
{
    const uint64_t bare[] = {0, 3, 0, 0, 5, 9, 0, 0};
    struct input message = {.size = 0};
    add(&message, HPAC, SOLUTION, 10, bare, sizeof bare / sizeof *bare);
    printf("last accepted at second %u\n", (unsigned)job->desk[HOMRALGYU_DESK_SECOND]);
    tell_later(job, &message, OUTAGE - 1);
    tell_later(job, &message, OUTAGE);
}

/* The three numbers of a book. */
static void tell_book(const char *what, const uint64_t *book)
{
    printf("%s: AIOU %u, SIOU ", what, (unsigned)book[HOMRALGYU_BOOK_AIOU]);
    if (book[HOMRALGYU_BOOK_SIOU_PLUS_ONE] == 0)
        printf("unknown");
    else
        printf("%u", (unsigned)book[HOMRALGYU_BOOK_SIOU_PLUS_ONE] - 1);
    printf(", areas %u\n", (unsigned)book[HOMRALGYU_BOOK_AREAS]);
}

/* A frame at the second of the last accepted one, and the entries that it adds. */
static void take(struct job *job, const struct input *frame)
{
    uint64_t written[1];
    must(homralgyu_desk_take(frame->bytes, frame->size, job->desk[HOMRALGYU_DESK_SECOND], job->desk, HOMRALGYU_DESK, job->live,
                             sizeof job->live, job->run, sizeof job->run, job->log, sizeof job->log, written, 1),
         "desk_take");
    read_log(job->log, written[0]);
}

/* Area 5 as in make_input, defined by a GAD with this SIOU. */
static void take_definition(struct job *job, uint64_t siou)
{
    const uint64_t gad[] = {siou, 3, 0, 0, 5, 900, 0, 1, 0, 0, 0};
    struct input frame = {.size = 0};
    add(&frame, GAD, SOLUTION, 0, gad, sizeof gad / sizeof *gad);
    take(job, &frame);
}

/* A message for area 5 with this SIOU and tag. */
static void take_message(struct job *job, uint64_t siou, uint64_t tag)
{
    const uint64_t bare[] = {siou, 3, 0, 0, 5, 9, 0, 0};
    struct input frame = {.size = 0};
    add(&frame, HPAC, SOLUTION, tag, bare, sizeof bare / sizeof *bare);
    printf("a message of SIOU %u, tag %u:\n", (unsigned)siou, (unsigned)tag);
    take(job, &frame);
}

/* On a copy of this desk, whose run of tag 9 is open with SIOU 0: the provider restarts its solver, keeps its AIOU and bumps its SIOU. No area is
 * joined with residuals of another solution: in the open run those of the new one are left out, for reason 5, in the next one those of the old. */
static void tell_restart(const struct job *job)
{
    struct job then = *job;
    take_definition(&then, 299);
    tell_book("the live book", &then.desk[HOMRALGYU_DESK_AIOU]);
    tell_book("the run's book", &then.desk[HOMRALGYU_DESK_RUN_AIOU]);
    take_message(&then, 299, 9);
    take_message(&then, 0, 9);
    take_message(&then, 299, 10);
    take_message(&then, 0, 10);
}

/* A kept book, taken in by a desk. */
static void take_kept(struct job *to, const uint8_t *kept, size_t size)
{
    uint8_t bytes[HOMRALGYU_BOOK_BYTES];
    uint64_t book[HOMRALGYU_BOOK];
    print_bytes("kept", kept, size);
    must(homralgyu_kept_read(kept, size, book, HOMRALGYU_BOOK, bytes, sizeof bytes), "kept_read");
    tell_book("read", book);
    must(homralgyu_desk_take_book(to->desk, HOMRALGYU_DESK, to->live, sizeof to->live, to->run, sizeof to->run, book, HOMRALGYU_BOOK,
                                  bytes, sizeof bytes),
         "desk_take_book");
}

/* The live book of one desk, kept, and taken in by another. */
static void hand_over(const struct job *from, struct job *to)
{
    uint8_t kept[HOMRALGYU_KEPT_ROOM];
    uint64_t written[1];
    must(homralgyu_kept_write(&from->desk[HOMRALGYU_DESK_AIOU], HOMRALGYU_BOOK, from->live, sizeof from->live, kept, sizeof kept,
                              written, 1),
         "kept_write");
    take_kept(to, kept, written[0]);
}

/* The same book as an older version kept it, in form 1, which has no SIOU: no area of it is ever placed. */
static void take_older(struct job *to)
{
    const uint8_t kept[] = {0x01, 0x04, 0x01, 0x80, 0xC0, 0x80, 0x80, 0x84, 0x57};
    take_kept(to, kept, sizeof kept);
    take_message(to, 0, 9);
    take_definition(to, 0);
    take_message(to, 0, 10);
}

/* An area of a GAD in degrees, and a satellite with an orbit block and its yaw. */
static void look(void)
{
    const uint64_t gad[] = {0, 3, 0, 0, 5, 900, 0, 1, 0, 0, 0};
    const uint64_t ocb[] = {0, 0, 0, 1, 0, 0, 0, (uint64_t)1 << 31, 0, 4, 0, 9, 0, 8191, 16382, 59};
    uint64_t area[3], satellite[HOMRALGYU_SATELLITE];
    double degrees[4], floats[HOMRALGYU_SATELLITE_FLOATS];
    must(homralgyu_gad_area(5, gad, sizeof gad / sizeof *gad, area, 3, degrees, 4), "gad_area");
    printf("area 5: %u x %u nodes from %+.1f %+.1f every %.1f x %.1f degrees\n", (unsigned)area[1], (unsigned)area[2], degrees[0],
           degrees[1], degrees[2], degrees[3]);
    must(homralgyu_satellite_at(GPS, ocb, sizeof ocb / sizeof *ocb, 0, satellite, HOMRALGYU_SATELLITE, floats,
                                HOMRALGYU_SATELLITE_FLOATS),
         "satellite_at");
    printf("satellite %u: %+.3f %+.3f %+.3f metres, yaw %.0f degrees\n", (unsigned)satellite[HOMRALGYU_SATELLITE_NUMBER],
           floats[HOMRALGYU_SATELLITE_RADIAL], floats[HOMRALGYU_SATELLITE_ALONG_TRACK], floats[HOMRALGYU_SATELLITE_CROSS_TRACK],
           floats[HOMRALGYU_SATELLITE_YAW_ANGLE]);
}

/* Where a sheet is at fault: SF040, at the entry 6, is 0 to 2; GPS has one ephemeris type, 0, and document 000 marks the others TBD. */
static void look_wrong(void)
{
    const uint64_t hpac[] = {0, 3, 0, 0, 5, 9, 3, 0};
    const uint64_t ocb[] = {0, 0, 0, 0, 0, 2, 0, (uint64_t)1 << 31, 1};
    uint64_t area[5], counts[2];
    uint64_t answer = homralgyu_hpac_area(GPS, 5, hpac, sizeof hpac / sizeof *hpac, area, 5);
    printf("SF040 of 3: ");
    tell_answer(homralgyu_number(answer), homralgyu_sf(answer), "entry", homralgyu_place(answer));
    answer = homralgyu_sheet_judge(0, GPS, ocb, sizeof ocb / sizeof *ocb, counts, 2);
    printf("ephemeris type 2: ");
    tell_answer(homralgyu_number(answer), homralgyu_sf(answer), "entry", homralgyu_place(answer));
}

int main(void)
{
    static struct job stream, job, next, last; /* zeros: a tray has to start so */
    static struct input input;
    make_input(&input);
    listen(&stream, &input);
    printf("a desk for constellation 5: %u\n", homralgyu_desk_new(SOLUTION, PROCESSOR, 5, job.desk, HOMRALGYU_DESK));
    must(homralgyu_desk_new(SOLUTION, PROCESSOR, GPS, job.desk, HOMRALGYU_DESK), "desk_new");
    must(homralgyu_desk_new(SOLUTION, PROCESSOR, GPS, next.desk, HOMRALGYU_DESK), "desk_new");
    must(homralgyu_desk_new(SOLUTION, PROCESSOR, GPS, last.desk, HOMRALGYU_DESK), "desk_new");
    prepare(&job, &input);
    find(&job, 5);
    find(&job, 6);
    tell_gap(&job);
    tell_restart(&job);
    hand_over(&job, &next);
    find(&next, 5);
    take_older(&last);
    look();
    look_wrong();
    return 0;
}
