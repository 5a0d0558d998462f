/* The correction preparation desk for C.
 *
 * Each call answers with document 01's number: 0 OK, 1 SHORT, 2 PREAMBLE, 3 FRAME_CRC, 4 LENGTH, 5 MESSAGE_CRC, 6 UNKNOWN_TYPE,
 * 7 MASK_EMPTY, 8 FIELD, 9 ROOM, 10 SEALED, 11 TAG, 12 NOT_OURS, 13 AREA_OFF, 14 CONFLICT, 15 BOOK_FULL, 16 LEFTOVER, 17 STATE, 18 FORM.
 * A call that returns a uint64_t also says where a payload or a sheet is at fault: it answers number + 2^8 * SF number + 2^32 * place. The
 * place is where the entry of that field begins, for SHORT where it would begin: a bit of the payload or an entry of the sheet, as the call
 * says, counted from 0. SHORT, FIELD and MASK_EMPTY carry a place where a payload or a sheet is refused by them. All other refusals carry
 * none, nor do the SHORT of a frame and the FIELD of an argument: SF number and place are 0 then, as in OK, and the answer is the number
 * alone. So 0 is OK. Do not compare such an answer with another number, nor keep it in an int: ask homralgyu_number(answer) == 8 for FIELD.
 * Bit b of a payload is payload[b / 8] & (0x80 >> b % 8), and in a frame the payload begins at byte header[HOMRALGYU_PAYLOAD_AT]; of SHORT, b may
 * be 8 * payload_len, where no bit lies. SHORT names the field that no longer fits, which need not be the wrong one: the cause may be a count, a
 * size or a mask before it. FIELD names the first code that cannot be. Ephemeris types that document 000 marks TBD are such codes: GPS and
 * GLONASS 1 to 3, Galileo and QZSS 3 to 7, BeiDou 6 to 15; bit 13 of the payload, entry 5 of the sheet, whatever comes behind it.
 *
 * A slice is lent as a pointer and a count of its elements. What a caller in C must keep, since no call can test it:
 *   - the pointer is not null, even for 0 elements, and is aligned for its elements;
 *   - so many elements with values lie there, and no other thread writes to them, or reads those that the call may write, while the call runs;
 *   - two slices of a call do not overlap if the call may write to one of them.
 * Everything else is tested, except what the seconds mean that a desk is handed (see "Seconds" below): there is no other way to call these functions
 * wrongly.
 *
 * A call writes inside the slices that it may write to and nowhere else. A slice under its stated size is ROOM, unless the call says
 * otherwise; a longer one is fine, its surplus is neither read nor written. A refusal (an answer other than 0) changes nothing. On
 * success, elements behind what is written stay as lent. No call keeps a pointer, takes memory or reads anything but its arguments (no crate
 * below these takes memory or calls the C library).
 *
 * That each call does what is said of it below is proved, for all arguments (specs/ of crates/export, crates/exportviews, crates/exportdesk,
 * crates/exportprepare and crates/exportentries).
 */
#ifndef HOMRALGYU_H
#define HOMRALGYU_H

#include <stddef.h>
#include <stdint.h>

#ifdef __cplusplus
extern "C" {
#endif

/* The sizes of document 01 that a caller lends by: bytes, and entries of a sheet. */
#define HOMRALGYU_LONGEST_PAYLOAD 1023
#define HOMRALGYU_LONGEST_FRAME 1103 /* also a tray */
#define HOMRALGYU_SHEET_ROOM 8184
#define HOMRALGYU_BOOK_BYTES 192
#define HOMRALGYU_KEPT_ROOM 229
#define HOMRALGYU_LOG_ROOM 4096

/* An answer of 64 bits, taken apart: document 01's number; the number of the field at fault, 20 for SF020, or 0 if there is no place; and
 * the place, a bit of the payload or an entry of the sheet. The field is the one in use, as SF096 for Galileo's ephemeris type, and SF069 for
 * the reserved bit. The size and the bits of a mask are two entries of one field, and each group of SF079 is an entry. An entry over 2^32 - 1,
 * which no layout has, would be told as that. */
static inline uint8_t homralgyu_number(uint64_t answer)
{
    return (uint8_t)(answer & 0xFF);
}

static inline uint32_t homralgyu_sf(uint64_t answer)
{
    return (uint32_t)((answer >> 8) & 0xFFFFFF);
}

static inline uint32_t homralgyu_place(uint64_t answer)
{
    return (uint32_t)(answer >> 32);
}

/* A header: fifteen numbers. */
enum homralgyu_header {
    HOMRALGYU_LENGTH,                /* bytes of the whole frame */
    HOMRALGYU_TYPE,                  /* TF002 */
    HOMRALGYU_PAYLOAD_LENGTH,        /* TF003 */
    HOMRALGYU_SEALED,                /* TF004 */
    HOMRALGYU_CHECK_TYPE,            /* TF005 */
    HOMRALGYU_SUBTYPE,               /* TF007 */
    HOMRALGYU_TAG_KIND,              /* TF008 */
    HOMRALGYU_TAG,                   /* TF009 */
    HOMRALGYU_SOLUTION,              /* TF010 */
    HOMRALGYU_PROCESSOR,             /* TF011 */
    HOMRALGYU_ENCRYPTION,            /* TF012, 0 in a plain frame, as the three below */
    HOMRALGYU_SEQUENCE,              /* TF013 */
    HOMRALGYU_AUTHENTICATION,        /* TF014 */
    HOMRALGYU_AUTHENTICATION_LENGTH, /* TF015 */
    HOMRALGYU_PAYLOAD_AT,            /* bytes before the payload */
    HOMRALGYU_HEADER                 /* the room that a header wants: 15 */
};

/* Checks the frame that lies first in the bytes; bytes behind it are not looked at.
 * Refusals in order: ROOM (header, 15), SHORT if there is no byte, PREAMBLE, SHORT, FRAME_CRC, LENGTH for TF003, SHORT for the
 * description, LENGTH for TF015, SHORT, MESSAGE_CRC.
 * Writes the header of an accepted frame; its payload is the HOMRALGYU_PAYLOAD_LENGTH bytes from HOMRALGYU_PAYLOAD_AT on. */
uint8_t homralgyu_frame_check(const uint8_t *bytes, size_t bytes_len, uint64_t *header, size_t header_len);

/* Writes a plain frame from TF002, TF005, TF007 to TF011 and its payload. It does not look into the payload.
 * Refusals in order: ROOM (size, 1; out, 1,103), FIELD for a part outside its range, LENGTH (payload of 0 or over 1,023 bytes).
 * Writes the frame into out, and its length in bytes into size. */
uint8_t homralgyu_frame_write(uint8_t message_type, uint8_t check_type, uint8_t subtype, uint8_t tag_kind, uint64_t tag,
                              uint8_t solution, uint8_t processor, const uint8_t *payload, size_t payload_len, uint8_t *out,
                              size_t out_len, uint64_t *size, size_t size_len);

/* Judges a payload of a type (TF002) and subtype (TF007) as homralgyu_payload_read does, and stores no sheet.
 * Refusals in order: ROOM (counts, 2), UNKNOWN_TYPE, LENGTH, then the first fault in reading order: SHORT, FIELD or MASK_EMPTY, with SF number
 * and bit of the payload.
 * Writes the bits of the message and its entries into counts. */
uint64_t homralgyu_payload_judge(uint8_t kind, uint8_t subtype, const uint8_t *payload, size_t payload_len, uint64_t *counts,
                                 size_t counts_len);

/* Reads a payload into a sheet, one code an entry in reading order.
 * Refusals in order: ROOM (counts, 2; sheet, 8,184), UNKNOWN_TYPE, LENGTH, then the first fault in reading order: SHORT, FIELD or MASK_EMPTY,
 * with SF number and bit of the payload.
 * Writes the entries into the sheet, and the bits read and the entries written into counts. */
uint64_t homralgyu_payload_read(uint8_t kind, uint8_t subtype, const uint8_t *payload, size_t payload_len, uint64_t *sheet,
                                size_t sheet_len, uint64_t *counts, size_t counts_len);

/* Judges a sheet as homralgyu_sheet_write does, and writes no payload.
 * Refusals in order: ROOM (counts, 2), UNKNOWN_TYPE, the first fault (SHORT, FIELD or MASK_EMPTY, with SF number and entry of the sheet),
 * LEFTOVER, LENGTH. For SHORT the entry is the count of those that are lent, and the field the one that is missing there.
 * Writes the bits and the bytes of the payload into counts. */
uint64_t homralgyu_sheet_judge(uint8_t kind, uint8_t subtype, const uint64_t *sheet, size_t sheet_len, uint64_t *counts,
                               size_t counts_len);

/* Writes a sheet as a payload; the sheet is all its entries. The last byte is filled with zeros.
 * Refusals in order: ROOM (counts, 2; out, 1,023), UNKNOWN_TYPE, the first fault (SHORT, FIELD or MASK_EMPTY, with SF number and entry of the
 * sheet), LEFTOVER, LENGTH.
 * Writes the payload into out, and its bits and bytes into counts. */
uint64_t homralgyu_sheet_write(uint8_t kind, uint8_t subtype, const uint64_t *sheet, size_t sheet_len, uint8_t *out, size_t out_len,
                               uint64_t *counts, size_t counts_len);

/* A tray is 1,103 bytes and three numbers: bytes held, length of the frame last shown, noise not yet told. At the start of a stream all
 * of it is 0.
 *
 * homralgyu_stream_call takes input until an event is due or all of it is used; homralgyu_stream_finish is called at the stream's end until
 * it says done. Both first drop the frame last shown.
 * Refusals in order: ROOM (tray, 3; told, 3; header, 15; bytes, 1,103), STATE (the tray is not sound).
 * Writes the tray, its bytes, and into told: the event (0 hungry, 1 frame, 2 noise, 3 done), how many bytes of the input were used, the count
 * of noise that is told. Of a frame, which then lies first in the tray's bytes, it writes the header. */
uint8_t homralgyu_stream_call(uint8_t *bytes, size_t bytes_len, uint64_t *tray, size_t tray_len, const uint8_t *input,
                              size_t input_len, uint64_t *told, size_t told_len, uint64_t *header, size_t header_len);

uint8_t homralgyu_stream_finish(uint8_t *bytes, size_t bytes_len, uint64_t *tray, size_t tray_len, uint64_t *told, size_t told_len,
                                uint64_t *header, size_t header_len);

/* A book is three numbers and 192 bytes, six an area. The first two are those of the GAD that filled it. Without areas it has neither: neither
 * number counts, and both are written as 0. With areas, an AIOU over 15 or a SIOU + 1 over 512 is STATE. */
enum homralgyu_book {
    HOMRALGYU_BOOK_AIOU,          /* SF068, 0 to 15 */
    HOMRALGYU_BOOK_SIOU_PLUS_ONE, /* SF005 + 1, 1 to 512; or 0, the SIOU is unknown */
    HOMRALGYU_BOOK_AREAS,         /* their count, 0 to 32 */
    HOMRALGYU_BOOK                /* the room that the numbers want: 3 */
};

/* Takes the payload of a GAD into the book, whole or not at all. A GAD with another AIOU or another SIOU than the book's begins a new book, one with
 * both the same adds to it. Over a book of unknown SIOU every SIOU is another.
 * Refusals in order: ROOM (book, 3; bytes, 192), STATE (the book is not sound), LENGTH, the payload's first fault (SHORT or FIELD, with SF
 * number and bit of the payload), then at the first faulty block AREA_OFF, CONFLICT, BOOK_FULL, without a place.
 * Writes the book's numbers, and six bytes an area. */
uint64_t homralgyu_book_take(uint64_t *book, size_t book_len, uint8_t *bytes, size_t bytes_len, const uint8_t *payload,
                             size_t payload_len);

/* Writes a book as a kept book, of form 2.
 * Refusals in order: ROOM (book, 3; written, 1; bytes, 192; out, 229), STATE (the book is not sound).
 * Writes the kept book into out, and how many bytes it has into written. */
uint8_t homralgyu_kept_write(const uint64_t *book, size_t book_len, const uint8_t *bytes, size_t bytes_len, uint8_t *out,
                             size_t out_len, uint64_t *written, size_t written_len);

/* Reads a kept book, of form 1 or 2. One of form 1, which has no SIOU, is a book of unknown SIOU.
 * Refusals in order: ROOM (book, 3; bytes, 192), the first fault in reading order, SHORT or FORM, then LEFTOVER.
 * Writes the book's numbers, and six bytes an area. */
uint8_t homralgyu_kept_read(const uint8_t *kept, size_t kept_len, uint64_t *book, size_t book_len, uint8_t *bytes, size_t bytes_len);

/* What a code of a field means; sf is the field's number, 20 for SF020.
 * Refusals in order: ROOM (what, 2; value, 1), FIELD (the field has no value, or does not take the code).
 * Writes into what the unit (0 invalid, 1 metres, 2 degrees, 3 TECU, 4 a coefficient, 5 a count) and the count, or 0; and the value in its
 * unit, if it is neither a count nor invalid. Residuals (SF052, 053, 064 to 067, 082, 083), the yaw (SF021) and counts are among them. */
uint8_t homralgyu_value(uint16_t sf, uint64_t code, uint64_t *what, size_t what_len, double *value, size_t value_len);

/* The three orbit corrections of three codes of SF020.
 * Refusals in order: ROOM (orbit, 3), FIELD.
 * Writes them in metres: radial, along-track, cross-track. */
uint8_t homralgyu_orbit(uint64_t radial, uint64_t along_track, uint64_t cross_track, double *orbit, size_t orbit_len);

/* Views of a sheet, which is all its entries. The sheet is judged first, as homralgyu_sheet_write does.
 *
 * A satellite of an OCB sheet of a subtype, by its place in the mask's order from 0 on: fourteen numbers and five floats. */
enum homralgyu_satellite {
    HOMRALGYU_SATELLITE_NUMBER,
    HOMRALGYU_SATELLITE_IN_USE,           /* 0 out of use: nothing more is written; 1 in use */
    HOMRALGYU_SATELLITE_CONTINUITY,       /* SF015 */
    HOMRALGYU_SATELLITE_ORBIT,            /* 1 if it has an orbit block, else 0; what a block that is not there would say is written as 0 */
    HOMRALGYU_SATELLITE_IODE,
    HOMRALGYU_SATELLITE_YAW,              /* 0 invalid, 2 degrees, 6 absent */
    HOMRALGYU_SATELLITE_CLOCK,            /* 1 if it has a clock block, else 0 */
    HOMRALGYU_SATELLITE_CLOCK_CONTINUITY, /* SF022 */
    HOMRALGYU_SATELLITE_CLOCK_ERROR,      /* SF024 */
    HOMRALGYU_SATELLITE_BIASES,           /* 1 if it has a bias block, else 0 */
    HOMRALGYU_SATELLITE_PHASES_AT,        /* the sheet's entry of the first phase bias, three entries each; size and bits of their mask lie before it */
    HOMRALGYU_SATELLITE_PHASES,           /* how many there are */
    HOMRALGYU_SATELLITE_CODES_AT,         /* the same of the code biases, one entry each */
    HOMRALGYU_SATELLITE_CODES,
    HOMRALGYU_SATELLITE                   /* the room that the numbers want: 14 */
};

enum homralgyu_satellite_floats {
    HOMRALGYU_SATELLITE_RADIAL, /* metres, as the two below */
    HOMRALGYU_SATELLITE_ALONG_TRACK,
    HOMRALGYU_SATELLITE_CROSS_TRACK,
    HOMRALGYU_SATELLITE_YAW_ANGLE,        /* degrees, 0 if absent or invalid */
    HOMRALGYU_SATELLITE_CLOCK_CORRECTION, /* metres */
    HOMRALGYU_SATELLITE_FLOATS            /* the room that the floats want: 5 */
};

/* Refusals in order: ROOM (view, 14; floats, 5), UNKNOWN_TYPE, the first fault (SHORT, FIELD or MASK_EMPTY, with SF number and entry of the
 * sheet), LEFTOVER, LENGTH, FIELD with SF number 0 for a place past the last satellite.
 * Writes the numbers into view, and the floats of a satellite in use. */
uint64_t homralgyu_satellite_at(uint8_t subtype, const uint64_t *sheet, size_t sheet_len, uint64_t place, uint64_t *view, size_t view_len,
                                double *floats, size_t floats_len);

/* The first block of an area, by its ID, in a GAD sheet.
 * Refusals in order: ROOM (view, 3; floats, 4), the first fault (SHORT or FIELD, with SF number and entry of the sheet), LEFTOVER, LENGTH.
 * Writes into view 1 and the counts of nodes, SF034 and SF035; and into floats the reference corner's latitude and longitude and the spacings of
 * latitude and longitude, in degrees. That no block has the ID is no refusal: 0 is written into view, and nothing more. */
uint64_t homralgyu_gad_area(uint8_t id, const uint64_t *sheet, size_t sheet_len, uint64_t *view, size_t view_len, double *floats,
                            size_t floats_len);

/* The same in an HPAC sheet of a subtype.
 * Refusals in order: ROOM (view, 5), UNKNOWN_TYPE, the first fault (SHORT, FIELD or MASK_EMPTY, with SF number and entry of the sheet), LEFTOVER,
 * LENGTH.
 * Writes into view 1, the sheet's entry at which the block starts, SF039, and SF040 of the troposphere and of the ionosphere; or 0. */
uint64_t homralgyu_hpac_area(uint8_t subtype, uint8_t id, const uint64_t *sheet, size_t sheet_len, uint64_t *view, size_t view_len);

/* The same in a BPAC sheet, by a BPAC area ID, 0 to 3.
 * Refusals in order: ROOM (view, 4; floats, 5), the first fault (SHORT or FIELD, with SF number and entry of the sheet), LEFTOVER, LENGTH, FIELD
 * with SF number 0 for an ID over 3.
 * Writes into view 1, the sheet's entry at which the block starts, and the counts of nodes, SF075 and SF076; and into floats the reference corner's
 * latitude and longitude and the spacings of latitude and longitude, in degrees, and the average VTEC in TECU; or 0 into view. */
uint64_t homralgyu_bpac_area(uint8_t id, const uint64_t *sheet, size_t sheet_len, uint64_t *view, size_t view_len, double *floats,
                             size_t floats_len);

/* A desk is thirteen numbers and the bytes of two books, 192 each: the live book's and the run's. The three numbers of a book stand together as enum
 * homralgyu_book has them: &desk[HOMRALGYU_DESK_AIOU] is the live book to be kept. */
enum homralgyu_desk {
    HOMRALGYU_DESK_SOLUTION,      /* TF010, 0 to 127 */
    HOMRALGYU_DESK_PROCESSOR,     /* TF011, 0 to 15 */
    HOMRALGYU_DESK_CONSTELLATION, /* 0 GPS, 1 GLONASS, 2 Galileo, 3 BeiDou, 4 QZSS */
    HOMRALGYU_DESK_AIOU,          /* of the live book, as the two below; without areas AIOU and SIOU + 1 do not count and are written as 0 */
    HOMRALGYU_DESK_SIOU_PLUS_ONE, /* 0 if it is unknown */
    HOMRALGYU_DESK_AREAS,         /* their count */
    HOMRALGYU_DESK_OPEN,          /* 1 if a run is open, 0 if none is */
    HOMRALGYU_DESK_TAG,           /* of the open run; the three below are its book's. Without one all four do not count and are written as 0 */
    HOMRALGYU_DESK_RUN_AIOU,      /* as of the live book */
    HOMRALGYU_DESK_RUN_SIOU_PLUS_ONE,
    HOMRALGYU_DESK_RUN_AREAS,
    HOMRALGYU_DESK_DATED,         /* 1 if some frame was accepted, 0 if none was yet */
    HOMRALGYU_DESK_SECOND,        /* of the last accepted frame, any; without one it does not count and is written as 0 */
    HOMRALGYU_DESK                /* the room that a desk wants: 13 */
};

/* Seconds. Each frame is handed to a desk with the second it came in: a running count of seconds that the caller keeps, as of a clock that nobody
 * sets and that goes on while the machine sleeps (on Linux CLOCK_BOOTTIME; CLOCK_MONOTONIC stands still then), and no second of the day. Any
 * 64-bit number will do. A frame that the desk answers with 0 is accepted, and its second is kept; a refused one, NOT_OURS too, moves none. A
 * second earlier than the last accepted frame's counts as that one, so the second kept never falls. Before the first accepted frame no time
 * counts as passed.
 * A gap: if 450 seconds or more have passed since the last accepted frame (SF068), this one is judged and handled with an empty live book. If it
 * is accepted, the old book is gone: a GAD leaves its own areas, AIOU and SIOU, an HPAC message no area, no AIOU and an unknown SIOU. If it is
 * refused, the old book stays. An open run keeps its copy.
 * What the caller has to see to, since no call can:
 *   - the same count goes on for as long as a desk is in use. On one that is kept over a restart of the machine or handed to another, where the
 *     count has another start, no gap is seen until the new count has caught up with the old one; where it is 450 or more ahead, a gap is seen
 *     at once. A clock that stands still while the machine sleeps does not count that time;
 *   - a second that is too far ahead, once, is kept if its frame is accepted: later ones count as it, and no gap is seen until the count has
 *     caught up with it, which may be never;
 *   - every accepted frame counts, HPAC too: while HPAC messages alone keep coming, a live book is used however long ago its GAD came;
 *   - homralgyu_prepare_call and homralgyu_prepare_finish hand a frame over with the second of the call that tells it. Behind bytes that look like
 *     the start of a longer frame that may be a later call than the one that brought its last byte; behind a stall it counts as come after the gap;
 *   - lookup and keeping get no second: after a gap they show the old book until a frame is accepted;
 *   - a kept book that is taken before any accepted frame is used however old it is, for messages of its AIOU and SIOU; one that is taken later
 *     counts as old as the last accepted frame: if the next accepted one comes 450 seconds or more after that, the book is emptied, however new it
 *     is;
 *   - the copy of an open run has no second: a message of its tag is told by it after any outage, also one of 510 seconds, after which SF005 has
 *     the solution taken as changed, and one of twelve hours, after which the tag comes round;
 *   - a book that an older version kept (form 1) has an unknown SIOU: it is looked up as ever, but no area of it is ever placed, and the next GAD that
 *     is taken begins a new one;
 *   - a book places by its own SIOU alone. Where the SIOU of HPAC messages moves on, none of their areas is placed until a GAD of the new SIOU has
 *     come and after it a run has opened. */

/* A new desk, without a book, a run and a last accepted frame; its books' bytes may be anything.
 * Refusals in order: ROOM (desk, 13), FIELD (solution over 127, processor over 15, constellation over 4).
 * Writes the desk. */
uint8_t homralgyu_desk_new(uint8_t solution, uint8_t processor, uint8_t constellation, uint64_t *desk, size_t desk_len);

/* Whether a desk and its two books are sound: 0 if they are.
 * Refusals in order: ROOM (desk, 13; live, 192; run, 192), STATE (a number out of its range, an unsound live book, or, if a run is open, an
 * unsound book of the run). */
uint8_t homralgyu_desk_is_sound(const uint64_t *desk, size_t desk_len, const uint8_t *live, size_t live_len, const uint8_t *run,
                                size_t run_len);

/* Takes a frame that came in at this second: a GAD into the live book; an HPAC message into the run log by the run's book, after opening a run if
 * its tag is another; after a gap with an empty live book.
 * Refusals in order: ROOM (desk, 13; written, 1; live, 192; run, 192; log, 4,096), STATE (the desk is not sound), those of homralgyu_frame_check,
 * NOT_OURS, SEALED, the payload's first fault (SHORT, FIELD or MASK_EMPTY, with SF number and bit of the frame's payload, counted from its first
 * bit), then for HPAC TAG, for GAD AREA_OFF, CONFLICT, BOOK_FULL, without a place. SHORT with SF number 0 is the frame's own.
 * Writes the desk, of both books bytes of areas that they hold, the entries of the run log into log, and how many bytes they have into written. */
uint64_t homralgyu_desk_take(const uint8_t *frame, size_t frame_len, uint64_t second, uint64_t *desk, size_t desk_len, uint8_t *live,
                             size_t live_len, uint8_t *run, size_t run_len, uint8_t *log, size_t log_len, uint64_t *written,
                             size_t written_len);

/* Takes a book (three numbers and its bytes, as homralgyu_kept_read gives them) as the live book. An open run stays as it is, and so does the
 * second of the last accepted frame.
 * Refusals in order: ROOM (desk, 13; book, 3; bytes, 192; live, 192; run, 192), STATE (the desk or the book is not sound).
 * Writes the desk, and six bytes an area into live. */
uint8_t homralgyu_desk_take_book(uint64_t *desk, size_t desk_len, uint8_t *live, size_t live_len, const uint8_t *run, size_t run_len,
                                 const uint64_t *book, size_t book_len, const uint8_t *bytes, size_t bytes_len);

/* Looks an area up by its ID: out of the run's book if a run is open, else out of the live book.
 * Refusals: ROOM (area, 6; found, 1).
 * Writes the area's six bytes into area, and 6 into found. An absent ID, a desk under thirteen numbers, a book under 192 bytes, and a desk or book
 * that is not sound are no refusals: 0 is written into found, and nothing into area. */
uint8_t homralgyu_desk_find(const uint64_t *desk, size_t desk_len, const uint8_t *live, size_t live_len, const uint8_t *run,
                            size_t run_len, uint8_t id, uint8_t *area, size_t area_len, uint64_t *found, size_t found_len);

/* The same in one book, of three numbers and its bytes. */
uint8_t homralgyu_book_find(const uint64_t *book, size_t book_len, const uint8_t *bytes, size_t bytes_len, uint8_t id, uint8_t *area,
                            size_t area_len, uint64_t *found, size_t found_len);

/* Stream and desk together: what is told is seven numbers. */
enum homralgyu_told {
    HOMRALGYU_TOLD_EVENT,  /* 0 hungry, 1 frame, 2 noise, 3 done */
    HOMRALGYU_TOLD_USED,   /* bytes of the input used */
    HOMRALGYU_TOLD_NOISE,  /* the count of noise that is told, else 0 */
    HOMRALGYU_TOLD_NUMBER, /* of a frame the desk's answer: 0, or the number of its refusal; else 0 */
    HOMRALGYU_TOLD_LOG,    /* bytes of the log written */
    HOMRALGYU_TOLD_SF,     /* of a frame that the desk refuses with a place: the SF number; else 0 */
    HOMRALGYU_TOLD_BIT,    /* and the bit of the frame's payload; else 0 */
    HOMRALGYU_TOLD         /* the room that it wants: 7 */
};

/* homralgyu_prepare_call takes input until an event is due or all of it is used, and gives a frame to the desk, with this second;
 * homralgyu_prepare_finish is called at the stream's end until it says done. Tray and its bytes are those of homralgyu_stream_call, desk and
 * the bytes of its two books, live and run, those of homralgyu_desk_take.
 * Refusals in order: ROOM (tray, 3; desk, 13; told, 7; header, 15; bytes, 1,103; live, 192; run, 192; log, 4,096), STATE (the tray or
 * the desk is not sound). A frame that the desk refuses is an event like another, with the refusal's number and place in told, as
 * homralgyu_desk_take has them; books and log stay.
 * Writes the tray and its bytes, the desk and its books, told, and the frame's entries of the run log from the log's start on. Of a
 * frame, accepted or refused by the desk, which then lies first in the tray's bytes, it writes the header. */
uint8_t homralgyu_prepare_call(uint8_t *bytes, size_t bytes_len, uint64_t *tray, size_t tray_len, uint64_t *desk, size_t desk_len,
                               uint8_t *live, size_t live_len, uint8_t *run, size_t run_len, uint8_t *log, size_t log_len,
                               const uint8_t *input, size_t input_len, uint64_t second, uint64_t *told, size_t told_len,
                               uint64_t *header, size_t header_len);

uint8_t homralgyu_prepare_finish(uint8_t *bytes, size_t bytes_len, uint64_t *tray, size_t tray_len, uint64_t *desk, size_t desk_len,
                                 uint8_t *live, size_t live_len, uint8_t *run, size_t run_len, uint8_t *log, size_t log_len,
                                 uint64_t second, uint64_t *told, size_t told_len, uint64_t *header, size_t header_len);

/* The run log, read: an entry is up to eight numbers. */
enum homralgyu_entry {
    HOMRALGYU_ENTRY_KIND,          /* 1 run opened, 2 area placed, 3 area left out */
    HOMRALGYU_ENTRY_USED,          /* bytes that the entry takes */
    HOMRALGYU_ENTRY_TAG,           /* of a run: its tag, */
    HOMRALGYU_ENTRY_AIOU_PLUS_ONE, /* AIOU + 1, 0 without a book, */
    HOMRALGYU_ENTRY_COUNT,         /* the count of areas in its book; nothing more is written */
    HOMRALGYU_ENTRY_ID = 2,        /* of an area: its ID, */
    HOMRALGYU_ENTRY_REASON,        /* if it is left out the reason, 1 to 5 as below, and nothing more is written; */
    HOMRALGYU_ENTRY_BITS = 3,      /* if it is placed the 47 bits as a number, which lie as below, */
    HOMRALGYU_ENTRY_T,             /* T, how many troposphere residuals it has, */
    HOMRALGYU_ENTRY_T_SIZE,        /* their SF051 code, 0 if T is 0, */
    HOMRALGYU_ENTRY_S,             /* S, how many satellites it has, */
    HOMRALGYU_ENTRY_NODES,         /* how many nodes its grid has: every satellite has one residual a node, also where T is 0 */
    HOMRALGYU_ENTRY                /* the room that an entry wants: 8 */
};

/* The reasons for which an area is left out, the first that applies of 1 the run has no book, 2 the message has another AIOU than the run's book, 5 it
 * has another SIOU, or that of the book is unknown, 3 the ID is not in that book, 4 SF039 differs from the area's count of nodes. An entry of a run
 * does not tell the SIOU.
 *
 * The 47 bits are SF031 (8 bits), SF032 (11), SF033 (12), SF034 (3), SF035 (3), SF036 (5) and SF037 (5), the first highest: SF037 is
 * bits % 32, SF036 bits / 32 % 32. homralgyu_value gives degrees for SF032, SF033, SF036 and SF037 (latitude and longitude of the reference
 * corner, then their spacings), and for SF034 and SF035 the counts of nodes in latitude and in longitude. */

/* Reads the entry that the bytes begin with; bytes behind it are not looked at.
 * Refusals in order: ROOM (entry, 8), then at the first faulty number in reading order SHORT or FORM.
 * Writes the entry: five, eight or four numbers, by its kind.
 * SHORT bytes may become an entry when more bytes come behind them, so a display waits for more; bytes that are FORM never will. An entry has
 * at most 8,525 bytes: if so many are SHORT, no further byte makes them one. */
uint8_t homralgyu_entry_read(const uint8_t *bytes, size_t bytes_len, uint64_t *entry, size_t entry_len);

/* The troposphere residual of that entry at a node, from 0 on.
 * Refusals in order: ROOM (what, 2; value, 1), SHORT or FORM as above, FIELD if the entry has no such residual.
 * Writes into what the unit (0 invalid, 1 metres) and the residual's code; and the value in metres, if it is not invalid. */
uint8_t homralgyu_entry_troposphere(const uint8_t *bytes, size_t bytes_len, uint64_t node, uint64_t *what, size_t what_len,
                                    double *value, size_t value_len);

/* Satellite k of that entry, from 0 on.
 * Refusals in order: ROOM (satellite, 2), SHORT or FORM as above, FIELD if the entry has no such satellite.
 * Writes into satellite its number and its SF063 code. */
uint8_t homralgyu_entry_satellite(const uint8_t *bytes, size_t bytes_len, uint64_t k, uint64_t *satellite, size_t satellite_len);

/* The residual of satellite k of that entry at a node, both from 0 on.
 * Refusals in order: ROOM (what, 2; value, 1), SHORT or FORM as above, FIELD if the entry has no such residual: it has one for every k below S
 * and every node below the count of nodes.
 * Writes into what the unit (0 invalid, 3 TECU) and the residual's code; and the value in TECU, if it is not invalid. */
uint8_t homralgyu_entry_residual(const uint8_t *bytes, size_t bytes_len, uint64_t k, uint64_t node, uint64_t *what, size_t what_len,
                                 double *value, size_t value_len);

#ifdef __cplusplus
}
#endif

#endif
