// Calls the static library from C: both conversions of segments and journeys, the intake, the shelf, the questions' refusals, speeds by kind, by cant
// deficiency, by the train's maximum, on runs of segments and by a journey's restrictions, null with length 0, and the interface's number.
// Checks the answers against packets, sheets, states, places and speeds that are written here from the build definition. 'time' measures times instead.
#define _DEFAULT_SOURCE
#include <signal.h>
#include <stdio.h>
#include <stdlib.h>
#include <string.h>
#include <sys/mman.h>
#include <time.h>
#include <unistd.h>

#include "../include/seglink.h"

// ---- A segment or a journey: its fields in packet order, without L_PACKET_ATO

// A field: its width in bits and its value in the packet, its number in the sheet, and the number that comes back from the packet.
struct field { uint32_t width, value, number, raised; };
struct fields { size_t count; struct field field[8192]; };
struct bytes { size_t length; uint8_t byte[16384]; };

// Places of the fields of a segment without entries and changes.
enum {
    NUMBER, OPERATIONAL, ENGINE, DATE, SECONDS, COUNTER,
    NID_C, NID_SP, VERSION_X, VERSION_Y, L_SP, EOA_OFFSET, UTC_OFFSET, ALTITUDE,
    SPEED, FRONT, ENTRIES, SPEEDS, VOLTAGE, TRACTION, VOLTAGES, CURRENT, CURRENTS
};

// Places of the fields of a journey's body, its first segment, its first timing point and, after one timing point, its first constraint.
enum {
    JP_STATUS = NID_C, SEGMENTS, FIRST_NID_C, FIRST_NID_SP, FIRST_VERSION_X, FIRST_VERSION_Y, SP_DIR, POINTS,
    NID_TP, ARRIVAL_DATE, ARRIVAL_SECONDS, ARRIVAL_WINDOW, TP_ALIGNMENT, STOP_SKIP_PASSES, TP_INFORMATION, DAY_LIGHT_SAVING,
    DOOR_SIDE, CENTRALISED_OPENING, RELAXED_COUPLER, TRAIN_HOLD, DEPARTURE_DATE, DEPARTURE_SECONDS, DWELL_TIME, AUTOMATIC_CLOSING,
    CONSTRAINTS, TC_TYPE, TC_RANGE, TC_START, TC_END, TC_FRONT, TC_SPEED, TC_ADHESION, TC_CURRENT
};

static const uint32_t CANT[] = {80, 100, 130, 150, 165, 180, 210, 225, 245, 275, 300};
static const uint32_t VOLTS[] = {0, 25000, 15000, 3000, 1500, 750};

static void put(struct fields *s, uint32_t width, uint32_t value, uint32_t number, uint32_t raised)
{
    s->field[s->count++] = (struct field){width, value, number, raised};
}

static void same(struct fields *s, uint32_t width, uint32_t value)
{
    put(s, width, value, value, value);
}

static void speed(struct fields *s, uint32_t kmh)
{
    put(s, 7, kmh / 5, kmh, kmh / 5 * 5);
}

static void cant_class(struct fields *s, uint32_t place)
{
    put(s, 4, place, CANT[place], CANT[place]);
}

static void voltage(struct fields *s, uint32_t place, uint32_t traction)
{
    put(s, 4, place, VOLTS[place], VOLTS[place]);
    same(s, 10, traction);
}

// Adds a current by its number in the sheet: amperes + 1, or 0 for no limit.
static void current(struct fields *s, uint32_t number)
{
    uint32_t tens = number == 0 ? 1023 : (number - 1) / 10;
    put(s, 10, tens, number, number == 0 ? 0 : tens * 10 + 1);
}

static void header(struct fields *s, uint32_t number, uint32_t operational, uint32_t engine, uint32_t date, uint32_t seconds, uint32_t counter)
{
    s->count = 0;
    same(s, 8, number);
    same(s, 32, operational);
    same(s, 24, engine);
    same(s, 15, date);
    same(s, 17, seconds);
    same(s, 8, counter);
}

static void identity(struct fields *s, uint32_t nid_c, uint32_t nid_sp, uint32_t x, uint32_t y)
{
    same(s, 10, nid_c);
    same(s, 32, nid_sp);
    same(s, 8, x);
    same(s, 8, y);
}

static void measures(struct fields *s, uint32_t l_sp, uint32_t eoa, uint32_t utc, uint32_t altitude)
{
    same(s, 24, l_sp);
    same(s, 24, eoa);
    same(s, 7, utc);
    same(s, 20, altitude);
}

// ---- The two media

// Writes a field at the bit `at`, most significant bit first, the top bit of each byte first.
static void put_bits(struct bytes *b, size_t *at, uint32_t width, uint32_t value)
{
    for (uint32_t i = width; i-- > 0; ++*at)
        if (value >> i & 1)
            b->byte[*at / 8] |= (uint8_t)(0x80 >> *at % 8);
}

// Adds a number in groups of seven bits, lowest group first; the top bit of a group is 1 if another follows.
static void put_groups(struct bytes *b, uint32_t number)
{
    for (; number > 127; number /= 128)
        b->byte[b->length++] = (uint8_t)(128 + number % 128);
    b->byte[b->length++] = (uint8_t)number;
}

static uint32_t body_bits(const struct fields *s)
{
    uint32_t bits = 0;
    for (size_t i = NID_C; i < s->count; ++i)
        bits += s->field[i].width;
    return bits;
}

static struct bytes packet_of(const struct fields *s)
{
    struct bytes b = {0};
    size_t at = 0;
    put_bits(&b, &at, 8, s->field[NUMBER].value);
    put_bits(&b, &at, 16, body_bits(s));
    for (size_t i = OPERATIONAL; i < s->count; ++i)
        put_bits(&b, &at, s->field[i].width, s->field[i].value);
    b.length = (at + 7) / 8;
    return b;
}

// Returns the sheet as the office gives it, or, with `back`, as it comes back from the packet.
static struct bytes sheet_of(const struct fields *s, bool back)
{
    struct bytes b = {0};
    for (size_t i = 0; i < s->count; ++i)
        put_groups(&b, back ? s->field[i].raised : s->field[i].number);
    return b;
}

// Returns the first bit of a field in the packet, where L_PACKET_ATO follows the first field.
static uint32_t bit_of(const struct fields *s, size_t field)
{
    uint32_t bits = field > NUMBER ? 16 : 0;
    for (size_t i = 0; i < field; ++i)
        bits += s->field[i].width;
    return bits;
}

// Returns the first byte of a field's number in the sheet.
static uint32_t byte_of(const struct fields *s, size_t field)
{
    struct bytes b = {0};
    for (size_t i = 0; i < field; ++i)
        put_groups(&b, s->field[i].number);
    return (uint32_t)b.length;
}

// ---- Checks

static unsigned passed, failed;

static void check(const char *name, const char *what, size_t got, size_t wanted)
{
    if (got == wanted) {
        ++passed;
    } else {
        ++failed;
        printf("FAILED: %s: %s is %zu, and not %zu\n", name, what, got, wanted);
    }
}

typedef seglink_converted conversion(const uint8_t *, size_t, uint8_t *, size_t);
enum { GUARD = 64, ROOM = 16384 };
static uint8_t store[GUARD + ROOM + GUARD];

static size_t differing(const uint8_t *a, const uint8_t *b, size_t count)
{
    size_t found = 0;
    for (size_t i = 0; i < count; ++i)
        found += a[i] != b[i];
    return found;
}

static size_t touched(size_t from, size_t to, uint8_t fill)
{
    size_t found = 0;
    for (size_t i = from; i < to; ++i)
        found += store[i] != fill;
    return found;
}

// Checks an answer in a room that was filled with `fill`: its numbers, each byte of the result, and that no other byte has changed.
static void answered(const char *name, const char *way, size_t room, uint8_t fill, seglink_converted c, uint32_t refusal, uint32_t place, const struct bytes *out)
{
    char what[96];
    snprintf(what, sizeof what, "%s in a room of %zu: the refusal", way, room);
    check(name, what, c.refusal, refusal);
    snprintf(what, sizeof what, "%s in a room of %zu: the place", way, room);
    check(name, what, c.place, place);
    snprintf(what, sizeof what, "%s in a room of %zu: the length", way, room);
    check(name, what, c.length, out->length);
    if (out->length > 0) {
        snprintf(what, sizeof what, "%s in a room of %zu: the count of wrong bytes", way, room);
        check(name, what, differing(store + GUARD, out->byte, out->length), 0);
    }
    snprintf(what, sizeof what, "%s in a room of %zu: the count of other bytes changed", way, room);
    check(name, what, touched(0, GUARD, fill) + touched(GUARD + out->length, sizeof store, fill), 0);
}

// Converts a packet that an intake takes in deliveries of 1, 2, 3 bytes and so on, in a room of the packet's size.
static seglink_converted deliveries_to_sheet(const uint8_t *packet, size_t packet_len, uint8_t *room, size_t room_len)
{
    static uint8_t gathered[ROOM];
    seglink_intake intake = seglink_intake_fresh();
    for (size_t at = 0, size = 1; at < packet_len; at += size++) {
        if (size > packet_len - at)
            size = packet_len - at;
        intake = seglink_intake_deliver(intake, packet + at, size, gathered, packet_len);
    }
    intake = seglink_intake_complete(intake, gathered, packet_len);
    return seglink_intake_sheet(intake, gathered, packet_len, room, room_len);
}

static const char *way_of(conversion *convert)
{
    if (convert == seglink_sheet_to_packet)
        return "sheet to packet";
    return convert == seglink_packet_to_sheet ? "packet to sheet" : "deliveries to sheet";
}

static void run(const char *name, conversion *convert, const struct bytes *in, size_t room, uint8_t fill, uint32_t refusal, uint32_t place, const struct bytes *out)
{
    memset(store, fill, sizeof store);
    seglink_converted c = convert(in->byte, in->length, store + GUARD, room);
    answered(name, way_of(convert), room, fill, c, refusal, place, out);
}

// Checks a conversion in rooms that hold the result and in rooms that do not. A packet's sheet is also asked of an intake.
static void converts(const char *name, conversion *convert, const struct bytes *in, const struct bytes *out)
{
    static const struct bytes nothing;
    run(name, convert, in, ROOM, 0xA5, 0, 0, out);
    run(name, convert, in, ROOM, 0x5A, 0, 0, out);
    run(name, convert, in, out->length, 0xA5, 0, 0, out);
    run(name, convert, in, out->length - 1, 0xA5, 8, 0, &nothing);
    run(name, convert, in, 0, 0xA5, 8, 0, &nothing);
    if (convert == seglink_packet_to_sheet)
        converts(name, deliveries_to_sheet, in, out);
}

// Checks that the input is refused. A refusal of the input comes before 8, so a room of no bytes gives it too.
static void refuses(const char *name, conversion *convert, const struct bytes *in, uint32_t refusal, uint32_t place)
{
    static const struct bytes nothing;
    run(name, convert, in, ROOM, 0xA5, refusal, place, &nothing);
    run(name, convert, in, ROOM, 0x5A, refusal, place, &nothing);
    run(name, convert, in, 0, 0xA5, refusal, place, &nothing);
    if (convert == seglink_packet_to_sheet)
        refuses(name, deliveries_to_sheet, in, refusal, place);
}

// Kinds that are neither 0 nor 1; the low bits of some are 0 or 1.
static const uint32_t UNKNOWN_KINDS[] = {2, 3, 255, 256, 257, 65536, 65537, 0x80000000, 0x80000001, 0xFFFFFFFF};

// Checks the answer to a speed question of a kind.
static void speed_answered(const char *name, uint32_t kind, seglink_speed got, seglink_speed wanted)
{
    char what[64];
    snprintf(what, sizeof what, "the refusal of its speed as kind %u", (unsigned)kind);
    check(name, what, got.refusal, wanted.refusal);
    snprintf(what, sizeof what, "the place of its speed's refusal as kind %u", (unsigned)kind);
    check(name, what, got.place, wanted.place);
    snprintf(what, sizeof what, "its speed as kind %u", (unsigned)kind);
    check(name, what, got.speed, wanted.speed);
}

// Asks a speed of one segment.
static void speed_asked(const char *name, uint32_t kind, const struct bytes *segment, seglink_train train, uint32_t x, seglink_speed wanted)
{
    speed_answered(name, kind, seglink_permitted_speed_one(kind, segment->byte, segment->length, train, x), wanted);
}

// Checks the answer to a speed question, and that each unknown kind is refused first of all, whatever that answer is.
static void kinds_asked(const char *name, uint32_t kind, const struct bytes *segment, seglink_train train, uint32_t x, seglink_speed wanted)
{
    speed_asked(name, kind, segment, train, x, wanted);
    for (size_t i = 0; i < sizeof UNKNOWN_KINDS / sizeof *UNKNOWN_KINDS; ++i)
        speed_asked(name, UNKNOWN_KINDS[i], segment, train, x, (seglink_speed){15, 0, 0});
}

// A train that is not allowed: the questions refuse the segment before they judge the train.
static const seglink_train NO_TRAIN = {.length = 0, .cant = 0};

// Checks that the questions about a packet refuse it at a bit.
static void packet_asked(const char *name, const struct bytes *packet, uint32_t refusal, uint32_t place)
{
    seglink_altitude altitude = seglink_altitude_of_packet(packet->byte, packet->length);
    check(name, "the refusal of its altitude", altitude.refusal, refusal);
    check(name, "the place of its altitude's refusal", altitude.place, place);
    check(name, "its altitude", (size_t)altitude.altitude, 0);
    kinds_asked(name, SEGLINK_KIND_PACKET, packet, NO_TRAIN, 0, (seglink_speed){refusal, place, 0});
}

static void sheet_asked(const char *name, const struct bytes *sheet, uint32_t refusal, uint32_t place)
{
    kinds_asked(name, SEGLINK_KIND_SHEET, sheet, NO_TRAIN, 0, (seglink_speed){refusal, place, 0});
}

// Checks both conversions of a segment or a journey: they succeed if `refusal` is 0, else they refuse at `field`.
static void both(const char *name, const struct fields *s, uint32_t refusal, size_t field)
{
    struct bytes packet = packet_of(s), given = sheet_of(s, false), back = sheet_of(s, true);
    if (refusal == 0) {
        converts(name, seglink_sheet_to_packet, &given, &packet);
        converts(name, seglink_packet_to_sheet, &packet, &back);
    } else {
        refuses(name, seglink_sheet_to_packet, &given, refusal, byte_of(s, field));
        refuses(name, seglink_packet_to_sheet, &packet, refusal, bit_of(s, field));
    }
}

// Changes one field, and checks both conversions: they refuse at that field, or succeed if `refusal` is 0.
static void both_with(const char *name, struct fields *s, size_t field, uint32_t value, uint32_t number, uint32_t raised, uint32_t refusal)
{
    s->field[field] = (struct field){s->field[field].width, value, number, raised};
    both(name, s, refusal, field);
}

// Changes one number, and checks that the sheet is refused at that number.
static void sheet_with(const char *name, struct fields *s, size_t field, uint32_t number, uint32_t refusal)
{
    s->field[field].number = number;
    struct bytes sheet = sheet_of(s, false);
    refuses(name, seglink_sheet_to_packet, &sheet, refusal, byte_of(s, field));
}

// Checks the bits of the body and the bytes of packet and sheet.
static void sizes(const char *name, const struct fields *s, size_t bits, size_t packet, size_t sheet)
{
    check(name, "the body's count of bits", body_bits(s), bits);
    check(name, "the packet's count of bytes", packet_of(s).length, packet);
    check(name, "the sheet's count of bytes", sheet_of(s, false).length, sheet);
    check(name, "the count of bytes of the sheet that comes back", sheet_of(s, true).length, sheet);
}

// ---- Segments

static void no_changes(struct fields *s, uint32_t kmh)
{
    speed(s, kmh);
    same(s, 1, 0);
    same(s, 5, 0);
    same(s, 5, 0);
    voltage(s, 0, 0);
    same(s, 5, 0);
    current(s, 0);
    same(s, 5, 0);
}

// Makes the smallest segment: every number has one group.
static void smallest(struct fields *s)
{
    header(s, 6, 0, 0, 0, 0, 0);
    identity(s, 0, 0, 0, 0);
    measures(s, 1, 0, 0, 0);
    no_changes(s, 0);
}

static void desk(struct fields *s, uint32_t kmh)
{
    header(s, 6, 0x00012345, 1, 0, 0, 7);
    identity(s, 0, 0, 0, 0);
    measures(s, 1, 0, 0, 0);
    no_changes(s, kmh);
}

static void largest_element(struct fields *s)
{
    speed(s, 604);
    same(s, 1, 1);
    same(s, 5, 31);
    for (int i = 0; i < 31; ++i) {
        same(s, 2, 0);
        cant_class(s, 10);
        speed(s, 604);
    }
}

// Makes the largest segment: every list is full, and every number has as many groups as its field allows.
static void largest(struct fields *s)
{
    header(s, 6, 0xFFFFFFFF, 16777215, 32767, 86399, 255);
    identity(s, 1023, 0xFFFFFFFF, 255, 255);
    measures(s, 16777215, 16777215, 112, 1048575);
    largest_element(s);
    same(s, 5, 31);
    for (uint32_t i = 0; i < 31; ++i) {
        same(s, 24, 2097152 + i);
        largest_element(s);
    }
    voltage(s, 1, 1023);
    same(s, 5, 31);
    for (uint32_t i = 0; i < 31; ++i) {
        same(s, 24, 2097152 + i);
        voltage(s, 1, 1023);
    }
    current(s, 10010);
    same(s, 5, 31);
    for (uint32_t i = 0; i < 31; ++i) {
        same(s, 24, 2097152 + i);
        current(s, 10010);
    }
}

// Adds an element whose entries go through every class of every Q_DIFF, each with another speed.
static void mixed_element(struct fields *s, uint32_t entries, uint32_t seed)
{
    speed(s, (seed * 83 + 84) % 605);
    same(s, 1, seed % 2);
    same(s, 5, entries);
    for (uint32_t i = seed; i < seed + entries; ++i) {
        same(s, 2, i % 3);
        if (i % 3 == 0)
            cant_class(s, i / 3 % 11);
        else
            same(s, 4, i / 3 % 3);
        speed(s, (i * 37 + 1) % 605);
    }
}

// Makes a segment with `voltages` changes of voltage and `currents` of current. Neighbouring fields differ, so that a field in a wrong place is seen.
static void mixed(struct fields *s, uint32_t voltages, uint32_t currents)
{
    header(s, 6, 0x12F45678, 0xABCDEF, 12345, 54321, 200);
    identity(s, 345, 0x89ABCDEF, 17, 130);
    measures(s, 1000000, 7654321, 52, 123456);
    mixed_element(s, 31, 2);
    same(s, 5, 9);
    for (uint32_t i = 0; i < 9; ++i) {
        same(s, 24, 1 + i * i * 12345);
        mixed_element(s, i * 31 % 8, i * 5);
    }
    voltage(s, 3, 99);
    same(s, 5, voltages);
    for (uint32_t i = 0; i < voltages; ++i) {
        same(s, 24, 100 + i * (999999 / voltages));
        voltage(s, i % 6, i % 6 == 0 ? 0 : i * 85 % 1024);
    }
    current(s, 4567);
    same(s, 5, currents);
    for (uint32_t i = 0; i < currents; ++i) {
        same(s, 24, 7 + i * (999999 / currents));
        current(s, i * 1001 % 10011);
    }
}

// Makes the desk segment with `count` changes in the list `which` (SPEEDS, VOLTAGES or CURRENTS), from `first` on, `step` apart (in cm).
static void list(struct fields *s, int which, uint32_t l_sp, uint32_t count, uint32_t first, uint32_t step)
{
    struct fields plain;
    int start = which == SPEEDS ? SPEED : which == VOLTAGES ? VOLTAGE : CURRENT;
    desk(&plain, 80);
    s->count = 0;
    for (int i = 0; i <= CURRENTS; ++i) {
        s->field[s->count++] = plain.field[i];
        if (i != which)
            continue;
        s->field[s->count - 1] = (struct field){5, count, count, count};
        for (uint32_t j = 0; j < count; ++j) {
            same(s, 24, first + j * step);
            for (int k = start; k < which; ++k)
                s->field[s->count++] = plain.field[k];
        }
    }
    s->field[L_SP] = (struct field){24, l_sp, l_sp, l_sp};
}

// ---- Journeys

// Adds the i-th segment, timing point or constraint.
typedef void part(struct fields *, uint32_t);

// Adds a count and as many items from the i-th on: 31, or all that are left.
static uint32_t items(struct fields *s, uint32_t i, uint32_t count, part *item)
{
    uint32_t here = count - i < 31 ? count - i : 31;
    same(s, 5, here);
    for (; here > 0; --here)
        item(s, i++);
    return i;
}

struct size { uint32_t segments, points, constraints; };

// Adds segments with their timing points and constraints, in numbers that `size` gives: 31 for each segment as long as any are left.
static void journey(struct fields *s, struct size size, part *segment, part *point, part *constraint)
{
    uint32_t points = 0, constraints = 0;
    same(s, 8, size.segments);
    for (uint32_t i = 0; i < size.segments; ++i) {
        segment(s, i);
        points = items(s, points, size.points, point);
        constraints = items(s, constraints, size.constraints, constraint);
    }
}

// Adds the fields of a timing point from NID_TP to Q_TP_Alignment.
static void arrival(struct fields *s, uint32_t nid_tp, uint32_t date, uint32_t seconds, uint32_t window, uint32_t alignment)
{
    same(s, 32, nid_tp);
    same(s, 15, date);
    same(s, 17, seconds);
    same(s, 10, window);
    same(s, 2, alignment);
}

// Adds the fields of a timing point from Q_Stop_Skip_Passes to Q_Train_Hold.
static void stop(struct fields *s, uint32_t kind, uint32_t information, uint32_t saving, uint32_t side, uint32_t opening, uint32_t coupler, uint32_t hold)
{
    same(s, 2, kind);
    same(s, 2, information);
    same(s, 1, saving);
    same(s, 2, side);
    same(s, 1, opening);
    same(s, 1, coupler);
    same(s, 1, hold);
}

// Adds the fields of a timing point from T_Departure_Date to Q_Automatic_Closing.
static void departure(struct fields *s, uint32_t date, uint32_t seconds, uint32_t dwell, uint32_t closing)
{
    same(s, 15, date);
    same(s, 17, seconds);
    same(s, 10, dwell);
    same(s, 1, closing);
}

// Adds a temporary constraint by its numbers from Q_TC_Type to Q_Low_Adhesion_Rate; no type uses the current.
static void constraint(struct fields *s, const uint32_t number[7])
{
    same(s, 2, number[0]);
    same(s, 2, number[1]);
    same(s, 24, number[2]);
    same(s, 24, number[3]);
    same(s, 1, number[4]);
    speed(s, number[5]);
    same(s, 3, number[6]);
    current(s, 0);
}

// Adds a segment whose numbers all have as many groups as their fields allow.
static void full_segment(struct fields *s, uint32_t i)
{
    (void)i;
    identity(s, 1023, 0xFFFFFFFF, 255, 255);
    same(s, 1, 1);
}

static void full_point(struct fields *s, uint32_t i)
{
    arrival(s, 0xFFFFFFFF, 32767, 86400, 1023, 2);
    stop(s, i % 2, 1, 1, 3, 1, 1, 1);
    departure(s, 32767, 86399, 1023, 1);
}

static void full_constraint(struct fields *s, uint32_t i)
{
    constraint(s, (const uint32_t[]){0, 2, 16777214, 16777215, i % 2, 604, 0});
}

static void full_journey(struct fields *s, uint32_t segments, uint32_t points, uint32_t constraints)
{
    header(s, 4, 0xFFFFFFFF, 16777215, 32767, 86399, 255);
    same(s, 3, 4);
    journey(s, (struct size){segments, points, constraints}, full_segment, full_point, full_constraint);
}

// Adds a segment whose neighbouring fields differ, so that a field in a wrong place is seen.
static void mixed_segment(struct fields *s, uint32_t i)
{
    identity(s, i * 97 % 1024, 0x89ABCDEF + i * 12345, i * 17 % 256, 255 - i * 13 % 256);
    same(s, 1, i % 2);
}

// Adds a timing point whose neighbouring fields differ; one after the other they have every kind of stop.
static void mixed_point(struct fields *s, uint32_t i)
{
    arrival(s, i * 87654321, i * 1234 % 32768, i * 5432 % 86401, i * 37 % 1024, i % 3);
    if (i % 5 == 0) {
        stop(s, 2, i % 2, i / 2 % 2, 0, 0, 0, 0);
        departure(s, 0, 0, 0, 0);
    } else {
        stop(s, i / 3 % 2, i % 2, i / 2 % 2, i % 4, i / 4 % 2, i / 3 % 2, i / 5 % 2);
        departure(s, i * 4321 % 32768, i * 2345 % 86400, i * 73 % 1024, i / 7 % 2);
    }
}

// Adds a constraint; one after the other they have every type with every range.
static void mixed_constraint(struct fields *s, uint32_t i)
{
    uint32_t type = i % 4, range = i / 4 % 4, start = i * 54321 % 8388608, end = 8388608 + i * 12345 % 8388608;
    constraint(s, (const uint32_t[]){type, range, range == 0 || range == 2 ? start : 0, range == 1 || range == 2 ? end : 0,
                                     type == 0 ? i / 4 % 2 : 0, type == 0 ? (i * 37 + 1) % 605 : 0, type == 1 ? i / 4 % 6 : 0});
}

static void mixed_journey(struct fields *s)
{
    header(s, 4, 0x12F45678, 0xABCDEF, 12345, 54321, 200);
    same(s, 3, 3);
    journey(s, (struct size){9, 200, 100}, mixed_segment, mixed_point, mixed_constraint);
}

// Adds the segment of journey_packet.
static void one_segment(struct fields *s, uint32_t i)
{
    (void)i;
    identity(s, 345, 0x89ABCDEF, 17, 130);
    same(s, 1, 1);
}

// Adds the timing point of journey_packet.
static void one_point(struct fields *s, uint32_t i)
{
    (void)i;
    arrival(s, 0x76543210, 12345, 86400, 601, 1);
    stop(s, 0, 1, 1, 2, 1, 0, 1);
    departure(s, 23456, 86399, 777, 1);
}

// Adds the timing point of journey_packet as a passing point.
static void passed_point(struct fields *s, uint32_t i)
{
    (void)i;
    arrival(s, 0x76543210, 12345, 86400, 601, 1);
    stop(s, 2, 1, 1, 0, 0, 0, 0);
    departure(s, 0, 0, 0, 0);
}

static void one_journey(struct fields *s, bool passed)
{
    header(s, 4, 0x00012345, 1, 0, 0, 7);
    same(s, 3, 1);
    journey(s, (struct size){1, 1, 0}, one_segment, passed ? passed_point : one_point, full_constraint);
}

// Makes the journey of one timing point with one constraint.
static void constrained_journey(struct fields *s, const uint32_t number[7])
{
    one_journey(s, false);
    s->field[CONSTRAINTS] = (struct field){5, 1, 1, 1};
    constraint(s, number);
}

static void smallest_journey(struct fields *s)
{
    header(s, 4, 0, 0, 0, 0, 0);
    same(s, 3, 0);
    journey(s, (struct size){0, 0, 0}, one_segment, one_point, full_constraint);
}

// ---- The desk cases, and others like them

static const struct bytes desk_packet = {
    39, {0x06, 0x00, 0xB9, 0x00, 0x01, 0x23, 0x45, 0x00, 0x00, 0x01, 0x00, 0x00, 0x00, 0x00, 0x07,
         0, 0, 0, 0, 0, 0, 0, 0, 0, 0, 0x40, 0, 0, 0, 0, 0, 0x01, 0, 0, 0, 0, 0x3F, 0xF0, 0x00}};
static const struct bytes desk_sheet = {
    25, {0x06, 0xC5, 0xC6, 0x04, 0x01, 0x00, 0x00, 0x07, 0, 0, 0, 0, 0x01, 0, 0, 0, 0x50, 0, 0, 0, 0, 0, 0, 0, 0}};

static const struct bytes smallest_journey_packet = {17, {0x04, 0x00, 0x0B}};
static const struct bytes smallest_journey_sheet = {8, {0x04}};
static const struct bytes journey_packet = {
    42, {0x04, 0x00, 0xD1, 0x00, 0x01, 0x23, 0x45, 0x00, 0x00, 0x01, 0x00, 0x00, 0x00, 0x00, 0x07,
         0x20, 0x2A, 0xCC, 0x4D, 0x5E, 0x6F, 0x78, 0x8C, 0x14, 0x2E, 0xCA, 0x86, 0x42, 0x0C, 0x0E, 0x6A, 0x30, 0x12, 0xCA, 0x3A, 0xDB,
         0xA0, 0xA8, 0xBF, 0xE1, 0x30, 0x00}};
static const struct bytes journey_sheet = {
    52, {0x04, 0xC5, 0xC6, 0x04, 0x01, 0x00, 0x00, 0x07, 0x01, 0x01, 0xD9, 0x02, 0xEF, 0x9B, 0xAF, 0xCD, 0x08, 0x11, 0x82, 0x01, 0x01, 0x01,
         0x90, 0xE4, 0xD0, 0xB2, 0x07, 0xB9, 0x60, 0x80, 0xA3, 0x05, 0xD9, 0x04, 0x01, 0x00, 0x01, 0x01,
         0x02, 0x01, 0x00, 0x01, 0xA0, 0xB7, 0x01, 0xFF, 0xA2, 0x05, 0x89, 0x06, 0x01, 0x00}};

// The journey of journey_packet with a restriction to 43 km/h from 1,000 to 2,500 cm, Q_FRONT 1; in the sheet its speed is the byte 59.
static const struct bytes restricted_packet = {
    51, {0x04, 0x01, 0x1A, 0x00, 0x01, 0x23, 0x45, 0x00, 0x00, 0x01, 0x00, 0x00, 0x00, 0x00, 0x07,
         0x20, 0x2A, 0xCC, 0x4D, 0x5E, 0x6F, 0x78, 0x8C, 0x14, 0x2E, 0xCA, 0x86, 0x42, 0x0C, 0x0E, 0x6A, 0x30, 0x12, 0xCA, 0x3A, 0xDB,
         0xA0, 0xA8, 0xBF, 0xE1, 0x30, 0x90, 0x00, 0x1F, 0x40, 0x00, 0x4E, 0x24, 0x40, 0xFF, 0xC0}};
static const struct bytes restricted_sheet = {
    62, {0x04, 0xC5, 0xC6, 0x04, 0x01, 0x00, 0x00, 0x07, 0x01, 0x01, 0xD9, 0x02, 0xEF, 0x9B, 0xAF, 0xCD, 0x08, 0x11, 0x82, 0x01, 0x01, 0x01,
         0x90, 0xE4, 0xD0, 0xB2, 0x07, 0xB9, 0x60, 0x80, 0xA3, 0x05, 0xD9, 0x04, 0x01, 0x00, 0x01, 0x01,
         0x02, 0x01, 0x00, 0x01, 0xA0, 0xB7, 0x01, 0xFF, 0xA2, 0x05, 0x89, 0x06, 0x01,
         0x01, 0x00, 0x02, 0xE8, 0x07, 0xC4, 0x13, 0x01, 0x2B, 0x00, 0x00}};

// The desk's segment and journey with different values in their fields, packets and sheets.
static const struct bytes whole_packet = {
    97, {0x06, 0x02, 0x89, 0x90, 0x81, 0x72, 0x63, 0x12, 0x3A, 0xBC, 0x9C, 0x42, 0xB2, 0x6E, 0x4D, 0xC5, 0x49, 0x1A, 0x04, 0xD5, 0xC5, 0x55,
         0x00, 0x78, 0x90, 0x02, 0x7E, 0xFC, 0x72, 0x42, 0x4F, 0x51, 0x8A, 0xC4, 0x24, 0x51, 0xD0, 0x06, 0x0E, 0xA0, 0x20, 0xE4, 0x96, 0x05,
         0x99, 0x03, 0xC3, 0x48, 0x33, 0xE1, 0x42, 0x04, 0x00, 0x9C, 0x3C, 0xA0, 0x49, 0x13, 0x84, 0x42, 0x28, 0x25, 0x00, 0x03, 0xE8, 0x10,
         0x30, 0x00, 0x1F, 0x40, 0x00, 0x00, 0x07, 0x53, 0x05, 0xFF, 0xC0, 0x27, 0x10, 0x09, 0xC8, 0x00, 0xC3, 0x50, 0x31, 0x35, 0xB0, 0x10,
         0x00, 0x01, 0xE7, 0xFE, 0x02, 0x22, 0xE0, 0x00, 0x00}};
static const struct bytes whole_sheet = {
    141, {0x06, 0xE3, 0xE4, 0x85, 0x84, 0x09, 0xBC, 0xF5, 0x48, 0xA1, 0x9C, 0x01, 0xEE, 0xE4, 0x02, 0x4D, 0x95, 0x06, 0xD7, 0xA6, 0xA0, 0xA3,
         0x02, 0x15, 0x54, 0xC0, 0xC4, 0x07, 0xF1, 0xF7, 0x27, 0x64, 0xEA, 0x93, 0x21, 0x78, 0x01, 0x0B, 0x00, 0xA5, 0x01, 0x5A, 0x00, 0xAC,
         0x02, 0x91, 0x01, 0x00, 0x50, 0x3C, 0x00, 0xE1, 0x01, 0xC8, 0x01, 0x00, 0x82, 0x01, 0x23, 0x00, 0x93, 0x02, 0x6E, 0x00, 0x64, 0xFF,
         0x01, 0x00, 0xF5, 0x01, 0x4B, 0x00, 0x96, 0x01, 0xB4, 0x01, 0x00, 0xD2, 0x01, 0xB6, 0x02, 0x00, 0xB4, 0x01, 0x14, 0x01, 0x8F, 0x4E,
         0x64, 0x00, 0x02, 0x01, 0x02, 0x5F, 0x02, 0x01, 0x28, 0xDC, 0x0B, 0xC1, 0x02, 0x05, 0xE8, 0x07, 0xA8, 0xC3, 0x01, 0x0C, 0xD0, 0x0F,
         0x00, 0x00, 0xB0, 0xEA, 0x01, 0xEE, 0x05, 0xFF, 0x07, 0xC0, 0xB8, 0x02, 0x98, 0x75, 0xC8, 0x03, 0xD0, 0x86, 0x03, 0xB8, 0x17, 0x4D,
         0xE1, 0x21, 0x02, 0x3C, 0x00, 0xF0, 0xA2, 0x04, 0x01}};
static const struct bytes whole_journey_packet = {
    119, {0x04, 0x03, 0x3C, 0x12, 0x34, 0x56, 0x78, 0x9A, 0xBC, 0xDE, 0x27, 0x11, 0x11, 0x70, 0xC9, 0x60, 0x4A, 0xCC, 0x4D, 0x5E, 0x6F, 0x78,
         0x8C, 0x14, 0x6E, 0xCA, 0x86, 0x42, 0x0C, 0x0E, 0x6A, 0x30, 0x12, 0xCC, 0x2D, 0x5B, 0xA0, 0xA8, 0xBF, 0xE1, 0x30, 0xF1, 0xE2, 0xD3,
         0xC6, 0x07, 0x4E, 0xA6, 0x11, 0x68, 0x4C, 0x6D, 0xD0, 0xA7, 0x10, 0x82, 0xDF, 0xF6, 0xE5, 0xD4, 0xC3, 0x03, 0xB6, 0x1A, 0x9F, 0xD0,
         0xC4, 0x00, 0x00, 0x00, 0x00, 0x00, 0x00, 0x84, 0x1E, 0x84, 0x80, 0x3D, 0x09, 0x03, 0x22, 0x3F, 0xF4, 0x01, 0x11, 0x77, 0x00, 0x00,
         0x00, 0x00, 0xBF, 0xFC, 0x80, 0x00, 0x00, 0x3D, 0x09, 0x04, 0x80, 0x0F, 0xFF, 0xC0, 0x00, 0x00, 0x00, 0x00, 0x00, 0x00, 0x07, 0xFF,
         0x53, 0x09, 0xAB, 0x92, 0x34, 0x02, 0xB1, 0x80, 0x00}};
static const struct bytes whole_journey_sheet = {
    164, {0x04, 0xF8, 0xAC, 0xD1, 0x91, 0x01, 0xDE, 0xF9, 0xEA, 0x04, 0x88, 0x27, 0xF0, 0xA2, 0x04, 0xC9, 0x01, 0x03, 0x02, 0xD9, 0x02, 0xEF,
         0x9B, 0xAF, 0xCD, 0x08, 0x11, 0x82, 0x01, 0x01, 0x03, 0x90, 0xE4, 0xD0, 0xB2, 0x07, 0xB9, 0x60, 0x80, 0xA3, 0x05, 0xD9, 0x04, 0x02,
         0x00, 0x01, 0x00, 0x03, 0x00, 0x01, 0x00, 0xA0, 0xB7, 0x01, 0xFF, 0xA2, 0x05, 0x89, 0x06, 0x01, 0xBC, 0xDA, 0xF8, 0x78, 0xBA, 0x60,
         0xE1, 0xD4, 0x03, 0x5A, 0x00, 0x01, 0x00, 0x01, 0x02, 0x00, 0x00, 0x01, 0xA1, 0xB7, 0x01, 0xC2, 0xB8, 0x02, 0x2D, 0x01, 0x98, 0xF5,
         0xF2, 0xF6, 0x0F, 0xBB, 0x60, 0xD3, 0x86, 0x03, 0xE8, 0x07, 0x01, 0x02, 0x00, 0x01, 0x00, 0x00, 0x00, 0x00, 0x00, 0x00, 0x00, 0x00,
         0x04, 0x00, 0x02, 0xC0, 0x84, 0x3D, 0x81, 0x89, 0x7A, 0x01, 0x55, 0x00, 0x00, 0x01, 0x00, 0xF7, 0xA2, 0x04, 0x00, 0x00, 0x00, 0x05,
         0x00, 0x02, 0x01, 0x00, 0x89, 0xA4, 0xE8, 0x03, 0x00, 0x00, 0x00, 0x00, 0x03, 0x03, 0x00, 0x00, 0x00, 0x00, 0x00, 0x00, 0xA6, 0x05,
         0xE8, 0xC8, 0xDC, 0x9A, 0x01, 0x05, 0x63, 0x00, 0x00, 0x00}};

static void desk_cases(struct fields *s)
{
    struct bytes with84 = desk_sheet, with85 = desk_sheet;
    converts("the desk packet", seglink_packet_to_sheet, &desk_packet, &desk_sheet);
    converts("the desk sheet", seglink_sheet_to_packet, &desk_sheet, &desk_packet);
    with84.byte[16] = 0x54;
    converts("84 km/h", seglink_sheet_to_packet, &with84, &desk_packet);
    desk(s, 85);
    with85.byte[16] = 0x55;
    struct bytes another = packet_of(s);
    check("85 km/h", "the packet being that of 80", differing(another.byte, desk_packet.byte, 39) == 0, 0);
    converts("85 km/h", seglink_sheet_to_packet, &with85, &another);
    converts("every field of a segment", seglink_packet_to_sheet, &whole_packet, &whole_sheet);
    converts("every field of a segment", seglink_sheet_to_packet, &whole_sheet, &whole_packet);
}

// Checks the altitude of the desk segment with M_SP_Altitude `sent`, and that the packet without its last byte is refused.
static void altitude(struct fields *s, const char *name, uint32_t sent, int32_t centimetres)
{
    desk(s, 80);
    s->field[ALTITUDE].value = sent;
    struct bytes packet = packet_of(s);
    seglink_altitude got = seglink_altitude_of_packet(packet.byte, packet.length);
    check(name, "the refusal", got.refusal, 0);
    check(name, "the place", got.place, 0);
    check(name, "the altitude", (size_t)got.altitude, (size_t)centimetres);
    got = seglink_altitude_of_packet(packet.byte, packet.length - 1);
    check(name, "the refusal of the packet cut", got.refusal, 3);
    check(name, "the place of the packet cut", got.place, 0);
    check(name, "the altitude of the packet cut", (size_t)got.altitude, 0);
}

static void altitudes(struct fields *s)
{
    altitude(s, "altitude sent as 0", 0, -100000);
    altitude(s, "altitude sent as 99,999", 99999, -1);
    altitude(s, "altitude sent as 100,000", 100000, 0);
    altitude(s, "altitude sent as 1,048,575", 1048575, 948575);
}

// Changes of one field of the desk segment: its value and number, the number that comes back, and the refusal.
static const struct { const char *name; size_t field; uint32_t value, number, raised, refusal; } ONE[] = {
    {"packet number 7", NUMBER, 7, 7, 7, 2},
    {"NID_OPERATIONAL with a digit F", OPERATIONAL, 0xF0012349, 0xF0012349, 0xF0012349, 0},
    {"NID_OPERATIONAL with a digit A", OPERATIONAL, 0x0001A345, 0x0001A345, 0x0001A345, 4},
    {"seconds 86,399", SECONDS, 86399, 86399, 86399, 0},
    {"seconds 86,400", SECONDS, 86400, 86400, 86400, 4},
    {"L_SP 0", L_SP, 0, 0, 0, 4},
    {"Q_UTC_Offset 112", UTC_OFFSET, 112, 112, 112, 0},
    {"Q_UTC_Offset 113", UTC_OFFSET, 113, 113, 113, 4},
    {"83 km/h", SPEED, 16, 83, 80, 0},
    {"604 km/h", SPEED, 120, 604, 600, 0},
    {"605 km/h", SPEED, 121, 605, 605, 4},
    {"voltage 6, 600 V", VOLTAGE, 6, 600, 600, 4},
    {"NID_CTRACTION at voltage 0", TRACTION, 1, 1, 1, 4},
    {"0 A", CURRENT, 0, 1, 1, 0},
    {"10,009 A", CURRENT, 1000, 10010, 10001, 0},
    {"10,010 A", CURRENT, 1001, 10011, 10011, 4},
    {"current 1,022", CURRENT, 1022, 10221, 10221, 4},
};

static void single_fields(struct fields *s)
{
    for (size_t i = 0; i < sizeof ONE / sizeof *ONE; ++i) {
        desk(s, 80);
        both_with(ONE[i].name, s, ONE[i].field, ONE[i].value, ONE[i].number, ONE[i].raised, ONE[i].refusal);
    }
}

// Lists of changes with their refusal and the field at fault: the first location, the second, which stands after the first change's fields, or the last.
static const struct { const char *name; int which; uint32_t l_sp, count, first, step, refusal; size_t field; } LISTS[] = {
    {"a speed change at L_SP - 1", SPEEDS, 1000, 1, 999, 1, 0, 0},
    {"a speed change at L_SP", SPEEDS, 1000, 1, 1000, 1, 5, SPEEDS + 1},
    {"a speed change at 16,777,215", SPEEDS, 1000, 1, 16777215, 1, 5, SPEEDS + 1},
    {"a speed change at 0", SPEEDS, 1000, 1, 0, 1, 5, SPEEDS + 1},
    {"two speed changes at one place", SPEEDS, 1000, 2, 500, 0, 5, SPEEDS + 5},
    {"31 speed changes from 1", SPEEDS, 32, 31, 1, 1, 0, 0},
    {"a voltage change at L_SP - 1", VOLTAGES, 1000, 1, 999, 1, 0, 0},
    {"a voltage change at L_SP", VOLTAGES, 1000, 1, 1000, 1, 5, VOLTAGES + 1},
    {"a voltage change at 0", VOLTAGES, 1000, 1, 0, 1, 5, VOLTAGES + 1},
    {"two voltage changes at one place", VOLTAGES, 1000, 2, 500, 0, 5, VOLTAGES + 4},
    {"23 voltage changes", VOLTAGES, 1000, 23, 1, 40, 0, 0},
    {"24 voltage changes", VOLTAGES, 1000, 24, 1, 40, 0, 0},
    {"30 voltage changes", VOLTAGES, 1000, 30, 1, 33, 0, 0},
    {"31 voltage changes from 1", VOLTAGES, 32, 31, 1, 1, 0, 0},
    {"31 voltage changes, the last at L_SP", VOLTAGES, 31, 31, 1, 1, 5, VOLTAGES + 91},
    {"a current change at L_SP - 1", CURRENTS, 1000, 1, 999, 1, 0, 0},
    {"a current change at L_SP", CURRENTS, 1000, 1, 1000, 1, 5, CURRENTS + 1},
    {"a current change at 0", CURRENTS, 1000, 1, 0, 1, 5, CURRENTS + 1},
    {"two current changes at one place", CURRENTS, 1000, 2, 500, 0, 5, CURRENTS + 3},
    {"23 current changes", CURRENTS, 1000, 23, 1, 40, 0, 0},
    {"24 current changes", CURRENTS, 1000, 24, 1, 40, 0, 0},
    {"30 current changes", CURRENTS, 1000, 30, 1, 33, 0, 0},
    {"31 current changes from 1", CURRENTS, 32, 31, 1, 1, 0, 0},
    {"31 current changes, the last at L_SP", CURRENTS, 31, 31, 1, 1, 5, CURRENTS + 61},
};

// Counts that five bits do not hold, so that only a sheet can have them: all the changes are there.
static const struct { const char *name; int which; uint32_t count; } PAST[] = {
    {"32 speed changes", SPEEDS, 32},
    {"32 voltage changes", VOLTAGES, 32},
    {"63 voltage changes", VOLTAGES, 63},
    {"32 current changes", CURRENTS, 32},
    {"63 current changes", CURRENTS, 63},
};

static void lists(struct fields *s)
{
    for (size_t i = 0; i < sizeof LISTS / sizeof *LISTS; ++i) {
        list(s, LISTS[i].which, LISTS[i].l_sp, LISTS[i].count, LISTS[i].first, LISTS[i].step);
        both(LISTS[i].name, s, LISTS[i].refusal, LISTS[i].field);
    }
    for (size_t i = 0; i < sizeof PAST / sizeof *PAST; ++i) {
        list(s, PAST[i].which, 1000, PAST[i].count, 1, 1);
        sheet_with(PAST[i].name, s, (size_t)PAST[i].which, PAST[i].count, 4);
    }
}

// ---- Damage, with the places counted by hand

// Checks that a packet is refused; a segment's packet is refused by the questions too.
static void packet_refused(const char *name, const struct bytes *packet, uint32_t refusal, uint32_t place)
{
    refuses(name, seglink_packet_to_sheet, packet, refusal, place);
    if (packet->byte[0] == 6)
        packet_asked(name, packet, refusal, place);
}

// Damaged packets: `length` bytes, a body of `bits` bits, and `width` bits from the bit `at` on changed to `value`; the place is the first bit of
// the field at fault. The desk packet has 185 bits after the bit 120, the journey's 209: the last count of five bits begins at 300 and 324.
// The restriction has 73 bits more, its fields begin at 329, 331, 333, 357, 381, 382, 389 and 392.
#define DESK &desk_packet, 39, 185
#define JOURNEY &journey_packet, 42, 209
#define RESTRICTED &restricted_packet, 51, 282
#define UNCHANGED 0, 0, 0
static const struct { const char *name; const struct bytes *whole; size_t length; uint32_t bits, at, width, value, refusal, place; } PACKETS[] = {
    {"an empty packet", &desk_packet, 0, 185, UNCHANGED, 1, 0},
    {"a packet of 14 bytes", &desk_packet, 14, 185, UNCHANGED, 1, 0},
    {"a packet of 15 bytes", &desk_packet, 15, 185, UNCHANGED, 3, 0},
    {"a packet without its last byte", &desk_packet, 38, 185, UNCHANGED, 3, 0},
    {"a packet with a byte more", &desk_packet, 40, 185, UNCHANGED, 3, 0},
    {"a body of no bits", &desk_packet, 15, 0, UNCHANGED, 6, 120},
    {"NID_C, a bit short", &desk_packet, 17, 9, UNCHANGED, 6, 120},
    {"NID_C and no more", &desk_packet, 17, 10, UNCHANGED, 6, 130},
    {"V_STATIC, a bit short", &desk_packet, 33, 139, UNCHANGED, 6, 253},
    {"V_STATIC and no more", &desk_packet, 33, 140, UNCHANGED, 6, 260},
    {"a last field that does not fit", &desk_packet, 38, 184, UNCHANGED, 6, 300},
    {"a bit that remains", &desk_packet, 39, 186, UNCHANGED, 13, 305},
    {"a bit that remains, and a padding bit", &desk_packet, 39, 186, 304, 8, 0x20, 13, 305},
    {"bits that remain in a byte more", &desk_packet, 40, 193, UNCHANGED, 13, 305},
    {"the last padding bit", DESK, 304, 8, 0x01, 7, 311},
    {"the first padding bit", DESK, 304, 8, 0x40, 7, 305},
    {"two padding bits", DESK, 304, 8, 0x24, 7, 306},
    {"all padding bits", DESK, 304, 8, 0x7F, 7, 305},
    {"a journey of 14 bytes", &journey_packet, 14, 209, UNCHANGED, 1, 0},
    {"a journey of 15 bytes", &journey_packet, 15, 209, UNCHANGED, 3, 0},
    {"a journey without its last byte", &journey_packet, 41, 209, UNCHANGED, 3, 0},
    {"a journey with a byte more", &journey_packet, 43, 209, UNCHANGED, 3, 0},
    {"a journey with a body of no bits", &journey_packet, 15, 0, UNCHANGED, 6, 120},
    {"a journey with a status and no more", &journey_packet, 16, 3, UNCHANGED, 6, 123},
    {"a journey that ends within NID_TP", &journey_packet, 28, 100, UNCHANGED, 6, 195},
    {"a journey whose last count does not fit", &journey_packet, 41, 208, UNCHANGED, 6, 324},
    {"a journey with a bit that remains", &journey_packet, 42, 210, UNCHANGED, 13, 329},
    {"a journey with a padding bit", JOURNEY, 328, 8, 0x01, 7, 335},
    {"a journey with the first padding bit", JOURNEY, 328, 8, 0x40, 7, 329},
    {"a journey with two padding bits", JOURNEY, 328, 8, 0x24, 7, 330},
    {"a first digit E", DESK, 24, 4, 14, 4, 24},
    {"a last digit A", DESK, 52, 4, 10, 4, 24},
    {"seconds 86,400 at their bit", DESK, 95, 17, 86400, 4, 95},
    {"L_SP 0 at its bit", DESK, 178, 24, 0, 4, 178},
    {"Q_UTC_Offset 127", DESK, 226, 7, 127, 4, 226},
    {"V_STATIC 121", DESK, 253, 7, 121, 4, 253},
    {"an entry of zeros, and NID_CTRACTION after it", DESK, 261, 5, 1, 4, 288},
    {"a speed change of what follows", DESK, 266, 5, 1, 5, 271},
    {"voltage 15", DESK, 271, 4, 15, 4, 271},
    {"the last bit of NID_CTRACTION", DESK, 284, 1, 1, 4, 275},
    {"23 voltage changes that are not there", DESK, 285, 5, 23, 6, 290},
    {"24 voltage changes that are not there", DESK, 285, 5, 24, 6, 290},
    {"31 voltage changes that are not there", DESK, 285, 5, 31, 6, 290},
    {"current 1,001 in its bits", DESK, 290, 10, 1001, 4, 290},
    {"a current change that is not there", DESK, 300, 5, 1, 6, 305},
    {"24 current changes that are not there", DESK, 300, 5, 24, 6, 305},
    {"31 current changes that are not there", DESK, 300, 5, 31, 6, 305},
    {"a journey with a digit B", JOURNEY, 40, 4, 11, 4, 24},
    {"Q_JP_Status 7", JOURNEY, 120, 3, 7, 4, 120},
    {"a journey of no segments, with one", JOURNEY, 123, 8, 0, 13, 131},
    {"a journey of two segments, with one", JOURNEY, 123, 8, 2, 6, 329},
    {"no timing points, and 14 constraints of what follows", JOURNEY, 190, 5, 0, 4, 228},
    {"two timing points, with one", JOURNEY, 190, 5, 2, 6, 324},
    {"arrival seconds 131,071", JOURNEY, 242, 17, 131071, 4, 242},
    {"alignment 3 in its bits", JOURNEY, 269, 2, 3, 4, 269},
    {"stop kind 3 in its bits", JOURNEY, 271, 2, 3, 4, 271},
    {"a passing point with all eight fields", JOURNEY, 271, 2, 2, 4, 276},
    {"information 3", JOURNEY, 273, 2, 3, 4, 273},
    {"departure seconds 86,400 in their bits", JOURNEY, 296, 17, 86400, 4, 296},
    {"16 temporary constraints that are not there", JOURNEY, 324, 1, 1, 6, 329},
    {"a constraint cut before its range", &restricted_packet, 42, 211, UNCHANGED, 6, 331},
    {"a constraint cut within its start", &restricted_packet, 44, 230, UNCHANGED, 6, 333},
    {"a constraint cut within its end", &restricted_packet, 48, 260, UNCHANGED, 6, 357},
    {"a constraint cut before its speed", &restricted_packet, 48, 262, UNCHANGED, 6, 382},
    {"a constraint cut within its current", &restricted_packet, 51, 281, UNCHANGED, 6, 392},
    {"a constraint and a bit that remains", &restricted_packet, 51, 283, UNCHANGED, 13, 402},
    {"a constraint and a padding bit", RESTRICTED, 402, 1, 1, 7, 402},
    {"no constraints, with one", RESTRICTED, 324, 5, 0, 13, 329},
    {"two constraints, with one", RESTRICTED, 324, 5, 2, 6, 402},
    {"31 constraints, with one", RESTRICTED, 324, 5, 31, 6, 402},
    {"low adhesion with Q_FRONT, in its bits", RESTRICTED, 329, 2, 1, 4, 381},
    {"driving modes with Q_FRONT, in their bits", RESTRICTED, 329, 2, 3, 4, 381},
    {"a constraint that starts, with an end", RESTRICTED, 331, 2, 0, 4, 357},
    {"a constraint that ends, with a start", RESTRICTED, 331, 2, 1, 4, 333},
    {"a constraint on the whole segment, with a start", RESTRICTED, 331, 2, 3, 4, 333},
    {"a start at its end", RESTRICTED, 333, 24, 2500, 5, 357},
    {"a start past its end", RESTRICTED, 333, 24, 16777215, 5, 357},
    {"an end before its start", RESTRICTED, 357, 24, 999, 5, 357},
    {"V_Speed_Level 121", RESTRICTED, 382, 7, 121, 4, 382},
    {"V_Speed_Level 127", RESTRICTED, 382, 7, 127, 4, 382},
    {"an adhesion beside a speed, in its bits", RESTRICTED, 389, 3, 1, 4, 389},
    {"a constraint's current 0 in its bits", RESTRICTED, 392, 10, 0, 4, 392},
    {"a constraint's current 1,000 in its bits", RESTRICTED, 392, 10, 1000, 4, 392},
    {"a constraint's current 1,022 in its bits", RESTRICTED, 401, 1, 0, 4, 392},
};

static void replace_bits(struct bytes *b, size_t at, uint32_t width, uint32_t value)
{
    for (size_t bit = at; bit < at + width; ++bit)
        b->byte[bit / 8] &= (uint8_t)~(0x80 >> bit % 8);
    put_bits(b, &at, width, value);
}

static void damaged_packets(void)
{
    for (size_t i = 0; i < sizeof PACKETS / sizeof *PACKETS; ++i) {
        struct bytes b = *PACKETS[i].whole;
        replace_bits(&b, 8, 16, PACKETS[i].bits);
        replace_bits(&b, PACKETS[i].at, PACKETS[i].width, PACKETS[i].value);
        b.length = PACKETS[i].length;
        packet_refused(PACKETS[i].name, &b, PACKETS[i].refusal, PACKETS[i].place);
    }
}

// Damaged sheets: the first `kept` bytes of `whole`, then the bytes `after`. The numbers of the desk sheet have a byte each, but for
// NID_OPERATIONAL, which has the bytes 1 to 3; the journey's numbers have one to five. A restriction's numbers begin at 52, 53, 54, 56 and 58 to 61.
#define BYTES(text) text, sizeof text - 1
static const struct { const char *name; const struct bytes *whole; size_t kept; const char *after; size_t count; uint32_t refusal, place; } SHEETS[] = {
    {"an empty sheet", &desk_sheet, 0, BYTES(""), 9, 0},
    {"the number 80 00", &desk_sheet, 0, BYTES("\x80\x00"), 9, 0},
    {"the packet number as 86 00", &desk_sheet, 0, BYTES("\x86\x00"), 9, 0},
    {"packet number 7 and no more", &desk_sheet, 0, BYTES("\x07"), 2, 0},
    {"a sheet that ends within a number", &desk_sheet, 2, BYTES(""), 9, 1},
    {"the number 4,294,967,296", &desk_sheet, 1, BYTES("\x80\x80\x80\x80\x10"), 9, 1},
    {"a number of six groups", &desk_sheet, 1, BYTES("\x80\x80\x80\x80\x80\x01"), 9, 1},
    {"NID_OPERATIONAL A", &desk_sheet, 1, BYTES("\x0A"), 4, 1},
    {"NID_ENGINE 16,777,216", &desk_sheet, 4, BYTES("\x80\x80\x80\x08"), 4, 4},
    {"L_SP 0, and no more", &desk_sheet, 12, BYTES("\x00"), 4, 12},
    {"L_SP as 81 00", &desk_sheet, 12, BYTES("\x81\x00"), 9, 12},
    {"605 km/h, and no more", &desk_sheet, 16, BYTES("\xDD\x04"), 4, 16},
    {"Q_FRONT 2", &desk_sheet, 17, BYTES("\x02"), 4, 17},
    {"a speed change at 0, and no more", &desk_sheet, 19, BYTES("\x01\x00"), 5, 20},
    {"a speed change at 4,294,967,295", &desk_sheet, 19, BYTES("\x01\xFF\xFF\xFF\xFF\x0F"), 5, 20},
    {"two speed changes at 5", &desk_sheet, 12, BYTES("\x64\x00\x00\x00\x50\x00\x00\x02\x05\x50\x00\x00\x05"), 5, 24},
    {"600 V, and no more", &desk_sheet, 20, BYTES("\xD8\x04"), 4, 20},
    {"NID_CTRACTION at voltage 0, and no more", &desk_sheet, 21, BYTES("\x01"), 4, 21},
    {"31 voltage changes, and no more", &desk_sheet, 22, BYTES("\x1F"), 9, 23},
    {"32 voltage changes, and no more", &desk_sheet, 22, BYTES("\x20"), 4, 22},
    {"4,294,967,295 voltage changes, and no more", &desk_sheet, 22, BYTES("\xFF\xFF\xFF\xFF\x0F"), 4, 22},
    {"10,010 A, and no more", &desk_sheet, 23, BYTES("\x9B\x4E"), 4, 23},
    {"24 current changes, and no more", &desk_sheet, 24, BYTES("\x18"), 9, 25},
    {"31 current changes, and no more", &desk_sheet, 24, BYTES("\x1F"), 9, 25},
    {"32 current changes, and no more", &desk_sheet, 24, BYTES("\x20"), 4, 24},
    {"4,294,967,295 current changes, and no more", &desk_sheet, 24, BYTES("\xFF\xFF\xFF\xFF\x0F"), 4, 24},
    {"a sheet without its last byte", &desk_sheet, 24, BYTES(""), 9, 24},
    {"a sheet with a byte more", &desk_sheet, 25, BYTES("\x00"), 9, 25},
    {"a sheet with part of a number more", &desk_sheet, 25, BYTES("\x80\x80"), 9, 25},
    {"Q_JP_Status 5, and no more", &journey_sheet, 8, BYTES("\x05"), 4, 8},
    {"NID_C 1,024, and no more", &journey_sheet, 10, BYTES("\x80\x08"), 4, 10},
    {"a journey's sheet that ends within NID_TP", &journey_sheet, 24, BYTES(""), 9, 22},
    {"NID_TP with a last group 0", &journey_sheet, 26, BYTES("\x00"), 9, 22},
    {"arrival seconds 86,401, and no more", &journey_sheet, 29, BYTES("\x81\xA3\x05"), 4, 29},
    {"a passing point with a door side", &journey_sheet, 35, BYTES("\x02\x01\x01\x02"), 4, 38},
    {"departure seconds 86,400, and no more", &journey_sheet, 45, BYTES("\x80\xA3\x05"), 4, 45},
    {"32 temporary constraints", &journey_sheet, 51, BYTES("\x20"), 4, 51},
    {"one temporary constraint, and no more", &journey_sheet, 51, BYTES("\x01"), 9, 52},
    {"the fifth type, and no more", &restricted_sheet, 52, BYTES("\x04"), 4, 52},
    {"a range past the whole segment, and no more", &restricted_sheet, 53, BYTES("\x04"), 4, 53},
    {"a start past 24 bits, and no more", &restricted_sheet, 54, BYTES("\x80\x80\x80\x08"), 4, 54},
    {"an end past 24 bits, and no more", &restricted_sheet, 56, BYTES("\x80\x80\x80\x08"), 4, 56},
    {"an end of 4,294,967,295, and no more", &restricted_sheet, 56, BYTES("\xFF\xFF\xFF\xFF\x0F"), 4, 56},
    {"an end past 24 bits after the last start", &restricted_sheet, 54, BYTES("\xFF\xFF\xFF\x07\x80\x80\x80\x08"), 4, 58},
    {"an end at the last start", &restricted_sheet, 54, BYTES("\xFF\xFF\xFF\x07\xFF\xFF\xFF\x07"), 5, 58},
    {"an end at its start, and no more", &restricted_sheet, 56, BYTES("\xE8\x07"), 5, 56},
    {"an end at 0, and no more", &restricted_sheet, 56, BYTES("\x00"), 5, 56},
    {"an end with a last group 0", &restricted_sheet, 57, BYTES("\x00"), 9, 56},
    {"Q_FRONT 2 of a constraint", &restricted_sheet, 58, BYTES("\x02"), 4, 58},
    {"605 km/h of a constraint, and no more", &restricted_sheet, 59, BYTES("\xDD\x04"), 4, 59},
    {"an adhesion beside a speed, and no more", &restricted_sheet, 60, BYTES("\x01"), 4, 60},
    {"a constraint's current of 0 A, and no more", &restricted_sheet, 61, BYTES("\x01"), 4, 61},
    {"a constraint's current of 1,023, and no more", &restricted_sheet, 61, BYTES("\xFF\x07"), 4, 61},
    {"low adhesion with 3 km/h, and no more", &restricted_sheet, 52, BYTES("\x01\x03\x00\x00\x00\x03"), 4, 57},
    {"driving modes with 3 km/h, and no more", &restricted_sheet, 52, BYTES("\x03\x03\x00\x00\x00\x03"), 4, 57},
    {"a restriction's sheet with a byte more", &restricted_sheet, 62, BYTES("\x00"), 9, 62},
    {"a journey's sheet with a byte more", &journey_sheet, 52, BYTES("\x00"), 9, 52},
};

static void damaged_sheets(void)
{
    for (size_t i = 0; i < sizeof SHEETS / sizeof *SHEETS; ++i) {
        struct bytes b = *SHEETS[i].whole;
        memcpy(b.byte + SHEETS[i].kept, SHEETS[i].after, SHEETS[i].count);
        b.length = SHEETS[i].kept + SHEETS[i].count;
        refuses(SHEETS[i].name, seglink_sheet_to_packet, &b, SHEETS[i].refusal, SHEETS[i].place);
        if (SHEETS[i].whole == &desk_sheet)
            sheet_asked(SHEETS[i].name, &b, SHEETS[i].refusal, SHEETS[i].place);
    }
}

// ---- Speeds by cant deficiency, worked out by hand

// Speeds at 0 cm of the desk sheet, 80 km/h, with entries from the byte 19 on: from the sheet, and from its packet. The sheet's last six numbers are 0.
#define MM(figure) {.length = 200, .cant = figure, .maximum = 600}
#define FOR_100_AND_165 2, BYTES("\x00\x64\x6E\x00\xA5\x01\x82\x01")
#define BESIDE_CATEGORIES 3, BYTES("\x00\x64\x70\x01\x01\x8C\x01\x02\x02\x68")
static const struct { const char *name; uint8_t count; const char *entries; size_t length; seglink_train train; uint32_t sheet, packet; } BY_CANT[] = {
    {"entries for 100 and 165: 150 mm", FOR_100_AND_165, MM(150), 110, 110},
    {"entries for 100 and 165: 80 mm", FOR_100_AND_165, MM(80), 80, 80},
    {"entries for 100 and 165: 100 mm", FOR_100_AND_165, MM(100), 110, 110},
    {"entries for 100 and 165: 165 mm", FOR_100_AND_165, MM(165), 130, 130},
    {"entries for 100 and 165: 300 mm", FOR_100_AND_165, MM(300), 130, 130},
    {"an entry for 165, then one for 100", 2, BYTES("\x00\xA5\x01\x82\x01\x00\x64\x6E"), MM(150), 110, 110},
    {"an entry for 100 below V_STATIC", 2, BYTES("\x00\x64\x3C\x00\xA5\x01\x28"), MM(150), 60, 60},
    {"an own figure beside slower lower ones", 3, BYTES("\x00\x82\x01\x3C\x00\x96\x01\x78\x00\x50\x28"), MM(150), 120, 120},
    {"an own figure beside faster lower ones", 3, BYTES("\x00\x50\x78\x00\x96\x01\x3C\x00\x82\x01\x64"), MM(150), 60, 60},
    {"several entries of the figure", 3, BYTES("\x00\x64\x7C\x00\x64\x76\x00\x64\x83\x01"), MM(150), 118, 115},
    {"an entry for 165 alone", 1, BYTES("\x00\xA5\x01\x3C"), MM(150), 80, 80},
    {"lower figures, the greater of them faster", 2, BYTES("\x00\x50\x3C\x00\x82\x01\x78"), MM(150), 120, 120},
    {"lower figures, the greater of them slower", 2, BYTES("\x00\x50\x78\x00\x82\x01\x3C"), MM(150), 60, 60},
    {"a lower figure beside categories", BESIDE_CATEGORIES, MM(150), 112, 110},
    {"a lower figure, and freight G instead", BESIDE_CATEGORIES, {.length = 200, .cant = 150, .maximum = 600, .freight_g = true}, 140, 140},
    {"a lower figure, and passenger lower", BESIDE_CATEGORIES, {.length = 200, .cant = 150, .maximum = 600, .passenger = true}, 104, 100},
};

static void speeds_by_cant(void)
{
    for (size_t i = 0; i < sizeof BY_CANT / sizeof *BY_CANT; ++i) {
        struct bytes sheet = desk_sheet, packet;
        sheet.byte[18] = BY_CANT[i].count;
        memcpy(sheet.byte + 19, BY_CANT[i].entries, BY_CANT[i].length);
        sheet.length += BY_CANT[i].length;
        seglink_converted made = seglink_sheet_to_packet(sheet.byte, sheet.length, packet.byte, sizeof packet.byte);
        packet.length = made.length;
        check(BY_CANT[i].name, "the refusal of its packet", made.refusal, 0);
        kinds_asked(BY_CANT[i].name, SEGLINK_KIND_SHEET, &sheet, BY_CANT[i].train, 0, (seglink_speed){0, 0, BY_CANT[i].sheet});
        kinds_asked(BY_CANT[i].name, SEGLINK_KIND_PACKET, &packet, BY_CANT[i].train, 0, (seglink_speed){0, 0, BY_CANT[i].packet});
    }
}

// ---- Speeds by the train's maximum

// Speeds at 0 cm of the desk's segment with another V_STATIC, and a train with a maximum: from the packet and from the sheet.
static const struct { uint32_t profile, maximum, packet, sheet; } BY_MAXIMUM[] = {
    {100, 83, 83, 83}, {85, 83, 83, 83}, {84, 83, 80, 83}, {83, 83, 80, 83}, {82, 83, 80, 82}, {80, 83, 80, 80}, {80, 80, 80, 80},
    {100, 1, 1, 1}, {4, 1, 0, 1}, {1, 1, 0, 1}, {0, 1, 0, 0}, {604, 600, 600, 600}, {600, 600, 600, 600}, {599, 600, 595, 599},
    {604, 599, 599, 599}, {600, 599, 599, 599}, {604, 2, 2, 2},
};

// Maxima that are not allowed; the low bits of some are those of one that is.
static const uint32_t NO_MAXIMA[] = {0, 601, 604, 605, 65536, 65619, 0x80000053, 0xFFFFFFFF};

static void speeds_by_maximum(struct fields *s)
{
    static const char name[] = "a train's maximum", refused[] = "a maximum that is not allowed";
    seglink_train train = {.length = 200, .cant = 150};
    for (size_t i = 0; i < sizeof BY_MAXIMUM / sizeof *BY_MAXIMUM; ++i) {
        desk(s, BY_MAXIMUM[i].profile);
        struct bytes packet = packet_of(s), sheet = sheet_of(s, false);
        train.maximum = BY_MAXIMUM[i].maximum;
        kinds_asked(name, SEGLINK_KIND_PACKET, &packet, train, 0, (seglink_speed){0, 0, BY_MAXIMUM[i].packet});
        kinds_asked(name, SEGLINK_KIND_SHEET, &sheet, train, 0, (seglink_speed){0, 0, BY_MAXIMUM[i].sheet});
        speed_asked(name, SEGLINK_KIND_SHEET, &sheet, train, 1, (seglink_speed){11, 0, 0});
    }
    for (size_t i = 0; i < sizeof NO_MAXIMA / sizeof *NO_MAXIMA; ++i) {
        struct bytes cut = desk_sheet;
        cut.length = 24;
        train.maximum = NO_MAXIMA[i];
        for (uint32_t x = 0; x < 2; ++x) {
            speed_asked(refused, SEGLINK_KIND_PACKET, &desk_packet, train, x, (seglink_speed){10, 0, 0});
            speed_asked(refused, SEGLINK_KIND_SHEET, &desk_sheet, train, x, (seglink_speed){10, 0, 0});
            speed_asked(refused, SEGLINK_KIND_SHEET, &cut, train, x, (seglink_speed){9, 24, 0});
        }
    }
}

// ---- Speeds by kind

// Bytes that are a packet of 81,924 cm and 105 km/h, and also a sheet of 100 cm and 84 km/h with five entries for freight P.
static const struct bytes packet_and_sheet = {
    39, {0x06, 0x00, 0xB9, 0x01, 0x00, 0x00, 0x07, 0x00, 0x00, 0x00, 0x00, 0x64, 0x00, 0x00, 0x00, 0x54, 0x00, 0x05,
         0x01, 0x00, 0x50, 0x01, 0x00, 0x50, 0x01, 0x00, 0x50, 0x01, 0x00, 0x50, 0x01, 0x01, 0x50, 0, 0, 0, 0, 0, 0}};

// Questions about bytes as a packet and as a sheet; a train that is not allowed is refused before x.
static const struct { const char *name; const struct bytes *asked; seglink_train train; uint32_t x; seglink_speed packet, sheet; } BY_KIND[] = {
    {"a packet that is a sheet too, at 0", &packet_and_sheet, MM(150), 0, {0, 0, 105}, {0, 0, 84}},
    {"a packet that is a sheet too, freight P", &packet_and_sheet, {.length = 200, .cant = 150, .maximum = 600, .freight_p = true}, 0, {0, 0, 105}, {0, 0, 80}},
    {"a packet that is a sheet too, at 99", &packet_and_sheet, MM(150), 99, {0, 0, 105}, {0, 0, 84}},
    {"a packet that is a sheet too, at 100", &packet_and_sheet, MM(150), 100, {0, 0, 105}, {11, 0, 0}},
    {"a packet that is a sheet too, at 81,924", &packet_and_sheet, MM(150), 81924, {11, 0, 0}, {11, 0, 0}},
    {"a packet that is a sheet too, with 151 mm", &packet_and_sheet, MM(151), 81924, {10, 0, 0}, {10, 0, 0}},
    {"the desk packet", &desk_packet, MM(150), 0, {0, 0, 80}, {9, 2, 0}},
    {"the desk sheet", &desk_sheet, MM(150), 0, {3, 0, 0}, {0, 0, 80}},
};

static void speeds_by_kind(void)
{
    for (size_t i = 0; i < sizeof BY_KIND / sizeof *BY_KIND; ++i) {
        speed_asked(BY_KIND[i].name, SEGLINK_KIND_PACKET, BY_KIND[i].asked, BY_KIND[i].train, BY_KIND[i].x, BY_KIND[i].packet);
        kinds_asked(BY_KIND[i].name, SEGLINK_KIND_SHEET, BY_KIND[i].asked, BY_KIND[i].train, BY_KIND[i].x, BY_KIND[i].sheet);
    }
}

// ---- The cases of journeys

// Changes of one field of the journey of one timing point.
static const struct { const char *name; size_t field; uint32_t value, refusal; } STOPPED[] = {
    {"a journey with packet number 5", NUMBER, 5, 2},
    {"a journey with packet number 7", NUMBER, 7, 2},
    {"a journey with packet number 0", NUMBER, 0, 2},
    {"a journey with a digit A in NID_OPERATIONAL", OPERATIONAL, 0x0001A345, 4},
    {"a journey with seconds 86,399", SECONDS, 86399, 0},
    {"a journey with seconds 86,400", SECONDS, 86400, 4},
    {"Q_JP_Status 4", JP_STATUS, 4, 0},
    {"Q_JP_Status 5", JP_STATUS, 5, 4},
    {"Q_SP_DIR 0", SP_DIR, 0, 0},
    {"NID_TP 4,294,967,295", NID_TP, 0xFFFFFFFF, 0},
    {"arrival date 32,767", ARRIVAL_DATE, 32767, 0},
    {"arrival seconds 86,400", ARRIVAL_SECONDS, 86400, 0},
    {"arrival seconds 86,401", ARRIVAL_SECONDS, 86401, 4},
    {"arrival window 1,023", ARRIVAL_WINDOW, 1023, 0},
    {"alignment 2", TP_ALIGNMENT, 2, 0},
    {"alignment 3", TP_ALIGNMENT, 3, 4},
    {"a skipped stopping point", STOP_SKIP_PASSES, 1, 0},
    {"stop kind 3", STOP_SKIP_PASSES, 3, 4},
    {"information 0", TP_INFORMATION, 0, 0},
    {"information 2", TP_INFORMATION, 2, 4},
    {"door side 3", DOOR_SIDE, 3, 0},
    {"departure seconds 86,399", DEPARTURE_SECONDS, 86399, 0},
    {"departure seconds 86,400", DEPARTURE_SECONDS, 86400, 4},
    {"minimum dwell time 1,023", DWELL_TIME, 1023, 0},
};

// Changes of one field of the journey whose timing point is passed: each of the last eight fields.
static const struct { const char *name; size_t field; uint32_t value, refusal; } PASSED[] = {
    {"a passing point", STOP_SKIP_PASSES, 2, 0},
    {"a door side at a passing point", DOOR_SIDE, 1, 4},
    {"centralised opening at a passing point", CENTRALISED_OPENING, 1, 4},
    {"a relaxed coupler at a passing point", RELAXED_COUPLER, 1, 4},
    {"train hold at a passing point", TRAIN_HOLD, 1, 4},
    {"a departure date at a passing point", DEPARTURE_DATE, 16384, 4},
    {"departure seconds at a passing point", DEPARTURE_SECONDS, 1, 4},
    {"minimum dwell time at a passing point", DWELL_TIME, 512, 4},
    {"automatic closing at a passing point", AUTOMATIC_CLOSING, 1, 4},
};

static void one_changed(struct fields *s, bool passed, const char *name, size_t field, uint32_t value, uint32_t refusal)
{
    one_journey(s, passed);
    both_with(name, s, field, value, value, value, refusal);
}

// Numbers of a journey that a sheet can have and the packet's field cannot hold.
static const struct { const char *name; size_t field; uint32_t number; } WIDE[] = {
    {"packet number 260", NUMBER, 260},
    {"256 segments", SEGMENTS, 256},
    {"NID_C 1,024", FIRST_NID_C, 1024},
    {"version 256", FIRST_VERSION_Y, 256},
    {"Q_SP_DIR 2", SP_DIR, 2},
    {"32 timing points", POINTS, 32},
    {"arrival date 32,768", ARRIVAL_DATE, 32768},
    {"arrival window 1,024", ARRIVAL_WINDOW, 1024},
    {"daylight saving 2", DAY_LIGHT_SAVING, 2},
    {"door side 4", DOOR_SIDE, 4},
    {"departure date 32,768", DEPARTURE_DATE, 32768},
    {"minimum dwell time 1,024", DWELL_TIME, 1024},
    {"automatic closing 2", AUTOMATIC_CLOSING, 2},
    {"32 temporary constraints", CONSTRAINTS, 32},
};

static void journey_fields(struct fields *s)
{
    for (size_t i = 0; i < sizeof STOPPED / sizeof *STOPPED; ++i)
        one_changed(s, false, STOPPED[i].name, STOPPED[i].field, STOPPED[i].value, STOPPED[i].refusal);
    for (size_t i = 0; i < sizeof PASSED / sizeof *PASSED; ++i)
        one_changed(s, true, PASSED[i].name, PASSED[i].field, PASSED[i].value, PASSED[i].refusal);
    for (size_t i = 0; i < sizeof WIDE / sizeof *WIDE; ++i) {
        one_journey(s, false);
        sheet_with(WIDE[i].name, s, WIDE[i].field, WIDE[i].number, WIDE[i].field == NUMBER ? 2 : 4);
    }
}

// Constraints by their numbers from Q_TC_Type to Q_Low_Adhesion_Rate; a case changes one field of them.
enum { STARTS, RESTRICTS, SLIPPERY, MODES, GOA1 };
static const uint32_t GIVEN[][7] = {
    [STARTS] = {0, 0, 1000, 0, 0, 43, 0}, [RESTRICTS] = {0, 2, 1000, 2500, 1, 43, 0}, [SLIPPERY] = {1, 1, 0, 2500, 0, 0, 5},
    [MODES] = {2, 3, 0, 0, 0, 0, 0}, [GOA1] = {3, 3, 0, 0, 0, 0, 0}};

// Changes of one field of a constraint: its value and number, the number that comes back, and the refusal, 5 if the start is not below the end.
static const struct { const char *name; int given; size_t field; uint32_t value, number, raised, refusal; } CONSTRAINED[] = {
    {"a start at 0", STARTS, TC_START, 0, 0, 0, 0},
    {"a start at the last location", STARTS, TC_START, 16777215, 16777215, 16777215, 0},
    {"a start, with an end", STARTS, TC_END, 1, 1, 1, 4},
    {"a start, with the last end", STARTS, TC_END, 16777215, 16777215, 16777215, 4},
    {"an end at 0 without a start", SLIPPERY, TC_END, 0, 0, 0, 0},
    {"an end at the last location", SLIPPERY, TC_END, 16777215, 16777215, 16777215, 0},
    {"an end, with a start", SLIPPERY, TC_START, 1, 1, 1, 4},
    {"the whole segment, with a start", MODES, TC_START, 1, 1, 1, 4},
    {"the whole segment, with an end", GOA1, TC_END, 1, 1, 1, 4},
    {"a start a centimetre below its end", RESTRICTS, TC_START, 2499, 2499, 2499, 0},
    {"an end a centimetre past its start", RESTRICTS, TC_END, 1001, 1001, 1001, 0},
    {"an end at the last location, after a start", RESTRICTS, TC_END, 16777215, 16777215, 16777215, 0},
    {"an end at its start", RESTRICTS, TC_END, 1000, 1000, 1000, 5},
    {"an end a centimetre before its start", RESTRICTS, TC_END, 999, 999, 999, 5},
    {"an end at 0 after a start", RESTRICTS, TC_END, 0, 0, 0, 5},
    {"Q_FRONT 0 of a speed", RESTRICTS, TC_FRONT, 0, 0, 0, 0},
    {"Q_FRONT of low adhesion", SLIPPERY, TC_FRONT, 1, 1, 1, 4},
    {"Q_FRONT of driving modes", MODES, TC_FRONT, 1, 1, 1, 4},
    {"a restriction to 0 km/h", RESTRICTS, TC_SPEED, 0, 0, 0, 0},
    {"a restriction to 4 km/h", RESTRICTS, TC_SPEED, 0, 4, 0, 0},
    {"a restriction to 5 km/h", RESTRICTS, TC_SPEED, 1, 5, 5, 0},
    {"a restriction to 84 km/h", STARTS, TC_SPEED, 16, 84, 80, 0},
    {"a restriction to 129 km/h", RESTRICTS, TC_SPEED, 25, 129, 125, 0},
    {"a restriction to 599 km/h", STARTS, TC_SPEED, 119, 599, 595, 0},
    {"a restriction to 604 km/h", RESTRICTS, TC_SPEED, 120, 604, 600, 0},
    {"a restriction to 605 km/h", RESTRICTS, TC_SPEED, 121, 605, 605, 4},
    {"a restriction to 639 km/h", STARTS, TC_SPEED, 127, 639, 639, 4},
    {"a speed of low adhesion", SLIPPERY, TC_SPEED, 1, 5, 5, 4},
    {"a speed of driving modes", MODES, TC_SPEED, 120, 600, 600, 4},
    {"a speed of the driving mode GoA1", GOA1, TC_SPEED, 1, 3, 3, 4},
    {"adhesion 0", SLIPPERY, TC_ADHESION, 0, 0, 0, 0},
    {"adhesion 6", SLIPPERY, TC_ADHESION, 6, 6, 6, 4},
    {"adhesion 7", SLIPPERY, TC_ADHESION, 7, 7, 7, 4},
    {"an adhesion beside a speed", STARTS, TC_ADHESION, 1, 1, 1, 4},
    {"an adhesion of driving modes", MODES, TC_ADHESION, 5, 5, 5, 4},
    {"a restriction's current 0, and 0 A", RESTRICTS, TC_CURRENT, 0, 1, 1, 4},
    {"a restriction's current 1,022, and 1,023", RESTRICTS, TC_CURRENT, 1022, 1023, 1023, 4},
    {"low adhesion's current 1,000, and 10,009 A", SLIPPERY, TC_CURRENT, 1000, 10010, 10010, 4},
    {"driving modes' current 0, and 0 A", MODES, TC_CURRENT, 0, 1, 1, 4},
    {"the driving mode GoA1's current 512, and 4,294,967,295", GOA1, TC_CURRENT, 512, 0xFFFFFFFF, 0xFFFFFFFF, 4},
};

// Numbers of a constraint that only a sheet can have, as the packet's field does not hold them or lowering loses them: 4.
static const struct { const char *name; int given; size_t field; uint32_t number; } LOST[] = {
    {"type 4", STARTS, TC_TYPE, 4},
    {"type 4,294,967,295", MODES, TC_TYPE, 0xFFFFFFFF},
    {"range 4", RESTRICTS, TC_RANGE, 4},
    {"a start at 16,777,216", STARTS, TC_START, 16777216},
    {"a start at 16,777,216, before an end", RESTRICTS, TC_START, 16777216},
    {"an end at 16,777,216", SLIPPERY, TC_END, 16777216},
    {"an end at 16,777,216, after a start", RESTRICTS, TC_END, 16777216},
    {"Q_FRONT 2", RESTRICTS, TC_FRONT, 2},
    {"640 km/h of a constraint", STARTS, TC_SPEED, 640},
    {"1 km/h of low adhesion", SLIPPERY, TC_SPEED, 1},
    {"3 km/h of low adhesion", SLIPPERY, TC_SPEED, 3},
    {"4 km/h of driving modes", MODES, TC_SPEED, 4},
    {"3 km/h of the driving mode GoA1", GOA1, TC_SPEED, 3},
    {"adhesion 8", SLIPPERY, TC_ADHESION, 8},
};

static void constraints(struct fields *s)
{
    for (size_t i = 0; i < sizeof CONSTRAINED / sizeof *CONSTRAINED; ++i) {
        constrained_journey(s, GIVEN[CONSTRAINED[i].given]);
        both_with(CONSTRAINED[i].name, s, CONSTRAINED[i].field, CONSTRAINED[i].value, CONSTRAINED[i].number, CONSTRAINED[i].raised,
                  CONSTRAINED[i].refusal);
    }
    for (size_t i = 0; i < sizeof LOST / sizeof *LOST; ++i) {
        constrained_journey(s, GIVEN[LOST[i].given]);
        sheet_with(LOST[i].name, s, LOST[i].field, LOST[i].number, 4);
    }
}

// Checks the restriction: the sheet and the lowered sheet that comes back make one packet.
static void restricted(void)
{
    struct bytes lowered = restricted_sheet;
    lowered.byte[59] = 40;
    converts("a journey with a restriction, byte by byte", seglink_sheet_to_packet, &restricted_sheet, &restricted_packet);
    converts("a journey with a restriction, byte by byte", seglink_packet_to_sheet, &restricted_packet, &lowered);
    converts("a journey with a restriction, lowered", seglink_sheet_to_packet, &lowered, &restricted_packet);
    lowered.byte[59] = 45;
    struct bytes faster = restricted_packet;
    replace_bits(&faster, 382, 7, 9);
    converts("a journey with a restriction to 45 km/h", seglink_sheet_to_packet, &lowered, &faster);
}

// Checks crossed packet numbers: a segment with 4 has no segments and then bits or bytes left; a journey with 6 ends too soon.
static void crossed(void)
{
    struct bytes b = desk_packet;
    b.byte[0] = 4;
    refuses("a segment's packet with packet number 4", seglink_packet_to_sheet, &b, 13, 131);
    b = desk_sheet;
    b.byte[0] = 4;
    refuses("a segment's sheet with packet number 4", seglink_sheet_to_packet, &b, 9, 10);
    b = smallest_journey_packet;
    b.byte[0] = 6;
    refuses("a journey's packet with packet number 6", seglink_packet_to_sheet, &b, 6, 130);
    b = smallest_journey_sheet;
    b.byte[0] = 6;
    refuses("a journey's sheet with packet number 6", seglink_sheet_to_packet, &b, 9, 8);
}

// Cuts a sheet at every byte, and checks that it is refused at the first number that is not complete.
static void cut_sheets(const char *name, const struct bytes *whole)
{
    for (size_t length = 0; length < whole->length; ++length) {
        struct bytes b = *whole;
        uint32_t place = (uint32_t)length;
        while (place > 0 && b.byte[place - 1] > 127)
            --place;
        b.length = length;
        refuses(name, seglink_sheet_to_packet, &b, 9, place);
    }
}

// Checks a sheet whose body would be too long: it is refused with 12 in every room; 9 and 4 come before 12.
static void too_long(const char *name, struct fields *s, uint32_t segments, uint32_t points, uint32_t constraints, size_t bits)
{
    full_journey(s, segments, points, constraints);
    check(name, "the body's count of bits", body_bits(s), bits);
    struct bytes b = sheet_of(s, false);
    uint32_t length = (uint32_t)b.length;
    refuses(name, seglink_sheet_to_packet, &b, 12, 0);
    b.length = length + 1;
    refuses(name, seglink_sheet_to_packet, &b, 9, length);
    b.length = length - 1;
    refuses(name, seglink_sheet_to_packet, &b, 9, length - 1);
    b.length = length;
    b.byte[length - 1] = 32; // neither a count nor a constraint's current can be 32
    refuses(name, seglink_sheet_to_packet, &b, 4, length - 1);
}

// Checks that the questions refuse a journey with 2, whatever the train and x.
static void asks(const char *name, const struct bytes *packet, const struct bytes *sheet)
{
    packet_asked(name, packet, 2, 0);
    sheet_asked(name, sheet, 2, 0);
}

// The largest journeys: their segments, timing points and constraints, the bits of the body, and the bytes of packet and sheet.
static const struct { const char *name; uint32_t segments, points, constraints; size_t bits, packet, sheet; } LONGEST[] = {
    {"the largest packet of a journey without constraints", 41, 486, 0, 65534, SEGLINK_LARGEST_JOURNEY_PACKET, 15174},
    {"the largest packet of a journey", 20, 186, 550, 65535, SEGLINK_LARGEST_JOURNEY_PACKET, 14130},
    {"the largest packet of a journey without timing points", 44, 0, 856, 65535, SEGLINK_LARGEST_JOURNEY_PACKET, 13476},
    {"the largest sheet of a journey without constraints", 18, 498, 0, 65495, 8202, 15212},
    {"the largest sheet of a journey, with a constraint", 17, 498, 1, 65499, 8203, 15213},
    {"the largest sheet of a journey, with five", 17, 496, 5, 65533, SEGLINK_LARGEST_JOURNEY_PACKET, 15213},
    {"28 segments full of constraints", 28, 0, 868, 65307, 8179, 13432},
    {"255 segments", 255, 370, 1, 65409, 8192, 14706},
};

static void longest(struct fields *s)
{
    for (size_t i = 0; i < sizeof LONGEST / sizeof *LONGEST; ++i) {
        full_journey(s, LONGEST[i].segments, LONGEST[i].points, LONGEST[i].constraints);
        sizes(LONGEST[i].name, s, LONGEST[i].bits, LONGEST[i].packet, LONGEST[i].sheet);
        both(LONGEST[i].name, s, 0, 0);
    }
}

static void journeys(struct fields *s)
{
    converts("the smallest journey, byte by byte", seglink_packet_to_sheet, &smallest_journey_packet, &smallest_journey_sheet);
    converts("the smallest journey, byte by byte", seglink_sheet_to_packet, &smallest_journey_sheet, &smallest_journey_packet);
    converts("a journey, byte by byte", seglink_packet_to_sheet, &journey_packet, &journey_sheet);
    converts("a journey, byte by byte", seglink_sheet_to_packet, &journey_sheet, &journey_packet);
    converts("every field of a journey", seglink_packet_to_sheet, &whole_journey_packet, &whole_journey_sheet);
    converts("every field of a journey", seglink_sheet_to_packet, &whole_journey_sheet, &whole_journey_packet);
    smallest_journey(s);
    sizes("the smallest journey", s, 11, 17, 8);
    both("the smallest journey", s, 0, 0);
    one_journey(s, false);
    sizes("a journey of one timing point", s, 209, 42, 52);
    both("a journey of one timing point", s, 0, 0);
    mixed_journey(s);
    both("a mixed journey", s, 0, 0);
    longest(s);
    too_long("a journey of 65,536 bits", s, 62, 0, 839, 65536);
    too_long("the largest journey without constraints and a segment", s, 42, 486, 0, 65603);
    too_long("the largest journey without constraints and a timing point", s, 41, 487, 0, 65663);
    too_long("the largest journey without constraints and a constraint", s, 41, 486, 1, 65607);
    too_long("the largest journey and a constraint", s, 20, 186, 551, 65608);
    asks("the smallest journey", &smallest_journey_packet, &smallest_journey_sheet);
    asks("a journey of one timing point", &journey_packet, &journey_sheet);
    struct bytes packet = journey_packet, sheet = journey_sheet;
    packet.length = 15;
    sheet.length = 1;
    asks("a journey cut after its header, and after its packet number", &packet, &sheet);
    journey_fields(s);
    constraints(s);
    restricted();
    crossed();
    cut_sheets("a journey's sheet cut", &journey_sheet);
    cut_sheets("a restriction's sheet cut", &restricted_sheet);
}

// ---- The intake, call by call

// The room that takes packets, of up to 64 bytes, and the bytes that it must hold, both with guard bytes before and after them.
enum { TAKEN = 64, NOWHERE = TAKEN + 1 };
static uint8_t taken[GUARD + TAKEN + GUARD], held[GUARD + TAKEN + GUARD];

// A call, and the state after it. A delivery has the bytes of `from` from `begin` up to `end`, which go to the byte `at` of the room or nowhere.
// A question hands over `begin` bytes of the room that took the packet and `end` bytes for the sheet; `from` is the sheet, `after` the answer's numbers.
struct step { const char *name; enum { DELIVER, COMPLETE, ASK } call; const struct bytes *from; size_t begin, end, at; seglink_intake after; };

#define DELIVERS(from, begin, end, at) DELIVER, &from, begin, end, at
#define COMPLETES COMPLETE, NULL, 0, 0, NOWHERE
#define ASKS(sheet, taken, room) ASK, &sheet, taken, room, NOWHERE
#define GATHERING(length) {0, length, 0, 0}
#define PAST_END {1, 0, 0, 0}
#define JUDGED(length, refusal, place) {2, length, refusal, place}
#define LONG JUDGED(0, 8, 0)
#define GIVEN(length) {0, length, 0, 0}
#define REFUSED(refusal, place) {0, 0, refusal, place}
#define EARLY REFUSED(14, 0)

static const struct bytes padded_packet = {
    39, {0x06, 0x00, 0xB9, 0x00, 0x01, 0x23, 0x45, 0x00, 0x00, 0x01, 0x00, 0x00, 0x00, 0x00, 0x07,
         0, 0, 0, 0, 0, 0, 0, 0, 0, 0, 0x40, 0, 0, 0, 0, 0, 0x01, 0, 0, 0, 0, 0x3F, 0xF0, 0x24}};
static const struct bytes noise = {43, {5, 9, 9, 9, 9, 9, 9, 9, 9, 9, 9, 9, 9, 9, 9, 9}};

// Calls that follow one another, in a room of 42 bytes.
static const struct step STEPS[] = {
    {"a fresh intake asked", ASKS(desk_sheet, 42, 30), EARLY},
    {"no bytes to a fresh intake", DELIVERS(desk_packet, 0, 0, NOWHERE), GATHERING(0)},
    {"no bytes completed", COMPLETES, JUDGED(0, 1, 0)},
    {"no bytes asked", ASKS(desk_sheet, 42, 30), REFUSED(1, 0)},
    {"the first delivery", DELIVERS(desk_packet, 0, 10, 0), GATHERING(10)},
    {"no bytes on the way", DELIVERS(desk_packet, 10, 10, NOWHERE), GATHERING(10)},
    {"asked on the way", ASKS(desk_sheet, 42, 30), EARLY},
    {"the second delivery", DELIVERS(desk_packet, 10, 38, 10), GATHERING(38)},
    {"the last delivery", DELIVERS(desk_packet, 38, 39, 38), GATHERING(39)},
    {"asked before completion", ASKS(desk_sheet, 42, 30), EARLY},
    {"a packet completed", COMPLETES, JUDGED(39, 0, 0)},
    {"its sheet", ASKS(desk_sheet, 42, 30), GIVEN(25)},
    {"its sheet again", ASKS(desk_sheet, 42, 30), GIVEN(25)},
    {"its sheet from the packet's bytes alone", ASKS(desk_sheet, 39, 25), GIVEN(25)},
    {"its sheet with the packet's room cut short", ASKS(desk_sheet, 38, 30), EARLY},
    {"its sheet with no room of the packet", ASKS(desk_sheet, 0, 0), EARLY},
    {"its sheet in a room too short", ASKS(desk_sheet, 42, 24), REFUSED(8, 0)},
    {"no bytes after a verdict", DELIVERS(desk_packet, 0, 0, NOWHERE), JUDGED(39, 0, 0)},
    {"its sheet after no bytes", ASKS(desk_sheet, 42, 30), GIVEN(25)},
    {"the next packet's first byte", DELIVERS(journey_packet, 0, 1, 0), GATHERING(1)},
    {"asked after the next delivery", ASKS(desk_sheet, 42, 30), EARLY},
    {"a journey up to the room's end", DELIVERS(journey_packet, 1, 42, 1), GATHERING(42)},
    {"a journey completed", COMPLETES, JUDGED(42, 0, 0)},
    {"the journey's sheet", ASKS(journey_sheet, 42, 52), GIVEN(52)},
    {"completed a second time", COMPLETES, JUDGED(0, 1, 0)},
    {"asked after that", ASKS(journey_sheet, 42, 52), REFUSED(1, 0)},
    {"a delivery before one too many", DELIVERS(padded_packet, 0, 39, 0), GATHERING(39)},
    {"a delivery past the room's end", DELIVERS(desk_packet, 0, 4, NOWHERE), PAST_END},
    {"one after it that would fit", DELIVERS(desk_packet, 0, 1, NOWHERE), PAST_END},
    {"no bytes past the room's end", DELIVERS(desk_packet, 0, 0, NOWHERE), PAST_END},
    {"asked past the room's end", ASKS(desk_sheet, 42, 30), EARLY},
    {"completed past the room's end", COMPLETES, LONG},
    {"a long packet asked", ASKS(desk_sheet, 42, 30), REFUSED(8, 0)},
    {"no bytes after a long packet", DELIVERS(desk_packet, 0, 0, NOWHERE), LONG},
    {"a packet after a long one", DELIVERS(padded_packet, 0, 39, 0), GATHERING(39)},
    {"a damaged packet completed", COMPLETES, JUDGED(39, 7, 306)},
    {"a damaged packet asked", ASKS(desk_sheet, 42, 30), REFUSED(7, 306)},
    {"a damaged packet asked again", ASKS(desk_sheet, 42, 30), REFUSED(7, 306)},
    {"a damaged packet asked with its room cut short", ASKS(desk_sheet, 0, 0), REFUSED(7, 306)},
    {"no bytes after a refusal", DELIVERS(desk_packet, 0, 0, NOWHERE), JUDGED(39, 7, 306)},
    {"one delivery longer than the room", DELIVERS(noise, 0, 43, NOWHERE), PAST_END},
    {"8 before the packet's own refusal", COMPLETES, LONG},
    {"one delivery as long as the room", DELIVERS(noise, 0, 42, 0), GATHERING(42)},
    {"the packet's own refusal", COMPLETES, JUDGED(42, 2, 0)},
    {"a packet after a refusal", DELIVERS(desk_packet, 0, 39, 0), GATHERING(39)},
    {"a packet after a refusal completed", COMPLETES, JUDGED(39, 0, 0)},
    {"the sheet of a packet after a refusal", ASKS(desk_sheet, 42, 25), GIVEN(25)},
};

// Calls in states that no call returned, in a room of 45 bytes that begins with the desk packet.
static const struct { seglink_intake before; struct step step; } WILD_STATES[] = {
    {{3, 39, 9, 9}, {"phase 3 completed", COMPLETES, JUDGED(39, 0, 0)}},
    {{0xFFFFFFFF, 38, 0, 0}, {"phase 4,294,967,295 completed, a byte short", COMPLETES, JUDGED(38, 3, 0)}},
    {{0, 39, 7, 306}, {"phase 0 with a verdict completed", COMPLETES, JUDGED(39, 0, 0)}},
    {{0, 46, 0, 0}, {"a length past the room's end completed", COMPLETES, LONG}},
    {{3, 0xFFFFFFFF, 0, 0}, {"length 4,294,967,295 completed", COMPLETES, LONG}},
    {{1, 39, 0, 5}, {"phase 1 with a length completed", COMPLETES, LONG}},
    {{2, 39, 0, 0}, {"a verdict completed", COMPLETES, JUDGED(0, 1, 0)}},
    {{2, 0xFFFFFFFF, 4, 4}, {"a verdict of any length completed", COMPLETES, JUDGED(0, 1, 0)}},
    {{0, 39, 0, 0}, {"phase 0 asked", ASKS(desk_sheet, 45, 30), EARLY}},
    {{1, 39, 7, 306}, {"phase 1 asked", ASKS(desk_sheet, 45, 30), EARLY}},
    {{3, 39, 7, 306}, {"phase 3 asked", ASKS(desk_sheet, 45, 30), EARLY}},
    {{2, 38, 0, 0}, {"a verdict of 0 on a packet a byte short asked", ASKS(desk_sheet, 45, 30), REFUSED(3, 0)}},
    {{2, 46, 0, 0}, {"a length past the room's end asked", ASKS(desk_sheet, 45, 30), EARLY}},
    {{2, 0xFFFFFFFF, 0, 0}, {"length 4,294,967,295 asked", ASKS(desk_sheet, 45, 30), EARLY}},
    {{2, 39, 0, 77}, {"refusal 0 at 77 asked", ASKS(desk_sheet, 45, 30), EARLY}},
    {{2, 39, 1, 1}, {"refusal 1 at 1 asked", ASKS(desk_sheet, 45, 30), EARLY}},
    {{2, 39, 2, 5}, {"refusal 2 at 5 asked", ASKS(desk_sheet, 45, 30), EARLY}},
    {{2, 39, 3, 0x80000000}, {"refusal 3 at 2,147,483,648 asked", ASKS(desk_sheet, 45, 30), EARLY}},
    {{2, 39, 8, 39}, {"refusal 8 at 39 asked", ASKS(desk_sheet, 45, 30), EARLY}},
    {{2, 39, 9, 0}, {"refusal 9 asked", ASKS(desk_sheet, 45, 30), EARLY}},
    {{2, 39, 12, 0}, {"refusal 12 asked", ASKS(desk_sheet, 45, 30), EARLY}},
    {{2, 39, 14, 3}, {"refusal 14 at 3 asked", ASKS(desk_sheet, 45, 30), EARLY}},
    {{2, 39, 77, 5}, {"refusal 77 at 5 asked", ASKS(desk_sheet, 45, 30), EARLY}},
    {{2, 39, 0x0000010D, 305}, {"refusal 269 at 305 asked", ASKS(desk_sheet, 45, 30), EARLY}},
    {{2, 39, 0xFFFFFFFF, 0xFFFFFFFF}, {"refusal 4,294,967,295 asked", ASKS(desk_sheet, 0, 0), EARLY}},
    {{2, 39, 3, 0}, {"refusal 3 asked", ASKS(desk_sheet, 45, 30), REFUSED(3, 0)}},
    {{2, 39, 4, 0}, {"refusal 4 at 0 asked", ASKS(desk_sheet, 45, 30), REFUSED(4, 0)}},
    {{2, 0xFFFFFFFF, 7, 0xFFFFFFFF}, {"refusal 7 at 4,294,967,295 asked", ASKS(desk_sheet, 0, 0), REFUSED(7, 0xFFFFFFFF)}},
    {{2, 39, 8, 0}, {"refusal 8 asked", ASKS(desk_sheet, 45, 30), REFUSED(8, 0)}},
    {{2, 39, 13, 305}, {"refusal 13 at 305 asked", ASKS(desk_sheet, 45, 30), REFUSED(13, 305)}},
    {{7, 8, 9, 10}, {"no bytes to phase 7", DELIVERS(noise, 0, 0, NOWHERE), {7, 8, 9, 10}}},
    {{1, 8, 9, 10}, {"no bytes to phase 1", DELIVERS(noise, 0, 0, NOWHERE), {1, 8, 9, 10}}},
    {{2, 99, 9, 10}, {"no bytes to phase 2", DELIVERS(noise, 0, 0, NOWHERE), {2, 99, 9, 10}}},
    {{1, 8, 9, 10}, {"a delivery to phase 1", DELIVERS(noise, 0, 1, NOWHERE), PAST_END}},
    {{0, 43, 9, 10}, {"a delivery to phase 0 up to the room's end", DELIVERS(noise, 0, 2, 43), GATHERING(45)}},
    {{7, 43, 9, 10}, {"a delivery to phase 7 up to the room's end", DELIVERS(noise, 0, 2, 43), GATHERING(45)}},
    {{7, 44, 9, 10}, {"a delivery to phase 7 past the room's end", DELIVERS(noise, 0, 2, NOWHERE), PAST_END}},
    {{2, 44, 9, 10}, {"a delivery to phase 2", DELIVERS(noise, 0, 2, 0), GATHERING(2)}},
    {{2, 0xFFFFFFFF, 0, 0}, {"a delivery to phase 2 of length 4,294,967,295", DELIVERS(noise, 0, 2, 0), GATHERING(2)}},
    {{0, 46, 0, 0}, {"a delivery to a length past the room's end", DELIVERS(noise, 0, 1, NOWHERE), PAST_END}},
    {{0, 0xFFFFFFFF, 0, 0}, {"a delivery to length 4,294,967,295", DELIVERS(noise, 0, 1, NOWHERE), PAST_END}},
};

static void lend(const struct bytes *packet)
{
    memset(held, 0xA5, sizeof held);
    memcpy(held + GUARD, packet->byte, packet->length);
    memcpy(taken, held, sizeof taken);
}

static void state(const char *name, seglink_intake got, seglink_intake wanted)
{
    check(name, "the phase", got.phase, wanted.phase);
    check(name, "the length", got.length, wanted.length);
    check(name, "the refusal", got.refusal, wanted.refusal);
    check(name, "the place", got.place, wanted.place);
}

static void asked(const struct step *step, seglink_intake intake)
{
    struct bytes sheet = *step->from;
    sheet.length = step->after.length;
    memset(store, 0xA5, sizeof store);
    seglink_converted c = seglink_intake_sheet(intake, taken + GUARD, step->begin, store + GUARD, step->end);
    answered(step->name, "a question", step->end, 0xA5, c, step->after.refusal, step->after.place, &sheet);
}

// Makes a call with a room of `room` bytes, checks the answer and every byte in and about the room, and returns the state after the call.
static seglink_intake stepped(const struct step *step, seglink_intake intake, size_t room)
{
    size_t length = step->end - step->begin;
    if (step->call == ASK) {
        asked(step, intake);
    } else if (step->call == COMPLETE) {
        intake = seglink_intake_complete(intake, taken + GUARD, room);
        state(step->name, intake, step->after);
    } else {
        intake = seglink_intake_deliver(intake, step->from->byte + step->begin, length, taken + GUARD, room);
        state(step->name, intake, step->after);
        if (step->at != NOWHERE)
            memcpy(held + GUARD + step->at, step->from->byte + step->begin, length);
    }
    check(step->name, "the count of wrong bytes in the packet's room", differing(taken, held, sizeof taken), 0);
    return intake;
}

// Checks that a state counts 4,294,967,295 bytes and no more, in a room of one byte more. The system gives memory only for pages that are written.
static void counted(void)
{
    const char *name = "a room of 4,294,967,296 bytes";
    size_t room = (size_t)1 << 32, last = room - 2;
    uint8_t *large = calloc(room, 1), bytes[2] = {1, 2};
    check(name, "whether there is one", large != NULL, true);
    if (large == NULL)
        return;
    seglink_intake before = {0, 0xFFFFFFFE, 0, 0}, full = {0, 0xFFFFFFFF, 0, 0}, past = PAST_END, judged = JUDGED(0xFFFFFFFF, 2, 0);
    state(name, seglink_intake_deliver(before, bytes, 2, large, room), past);
    state(name, seglink_intake_deliver(full, bytes, 1, large, room), past);
    check(name, "the last bytes", large[last] + large[last + 1], 0);
    state(name, seglink_intake_deliver(before, bytes, 1, large, room), full);
    check(name, "the last byte but one", large[last], 1);
    check(name, "the last byte", large[last + 1], 0);
    state(name, seglink_intake_complete(full, large, room), judged);
    free(large);
}

static void intakes(void)
{
    static const struct bytes nothing;
    seglink_intake intake = seglink_intake_fresh();
    state("a fresh intake", intake, (seglink_intake){0, 0, 0, 0});
    lend(&nothing);
    for (size_t i = 0; i < sizeof STEPS / sizeof *STEPS; ++i)
        intake = stepped(&STEPS[i], intake, 42);
    for (size_t i = 0; i < sizeof WILD_STATES / sizeof *WILD_STATES; ++i) {
        lend(&desk_packet);
        stepped(&WILD_STATES[i].step, WILD_STATES[i].before, 45);
    }
    counted();
}

// ---- Runs of segments

// A segment of the desk: its length in cm, its km/h and Q_FRONT, and the location in cm of a change to other km/h, 0 if there is none.
struct plan { uint32_t length, kmh, front, change, then; };

static void planned(struct fields *s, struct plan plan)
{
    desk(s, plan.kmh);
    s->field[L_SP] = (struct field){24, plan.length, plan.length, plan.length};
    s->field[FRONT] = (struct field){1, plan.front, plan.front, plan.front};
    if (plan.change == 0)
        return;
    struct fields rest = *s;
    s->count = SPEEDS;
    same(s, 5, 1);
    same(s, 24, plan.change);
    speed(s, plan.then);
    same(s, 1, 0);
    same(s, 5, 0);
    for (size_t i = VOLTAGE; i < rest.count; ++i)
        s->field[s->count++] = rest.field[i];
}

// Memory for four segments and a journey, in which each ends at the last byte that can be read, and as much that cannot be read at all.
enum { LENT = 4, BESIDE = LENT, PARTS, PAGES = 65536 };
static uint8_t *readable[PARTS], *unreadable;

static void segment_read(int signal)
{
    static const char why[] = "FAILED: a segment or a journey was read that is not to be read, or past its end\n";
    (void)signal;
    _exit(write(STDOUT_FILENO, why, sizeof why - 1) > 0 ? 1 : 2);
}

static void map_memory(void)
{
    for (int i = 0; i <= PARTS; ++i) {
        uint8_t *pages = mmap(NULL, 2 * PAGES, PROT_NONE, MAP_PRIVATE | MAP_ANONYMOUS, -1, 0);
        check("memory of runs", "whether there is some", pages != MAP_FAILED && (i == PARTS || mprotect(pages, PAGES, PROT_READ | PROT_WRITE) == 0), true);
        if (i == PARTS)
            unreadable = pages;
        else
            readable[i] = pages;
    }
    signal(SIGSEGV, segment_read);
    signal(SIGBUS, segment_read);
}

// A segment that is lent: its bytes' first and their count.
struct lent { const uint8_t *first; size_t length; };

// Copies a segment to the end of readable memory, the nth of a run; the journey beside a run is the one after the last.
static struct lent lend_segment(int nth, const struct bytes *segment)
{
    uint8_t *first = readable[nth] + PAGES - segment->length;
    memcpy(first, segment->byte, segment->length);
    return (struct lent){first, segment->length};
}

static seglink_speed run_speed(uint32_t kind, uint32_t count, const struct lent run[LENT], seglink_train train, uint32_t x)
{
    return seglink_permitted_speed(kind, count, run[0].first, run[0].length, run[1].first, run[1].length, run[2].first, run[2].length, run[3].first, run[3].length, train, x);
}

// Checks the answer about a run of `count` segments, with segments past the count that cannot be read, are the first one again, null, or whole.
static void run_asked(const char *name, uint32_t kind, uint32_t count, const struct bytes segment[LENT], seglink_train train, uint32_t x, seglink_speed wanted)
{
    struct lent run[LENT];
    for (uint32_t i = 0; i < count; ++i)
        run[i] = lend_segment((int)i, &segment[i]);
    const struct lent past[] = {{unreadable, 39}, {unreadable, SIZE_MAX}, {run[0].first, 0}, {NULL, 0}, {desk_packet.byte, 39}, {desk_sheet.byte, 25}};
    for (size_t i = 0; i < sizeof past / sizeof *past; ++i) {
        for (uint32_t j = count; j < LENT; ++j)
            run[j] = past[i];
        speed_answered(name, kind, run_speed(kind, count, run, train, x), wanted);
    }
}

// Runs with the speed that their sheets give a train of `length` cm at x; their packets give the greatest multiple of 5 not above it. Past the
// count the desk's segments are lent too, which are slower than most of these. Each run is asked with slower trains too.
#define SLOW {1000, 43, 0, 0, 0}
#define FAST {1000, 104, 0, 0, 0}
#define TURNS_SLOW {1000, 104, 0, 800, 43}
static const struct { const char *name; uint32_t count; struct plan segment[LENT]; uint32_t length, x, speed; } RUNS[] = {
    {"a run of one", 1, {FAST}, 200, 0, 104},
    {"a slower segment before, the tail at its end", 2, {SLOW, FAST}, 200, 199, 43},
    {"a slower segment before, left", 2, {SLOW, FAST}, 200, 200, 104},
    {"a slower segment before, Q_FRONT 1", 2, {{1000, 43, 1, 0, 0}, FAST}, 200, 0, 104},
    {"a faster segment before", 2, {FAST, SLOW}, 200, 0, 43},
    {"30 km/h up to 100 cm before the boundary", 2, {{1000, 30, 0, 900, 120}, FAST}, 200, 99, 30},
    {"30 km/h up to 100 cm before the boundary, left", 2, {{1000, 30, 0, 900, 90}, FAST}, 200, 100, 90},
    {"30 km/h up to 200 cm before the boundary", 2, {{1000, 30, 0, 800, 90}, FAST}, 200, 0, 90},
    {"30 km/h up to the boundary's tail, Q_FRONT 1", 2, {{1000, 30, 1, 900, 90}, FAST}, 200, 0, 90},
    {"a change in the last segment", 2, {FAST, {1000, 84, 0, 500, 140}}, 200, 700, 140},
    {"a segment that turns slow, once", 1, {TURNS_SLOW}, 200, 0, 104},
    {"a segment that turns slow, twice", 2, {TURNS_SLOW, TURNS_SLOW}, 200, 199, 43},
    {"a segment that turns slow, twice, left", 2, {TURNS_SLOW, TURNS_SLOW}, 200, 200, 104},
    {"a delay over one short segment", 3, {SLOW, {50, 64, 0, 0, 0}, FAST}, 200, 149, 43},
    {"a delay over one short segment, its own", 3, {SLOW, {50, 64, 0, 0, 0}, FAST}, 200, 150, 64},
    {"a delay over two short segments", 4, {SLOW, {50, 64, 0, 0, 0}, {30, 82, 0, 0, 0}, FAST}, 200, 119, 43},
    {"a delay over two short segments, the second's", 4, {SLOW, {50, 64, 0, 0, 0}, {30, 82, 0, 0, 0}, FAST}, 200, 120, 64},
    {"a delay over two short segments, the third's", 4, {SLOW, {50, 64, 0, 0, 0}, {30, 82, 0, 0, 0}, FAST}, 200, 170, 82},
    {"a delay over two short segments, left", 4, {SLOW, {50, 64, 0, 0, 0}, {30, 82, 0, 0, 0}, FAST}, 200, 200, 104},
    {"segments of a centimetre", 4, {{1, 43, 0, 0, 0}, {1, 64, 0, 0, 0}, {1, 82, 0, 0, 0}, {1, 104, 0, 0, 0}}, 150000, 0, 43},
    {"segments of a centimetre, a train of one", 4, {{1, 43, 0, 0, 0}, {1, 64, 0, 0, 0}, {1, 82, 0, 0, 0}, {1, 104, 0, 0, 0}}, 1, 0, 82},
    {"the longest run", 4, {{16777215, 43, 0, 0, 0}, {16777215, 43, 0, 0, 0}, {16777215, 43, 0, 0, 0}, {16777215, 104, 0, 0, 0}}, 150000, 149999, 43},
    {"the longest run, left", 4, {{16777215, 43, 0, 0, 0}, {16777215, 43, 0, 0, 0}, {16777215, 43, 0, 0, 0}, {16777215, 104, 0, 0, 0}}, 150000, 150000, 104},
    {"three segments left", 4, {SLOW, SLOW, SLOW, FAST}, 200, 999, 104},
};

static uint32_t lower(uint32_t a, uint32_t b)
{
    return a < b ? a : b;
}

// Asks about a run with trains of other maxima; `speed` is the profile's from the sheets.
static void slower_trains(uint32_t count, const struct bytes packet[LENT], const struct bytes sheet[LENT], seglink_train train, uint32_t x, uint32_t speed)
{
    static const char name[] = "a run with a train's maximum";
    static const uint32_t MAXIMA[] = {1, 41, 83, 103};
    for (size_t i = 0; i < sizeof MAXIMA / sizeof *MAXIMA; ++i) {
        train.maximum = MAXIMA[i];
        run_asked(name, SEGLINK_KIND_PACKET, count, packet, train, x, (seglink_speed){0, 0, lower(train.maximum, speed / 5 * 5)});
        run_asked(name, SEGLINK_KIND_SHEET, count, sheet, train, x, (seglink_speed){0, 0, lower(train.maximum, speed)});
    }
    train.maximum = 601;
    run_asked(name, SEGLINK_KIND_SHEET, count, sheet, train, x, (seglink_speed){10, 0, 0});
}

static void speeds_of_runs(struct fields *s)
{
    static struct bytes packet[LENT], sheet[LENT];
    for (size_t i = 0; i < sizeof RUNS / sizeof *RUNS; ++i) {
        for (uint32_t j = 0; j < RUNS[i].count; ++j) {
            planned(s, RUNS[i].segment[j]);
            packet[j] = packet_of(s);
            sheet[j] = sheet_of(s, false);
        }
        seglink_train train = {.length = RUNS[i].length, .cant = 150, .maximum = 600};
        run_asked(RUNS[i].name, SEGLINK_KIND_PACKET, RUNS[i].count, packet, train, RUNS[i].x, (seglink_speed){0, 0, RUNS[i].speed / 5 * 5});
        run_asked(RUNS[i].name, SEGLINK_KIND_SHEET, RUNS[i].count, sheet, train, RUNS[i].x, (seglink_speed){0, 0, RUNS[i].speed});
        slower_trains(RUNS[i].count, packet, sheet, train, RUNS[i].x, RUNS[i].speed);
    }
}

// Whole and broken segments of each kind, the broken ones with their refusal and place.
static const struct bytes *const WHOLE[] = {&desk_packet, &desk_sheet};
static const struct { const struct bytes *segment; size_t length; seglink_speed refused; } BROKEN[][3] = {
    {{&desk_packet, 14, {1, 0, 0}}, {&journey_packet, 42, {2, 0, 0}}, {&padded_packet, 39, {7, 306, 0}}},
    {{&desk_sheet, 2, {9, 1, 0}}, {&journey_sheet, 52, {2, 0, 0}}, {&desk_sheet, 24, {9, 24, 0}}},
};

// Fills a run with whole segments up to `place` and broken ones from there on, from the one at `first` on in turn.
static void broken_from(struct bytes run[LENT], uint32_t kind, size_t place, size_t first)
{
    for (size_t i = 0; i < LENT; ++i) {
        run[i] = i < place ? *WHOLE[kind] : *BROKEN[kind][(first + i) % 3].segment;
        if (i >= place)
            run[i].length = BROKEN[kind][(first + i) % 3].length;
    }
}

// Checks that a run is refused for the first segment that is broken, before its train and x, and for no segment past the count.
static void broken_runs(void)
{
    static struct bytes run[LENT];
    seglink_train train = {.length = 200, .cant = 150, .maximum = 600};
    for (uint32_t kind = 0; kind < 2; ++kind)
        for (size_t place = 0; place < LENT; ++place)
            for (size_t first = 0; first < 3; ++first) {
                broken_from(run, kind, place, first);
                for (uint32_t count = (uint32_t)place + 1; count <= LENT; ++count)
                    run_asked("a run with a broken segment", kind, count, run, NO_TRAIN, 1, BROKEN[kind][(first + place) % 3].refused);
                if (place > 0)
                    run_asked("a run before a broken segment", kind, (uint32_t)place, run, train, 0, (seglink_speed){0, 0, 80});
            }
}

// Counts that no run has; the low bits of some are those of a run's count.
static const uint32_t NO_RUNS[] = {0, 5, 6, 8, 255, 256, 257, 260, 65537, 0x80000000, 0x80000001, 0x80000004, 0xFFFFFFFF};

// Checks the order of the refusals, each with all that come after it: 15, 16, the first segment's, the second's, 10, 11. With 15 and 16 no segment
// is read.
static void ordered(void)
{
    static struct bytes run[LENT];
    const struct lent none[LENT] = {{unreadable, 39}, {unreadable, SIZE_MAX}, {unreadable, 0}, {unreadable, 1}};
    seglink_train train = {.length = 200, .cant = 150, .maximum = 600};
    for (uint32_t kind = 0; kind < 2; ++kind) {
        for (size_t i = 0; i < sizeof UNKNOWN_KINDS / sizeof *UNKNOWN_KINDS; ++i)
            for (uint32_t count = 0; count < 8; ++count)
                speed_answered("a run of an unknown kind", UNKNOWN_KINDS[i], run_speed(UNKNOWN_KINDS[i], count, none, NO_TRAIN, 1), (seglink_speed){15, 0, 0});
        for (size_t i = 0; i < sizeof NO_RUNS / sizeof *NO_RUNS; ++i)
            speed_answered("a run of none or more than four", kind, run_speed(kind, NO_RUNS[i], none, NO_TRAIN, 1), (seglink_speed){16, 0, 0});
        broken_from(run, kind, 0, 0);
        run_asked("the first segment's refusal", kind, 2, run, NO_TRAIN, 1, BROKEN[kind][0].refused);
        broken_from(run, kind, 1, 0);
        run_asked("the second segment's refusal", kind, 2, run, NO_TRAIN, 1, BROKEN[kind][1].refused);
        broken_from(run, kind, LENT, 0);
        run_asked("10 after the segments' refusals", kind, 2, run, NO_TRAIN, 1, (seglink_speed){10, 0, 0});
        run_asked("11 last of all", kind, 2, run, train, 1, (seglink_speed){11, 0, 0});
        run_asked("an answer", kind, 2, run, train, 0, (seglink_speed){0, 0, 80});
    }
}

// Checks 11 against the last segment, and neither against another nor against the run.
static void past_the_last(struct fields *s)
{
    static struct bytes run[LENT];
    static const struct { struct plan segment[2]; uint32_t length, speed; } ENDS[] = {{{SLOW, {10, 80, 0, 0, 0}}, 10, 43}, {{{10, 80, 0, 0, 0}, FAST}, 1000, 104}};
    static const uint32_t LOCATIONS[] = {1000, 1009, 1010, 1011, 0x01000000, 0x80000000, 0xFFFFFFFF};
    seglink_train train = {.length = 200, .cant = 150, .maximum = 600};
    for (size_t i = 0; i < 2; ++i) {
        for (size_t j = 0; j < 2; ++j) {
            planned(s, ENDS[i].segment[j]);
            run[j] = sheet_of(s, false);
        }
        run_asked("the last location of a run", SEGLINK_KIND_SHEET, 2, run, train, ENDS[i].length - 1, (seglink_speed){0, 0, ENDS[i].speed});
        run_asked("a location at the last segment's end", SEGLINK_KIND_SHEET, 2, run, train, ENDS[i].length, (seglink_speed){11, 0, 0});
        for (size_t j = 0; j < sizeof LOCATIONS / sizeof *LOCATIONS; ++j)
            run_asked("a location past the last segment", SEGLINK_KIND_SHEET, 2, run, train, LOCATIONS[j], (seglink_speed){11, 0, 0});
    }
}

// ---- Restricted speeds, worked out by hand

// The segments of these runs, by NID_SP: their length in cm; each has 104 km/h with the delay, and the version 0.5.
enum { LONG_ONE, SHORT_ONE, LAST_ONE, LEAST_ONE };
static const uint32_t LENGTHS[] = {1000, 50, 1000, 10};

// A segment of a journey, with `count` constraints by their numbers from Q_TC_Type to Q_Low_Adhesion_Rate.
struct leg { uint32_t nid_sp, minor, direction, count, constraint[2][7]; };

static void legged(struct fields *s, uint32_t count, const struct leg *leg)
{
    header(s, 4, 0x12345, 1, 0, 0, 7);
    same(s, 3, 1);
    same(s, 8, count);
    for (uint32_t i = 0; i < count; ++i) {
        identity(s, 0, leg[i].nid_sp, 0, leg[i].minor);
        same(s, 1, leg[i].direction);
        same(s, 5, 0);
        same(s, 5, leg[i].count);
        for (uint32_t j = 0; j < leg[i].count; ++j)
            constraint(s, leg[i].constraint[j]);
    }
}

static void segment_of(struct fields *s, uint32_t nid_sp)
{
    planned(s, (struct plan){LENGTHS[nid_sp], 104, 0, 0, 0});
    s->field[NID_SP] = (struct field){32, nid_sp, nid_sp, nid_sp};
    s->field[VERSION_Y] = (struct field){8, 5, 5, 5};
}

static seglink_speed journey_speed(uint32_t kind, uint32_t count, const struct lent run[LENT], struct lent journey, uint32_t leg, seglink_train train, uint32_t x)
{
    return seglink_restricted_speed(kind, count, run[0].first, run[0].length, run[1].first, run[1].length, run[2].first, run[2].length, run[3].first, run[3].length,
                                    journey.first, journey.length, leg, train, x);
}

#define ON(nid_sp) {nid_sp, 5, 1, 0, {{0}}}
#define ONE_ON(nid_sp, ...) {nid_sp, 5, 1, 1, {{__VA_ARGS__}}}
#define ALL_43 0, 3, 0, 0, 0, 43, 0
#define AT_END 0, 0, 1000, 0, 0, 43, 0
#define BESIDE_IT {9, 0, 0, 1, {{AT_END}}}

// Journeys of `legs` segments, runs of `count` segments by NID_SP, the leg, the train's length and x; and the refusal, or the speed from sheets: packets
// give the greatest multiple of 5 not above it.
static const struct { const char *name; uint32_t legs; struct leg leg[4]; uint32_t count, segment[LENT], at, length, x, refusal, speed; } BY_JOURNEY[] = {
    {"no constraint", 1, {ON(LONG_ONE)}, 1, {LONG_ONE}, 0, 200, 0, 0, 104},
    {"before its start", 1, {ONE_ON(LONG_ONE, 0, 0, 300, 0, 0, 43, 0)}, 1, {LONG_ONE}, 0, 200, 299, 0, 104},
    {"from its start on", 1, {ONE_ON(LONG_ONE, 0, 0, 300, 0, 0, 43, 0)}, 1, {LONG_ONE}, 0, 200, 300, 0, 43},
    {"from its start to L_SP", 1, {ONE_ON(LONG_ONE, 0, 0, 300, 0, 1, 43, 0)}, 1, {LONG_ONE}, 0, 200, 999, 0, 43},
    {"before its end", 1, {ONE_ON(LONG_ONE, 0, 1, 0, 300, 1, 43, 0)}, 1, {LONG_ONE}, 0, 200, 299, 0, 43},
    {"at its end, Q_FRONT 1", 1, {ONE_ON(LONG_ONE, 0, 1, 0, 300, 1, 43, 0)}, 1, {LONG_ONE}, 0, 200, 300, 0, 104},
    {"the tail at its end", 1, {ONE_ON(LONG_ONE, 0, 1, 0, 300, 0, 43, 0)}, 1, {LONG_ONE}, 0, 200, 499, 0, 43},
    {"left", 1, {ONE_ON(LONG_ONE, 0, 1, 0, 300, 0, 43, 0)}, 1, {LONG_ONE}, 0, 200, 500, 0, 104},
    {"an end at L_SP", 1, {ONE_ON(LONG_ONE, 0, 1, 0, 1000, 1, 43, 0)}, 1, {LONG_ONE}, 0, 200, 999, 0, 43},
    {"before its start and end", 1, {ONE_ON(LONG_ONE, 0, 2, 300, 500, 0, 43, 0)}, 1, {LONG_ONE}, 0, 200, 299, 0, 104},
    {"between its start and end", 1, {ONE_ON(LONG_ONE, 0, 2, 300, 500, 0, 43, 0)}, 1, {LONG_ONE}, 0, 200, 300, 0, 43},
    {"past its start and end", 1, {ONE_ON(LONG_ONE, 0, 2, 300, 500, 0, 43, 0)}, 1, {LONG_ONE}, 0, 200, 700, 0, 104},
    {"the whole segment", 1, {ONE_ON(LONG_ONE, 0, 3, 0, 0, 1, 43, 0)}, 1, {LONG_ONE}, 0, 200, 999, 0, 43},
    {"higher than the profile", 1, {ONE_ON(LONG_ONE, 0, 3, 0, 0, 1, 604, 0)}, 1, {LONG_ONE}, 0, 200, 0, 0, 104},
    {"a standstill", 1, {ONE_ON(LONG_ONE, 0, 3, 0, 0, 1, 0, 0)}, 1, {LONG_ONE}, 0, 200, 0, 0, 0},
    {"the lower of two, first", 1, {{LONG_ONE, 5, 1, 2, {{0, 3, 0, 0, 1, 43, 0}, {0, 3, 0, 0, 1, 64, 0}}}}, 1, {LONG_ONE}, 0, 200, 0, 0, 43},
    {"the lower of two, second", 1, {{LONG_ONE, 5, 1, 2, {{0, 3, 0, 0, 1, 64, 0}, {0, 3, 0, 0, 1, 43, 0}}}}, 1, {LONG_ONE}, 0, 200, 0, 0, 43},
    {"the delay of each", 1, {{LONG_ONE, 5, 1, 2, {{0, 1, 0, 500, 1, 43, 0}, {0, 1, 0, 500, 0, 64, 0}}}}, 1, {LONG_ONE}, 0, 200, 500, 0, 64},
    {"low adhesion", 1, {ONE_ON(LONG_ONE, 1, 3, 0, 0, 0, 0, 5)}, 1, {LONG_ONE}, 0, 200, 0, 0, 104},
    {"a driving mode from L_SP on", 1, {ONE_ON(LONG_ONE, 2, 0, 1000, 0, 0, 0, 0)}, 1, {LONG_ONE}, 0, 200, 0, 0, 104},
    {"constraints of other legs", 3, {BESIDE_IT, ON(LONG_ONE), ONE_ON(LAST_ONE, ALL_43)}, 1, {LONG_ONE}, 1, 200, 200, 0, 104},
    {"its own leg's constraint", 3, {BESIDE_IT, ON(LONG_ONE), ONE_ON(LAST_ONE, ALL_43)}, 1, {LAST_ONE}, 2, 200, 200, 0, 43},
    {"a segment that stands twice, first", 2, {ON(LONG_ONE), ONE_ON(LONG_ONE, ALL_43)}, 1, {LONG_ONE}, 0, 200, 300, 0, 104},
    {"a segment that stands twice, then", 2, {ON(LONG_ONE), ONE_ON(LONG_ONE, ALL_43)}, 1, {LONG_ONE}, 1, 200, 300, 0, 43},
    {"over a short segment", 3, {ONE_ON(LONG_ONE, 0, 0, 950, 0, 0, 43, 0), ON(SHORT_ONE), ON(LAST_ONE)}, 3, {LONG_ONE, SHORT_ONE, LAST_ONE}, 2, 200, 149, 0, 43},
    {"over a short segment, left", 3, {ONE_ON(LONG_ONE, 0, 0, 950, 0, 0, 43, 0), ON(SHORT_ONE), ON(LAST_ONE)}, 3, {LONG_ONE, SHORT_ONE, LAST_ONE}, 2, 200, 150, 0, 104},
    {"over a short segment, Q_FRONT 1", 3, {ONE_ON(LONG_ONE, 0, 0, 950, 0, 1, 43, 0), ON(SHORT_ONE), ON(LAST_ONE)}, 3, {LONG_ONE, SHORT_ONE, LAST_ONE}, 2, 200, 0, 0, 104},
    {"locations of its own segment", 3, {ON(LONG_ONE), ONE_ON(SHORT_ONE, 0, 2, 10, 20, 0, 43, 0), ON(LAST_ONE)}, 3, {LONG_ONE, SHORT_ONE, LAST_ONE}, 2, 200, 169, 0, 43},
    {"a start past the last segment's L_SP", 2, {ONE_ON(LONG_ONE, 0, 0, 500, 0, 1, 43, 0), ON(LEAST_ONE)}, 2, {LONG_ONE, LEAST_ONE}, 1, 200, 0, 0, 104},
    {"a start past its own segment's L_SP", 2, {ONE_ON(LEAST_ONE, 0, 0, 10, 0, 1, 43, 0), ON(LONG_ONE)}, 2, {LEAST_ONE, LONG_ONE}, 1, 200, 0, 25, 0},
    {"a long train at leg 0", 2, {ONE_ON(LEAST_ONE, ALL_43), ON(SHORT_ONE)}, 2, {LEAST_ONE, SHORT_ONE}, 1, 150000, 49, 0, 43},
    {"a tail at the run's start", 3, {BESIDE_IT, ON(SHORT_ONE), ON(LONG_ONE)}, 2, {SHORT_ONE, LONG_ONE}, 2, 200, 150, 0, 104},
    {"a tail before the run", 3, {BESIDE_IT, ON(SHORT_ONE), ON(LONG_ONE)}, 2, {SHORT_ONE, LONG_ONE}, 2, 200, 149, 26, 0},
    {"a tail before a run of one", 2, {ON(SHORT_ONE), ON(LONG_ONE)}, 1, {LONG_ONE}, 1, 200, 199, 26, 0},
    {"longer than all that is lent", 3, {BESIDE_IT, ON(SHORT_ONE), ON(LONG_ONE)}, 2, {SHORT_ONE, LONG_ONE}, 2, 1050, 999, 26, 0},
    {"11 before 26", 3, {BESIDE_IT, ON(SHORT_ONE), ON(LONG_ONE)}, 2, {SHORT_ONE, LONG_ONE}, 2, 1100, 1000, 11, 0},
    {"10 before 11 and 26", 3, {BESIDE_IT, ON(SHORT_ONE), ON(LONG_ONE)}, 2, {SHORT_ONE, LONG_ONE}, 2, 150001, 1000, 10, 0},
    {"25 of the second before 10", 3, {BESIDE_IT, ON(SHORT_ONE), ONE_ON(LONG_ONE, AT_END)}, 2, {SHORT_ONE, LONG_ONE}, 2, 0, 1000, 25, 0},
    {"24 of the second before its 25", 3, {BESIDE_IT, ON(SHORT_ONE), {LONG_ONE, 5, 0, 1, {{AT_END}}}}, 2, {SHORT_ONE, LONG_ONE}, 2, 0, 1000, 24, 0},
    {"23 of the second before its 24", 3, {BESIDE_IT, ON(SHORT_ONE), {LONG_ONE, 4, 0, 1, {{AT_END}}}}, 2, {SHORT_ONE, LONG_ONE}, 2, 0, 1000, 23, 0},
    {"25 of the first before 23", 3, {BESIDE_IT, ONE_ON(SHORT_ONE, AT_END), BESIDE_IT}, 2, {SHORT_ONE, LONG_ONE}, 2, 0, 1000, 25, 0},
    {"24 of the first before its 25", 3, {BESIDE_IT, {SHORT_ONE, 5, 0, 1, {{AT_END}}}, BESIDE_IT}, 2, {SHORT_ONE, LONG_ONE}, 2, 0, 1000, 24, 0},
    {"23 of the first before its 24", 3, {BESIDE_IT, {LAST_ONE, 5, 0, 1, {{AT_END}}}, BESIDE_IT}, 2, {SHORT_ONE, LONG_ONE}, 2, 0, 1000, 23, 0},
    {"22 before 23", 3, {BESIDE_IT, BESIDE_IT, BESIDE_IT}, 2, {SHORT_ONE, LONG_ONE}, 0, 0, 1000, 22, 0},
    {"a leg past the journey", 2, {ON(LONG_ONE), ON(LONG_ONE)}, 1, {LONG_ONE}, 2, 200, 0, 22, 0},
    {"a leg with the low bits of a right one", 2, {ON(LONG_ONE), ON(LONG_ONE)}, 1, {LONG_ONE}, 256, 200, 0, 22, 0},
    {"the largest leg", 2, {ON(LONG_ONE), ON(LONG_ONE)}, 1, {LONG_ONE}, 0xFFFFFFFF, 200, 0, 22, 0},
    {"the largest leg, a run of two", 2, {ON(LONG_ONE), ON(LONG_ONE)}, 2, {LONG_ONE, LONG_ONE}, 0xFFFFFFFF, 200, 0, 22, 0},
    {"a journey of no segment", 0, {ON(0)}, 1, {LONG_ONE}, 0, 200, 0, 22, 0},
    {"an end of 0", 1, {ONE_ON(LONG_ONE, 0, 1, 0, 0, 0, 43, 0)}, 1, {LONG_ONE}, 0, 200, 0, 25, 0},
    {"an end past L_SP", 1, {ONE_ON(LONG_ONE, 0, 1, 0, 1001, 0, 43, 0)}, 1, {LONG_ONE}, 0, 200, 0, 25, 0},
    {"a start and an end past L_SP", 1, {ONE_ON(LONG_ONE, 0, 2, 999, 1001, 0, 43, 0)}, 1, {LONG_ONE}, 0, 200, 0, 25, 0},
    {"the second constraint past L_SP", 1, {{LONG_ONE, 5, 1, 2, {{ALL_43}, {AT_END}}}}, 1, {LONG_ONE}, 0, 200, 0, 25, 0},
};

// Checks one row: all in memory that ends with it, segments past the count that cannot be read, and the inline function for a run of one.
static void by_journey(size_t row, uint32_t kind, struct fields *s)
{
    static struct bytes segment, journey;
    const char *name = BY_JOURNEY[row].name;
    struct lent run[LENT] = {{unreadable, 39}, {unreadable, 39}, {unreadable, SIZE_MAX}, {NULL, 0}};
    uint32_t count = BY_JOURNEY[row].count, leg = BY_JOURNEY[row].at, x = BY_JOURNEY[row].x, speed = BY_JOURNEY[row].speed;
    for (uint32_t i = 0; i < count; ++i) {
        segment_of(s, BY_JOURNEY[row].segment[i]);
        segment = kind == SEGLINK_KIND_PACKET ? packet_of(s) : sheet_of(s, false);
        run[i] = lend_segment((int)i, &segment);
    }
    legged(s, BY_JOURNEY[row].legs, BY_JOURNEY[row].leg);
    journey = kind == SEGLINK_KIND_PACKET ? packet_of(s) : sheet_of(s, false);
    struct lent beside = lend_segment(BESIDE, &journey);
    seglink_train train = {.length = BY_JOURNEY[row].length, .cant = 150, .maximum = 600};
    seglink_speed wanted = {BY_JOURNEY[row].refusal, 0, kind == SEGLINK_KIND_PACKET ? speed / 5 * 5 : speed};
    speed_answered(name, kind, journey_speed(kind, count, run, beside, leg, train, x), wanted);
    if (count == 1)
        speed_answered(name, kind, seglink_restricted_speed_one(kind, run[0].first, run[0].length, beside.first, beside.length, leg, train, x), wanted);
    if (wanted.refusal == 0 && speed > 41) {
        train.maximum = 41;
        wanted.speed = lower(41, wanted.speed);
        speed_answered(name, kind, journey_speed(kind, count, run, beside, leg, train, x), wanted);
    }
    // with 15 and 16 nothing is read
    const struct lent none[LENT] = {{unreadable, 39}, {unreadable, 39}, {unreadable, SIZE_MAX}, {unreadable, 0}}, hidden = {unreadable, 92};
    speed_answered(name, 2, journey_speed(2, count, none, hidden, leg, train, x), (seglink_speed){15, 0, 0});
    speed_answered(name, 0x80000001, journey_speed(0x80000001, 0, none, hidden, leg, train, x), (seglink_speed){15, 0, 0});
    speed_answered(name, kind, journey_speed(kind, 0, none, hidden, leg, train, x), (seglink_speed){16, 0, 0});
    speed_answered(name, kind, journey_speed(kind, 5, none, hidden, leg, train, x), (seglink_speed){16, 0, 0});
}

// Journeys that are refused beside the desk's segment, before the leg, the train and x: their first `length` bytes.
static const struct { const char *name; uint32_t kind; const struct bytes *journey; size_t length; seglink_speed refused; } NO_JOURNEY[] = {
    {"no bytes for a journey", 0, &journey_packet, 0, {1, 0, 0}},
    {"a segment for a journey", 0, &desk_packet, 39, {2, 0, 0}},
    {"a cut segment for a journey", 0, &desk_packet, 38, {2, 0, 0}},
    {"a journey without its last byte", 0, &restricted_packet, 50, {3, 0, 0}},
    {"no bytes for a journey", 1, &journey_sheet, 0, {9, 0, 0}},
    {"a segment for a journey", 1, &desk_sheet, 25, {2, 0, 0}},
    {"a journey without its last byte", 1, &restricted_sheet, 61, {9, 61, 0}},
    {"a journey's packet as a sheet", 1, &journey_packet, 42, {9, 2, 0}},
};

// Checks journeys that are refused: after the segments' refusals, and before 22.
static void refused_journeys(struct fields *s)
{
    static struct bytes journey;
    for (size_t i = 0; i < sizeof NO_JOURNEY / sizeof *NO_JOURNEY; ++i) {
        uint32_t kind = NO_JOURNEY[i].kind;
        const struct bytes *segment = kind == SEGLINK_KIND_PACKET ? &desk_packet : &desk_sheet;
        journey = *NO_JOURNEY[i].journey;
        journey.length = NO_JOURNEY[i].length;
        struct lent beside = lend_segment(BESIDE, &journey);
        speed_answered(NO_JOURNEY[i].name, kind, seglink_restricted_speed_one(kind, segment->byte, segment->length, beside.first, beside.length, 9, NO_TRAIN, 1), NO_JOURNEY[i].refused);
        seglink_speed own = kind == SEGLINK_KIND_PACKET ? (seglink_speed){1, 0, 0} : (seglink_speed){9, 8, 0};
        speed_answered(NO_JOURNEY[i].name, kind, seglink_restricted_speed_one(kind, segment->byte, 8, beside.first, beside.length, 9, NO_TRAIN, 1), own);
    }
    full_journey(s, 42, 486, 0);
    journey = sheet_of(s, false);
    seglink_speed long_body = seglink_restricted_speed_one(SEGLINK_KIND_SHEET, desk_sheet.byte, desk_sheet.length, journey.byte, journey.length, 9, NO_TRAIN, 1);
    speed_answered("a journey whose body is too long", SEGLINK_KIND_SHEET, long_body, (seglink_speed){12, 0, 0});
}

// Checks that NID_C, NID_SP and both numbers of the version are compared.
static void other_identities(struct fields *s)
{
    static struct bytes segment, journey;
    static const struct leg leg = ON(LONG_ONE);
    seglink_train train = {.length = 200, .cant = 150, .maximum = 600};
    segment_of(s, LONG_ONE);
    segment = packet_of(s);
    for (size_t field = FIRST_NID_C; field <= FIRST_VERSION_Y; ++field) {
        legged(s, 1, &leg);
        s->field[field].value ^= 1u << (s->field[field].width - 1);
        journey = packet_of(s);
        seglink_speed got = seglink_restricted_speed_one(SEGLINK_KIND_PACKET, segment.byte, segment.length, journey.byte, journey.length, 0, train, 0);
        speed_answered("another segment", SEGLINK_KIND_PACKET, got, (seglink_speed){23, 0, 0});
    }
}

static void restricted_speeds(struct fields *s)
{
    for (size_t i = 0; i < sizeof BY_JOURNEY / sizeof *BY_JOURNEY; ++i)
        for (uint32_t kind = 0; kind < 2; ++kind)
            by_journey(i, kind, s);
    other_identities(s);
    refused_journeys(s);
}

static void runs(struct fields *s)
{
    map_memory();
    speeds_of_runs(s);
    broken_runs();
    ordered();
    past_the_last(s);
    restricted_speeds(s);
    signal(SIGSEGV, SIG_DFL);
    signal(SIGBUS, SIG_DFL);
}

// ---- Null with length 0, for each slice of each operation

static const uint8_t EMPTY[1] = {0xA5};

static void same_answer(const char *name, seglink_converted got, seglink_converted wanted)
{
    check(name, "the refusal", got.refusal, wanted.refusal);
    check(name, "the place", got.place, wanted.place);
    check(name, "the length", got.length, wanted.length);
}

// Checks a conversion of nothing, of `in` in no room, and of nothing in no room: the answers are those for an empty array.
static void null_conversions(const char *name, conversion *convert, const struct bytes *in)
{
    uint8_t room[1] = {0xA5};
    same_answer(name, convert(NULL, 0, room, 1), convert(EMPTY, 0, room, 1));
    same_answer(name, convert(in->byte, in->length, NULL, 0), convert(in->byte, in->length, room, 0));
    same_answer(name, convert(NULL, 0, NULL, 0), convert(EMPTY, 0, room, 0));
    check(name, "the byte of the room", room[0], 0xA5);
}

static void null_questions(void)
{
    static const seglink_train train = {.length = 200, .cant = 150, .maximum = 600};
    static const struct bytes nothing;
    static const uint32_t refusals[] = {SEGLINK_SHORT_PACKET, SEGLINK_SHEET_FORM, SEGLINK_UNKNOWN_KIND};
    for (uint32_t kind = 0; kind < 3; ++kind) {
        seglink_speed wanted = {refusals[kind], 0, 0};
        speed_answered("a speed question about null", kind, seglink_permitted_speed_one(kind, NULL, 0, train, 0), wanted);
        speed_asked("a speed question about an empty array", kind, &nothing, train, 0, wanted);
        speed_answered("a restricted speed about null", kind, seglink_restricted_speed_one(kind, NULL, 0, NULL, 0, 0, train, 0), wanted);
        if (kind < 2) {
            const struct bytes *segment = kind == SEGLINK_KIND_PACKET ? &desk_packet : &desk_sheet;
            seglink_speed of_null = seglink_restricted_speed_one(kind, segment->byte, segment->length, NULL, 0, 0, train, 0);
            speed_answered("a restricted speed about a journey of null", kind, of_null, wanted);
        }
        speed_answered("a run of four times null", kind, seglink_permitted_speed(kind, 4, NULL, 0, NULL, 0, NULL, 0, NULL, 0, train, 0), wanted);
    }
    seglink_altitude got = seglink_altitude_of_packet(NULL, 0), wanted = seglink_altitude_of_packet(EMPTY, 0);
    check("the altitude of null", "the refusal", got.refusal, wanted.refusal);
    check("the altitude of null", "the place", got.place, wanted.place);
    check("the altitude of null", "the altitude", (size_t)got.altitude, (size_t)wanted.altitude);
}

// Checks one state of an intake: a delivery of null, a delivery to no room, a completion in no room, and questions with null for each room.
static void null_intake(seglink_intake intake)
{
    static const char name[] = "an intake with null";
    uint8_t room[64], lent[64];
    memset(room, 0xA5, sizeof room);
    memset(lent, 0xA5, sizeof lent);
    state(name, seglink_intake_deliver(intake, NULL, 0, room, sizeof room), intake);
    state(name, seglink_intake_deliver(intake, NULL, 0, NULL, 0), intake);
    state(name, seglink_intake_deliver(intake, desk_packet.byte, 1, NULL, 0), seglink_intake_deliver(intake, desk_packet.byte, 1, room, 0));
    state(name, seglink_intake_complete(intake, NULL, 0), seglink_intake_complete(intake, room, 0));
    same_answer(name, seglink_intake_sheet(intake, NULL, 0, lent, sizeof lent), seglink_intake_sheet(intake, room, 0, lent, sizeof lent));
    same_answer(name, seglink_intake_sheet(intake, desk_packet.byte, desk_packet.length, NULL, 0), seglink_intake_sheet(intake, desk_packet.byte, desk_packet.length, lent, 0));
    same_answer(name, seglink_intake_sheet(intake, NULL, 0, NULL, 0), seglink_intake_sheet(intake, room, 0, lent, 0));
    for (size_t i = 0; i < sizeof room; ++i)
        check(name, "a byte of a room", room[i] + lent[i], 2 * 0xA5);
}

// ---- The shelf

// Bytes that the desk sheet of 25 bytes takes in a store.
enum { ENTRY = 29 };

static void shelved(const char *name, seglink_shelved got, uint32_t refusal, uint32_t place, uint32_t used)
{
    check(name, "the refusal", got.refusal, refusal);
    check(name, "the place", got.place, place);
    check(name, "the used bytes", got.used, used);
}

// Checks a lookup: a refusal with the yard's pointer and no byte, or 0 and the desk sheet at this place.
static void looked_up(const char *name, seglink_found got, uint32_t refusal, const uint8_t *bytes, size_t length)
{
    check(name, "the refusal", got.refusal, refusal);
    check(name, "whether the part starts where it must", got.part.bytes == bytes, true);
    check(name, "the part's length", got.part.length, length);
}

// Returns the desk sheet with this NID_C and minor version, both below 128.
static struct bytes kept_sheet(uint8_t nid_c, uint8_t minor)
{
    struct bytes sheet = desk_sheet;
    sheet.byte[8] = nid_c;
    sheet.byte[11] = minor;
    return sheet;
}

static seglink_shelved shelf_add(uint8_t *store, size_t size, uint32_t used, struct bytes sheet)
{
    return seglink_shelf_add(store, size, used, sheet.byte, sheet.length);
}

// Checks the bytes of a store: the sheets of these NID_C and minor versions, two by two, and what follows them.
static void holds(const char *name, const uint8_t *store, size_t size, const uint8_t *keys, size_t count, uint8_t past)
{
    for (size_t i = 0; i < count; ++i) {
        struct bytes sheet = kept_sheet(keys[2 * i], keys[2 * i + 1]);
        static const uint8_t length[] = {0, 0, 0, 25};
        check(name, "a length in the store", (size_t)memcmp(store + i * ENTRY, length, 4), 0);
        check(name, "a sheet in the store", (size_t)memcmp(store + i * ENTRY + 4, sheet.byte, sheet.length), 0);
    }
    for (size_t i = count * ENTRY; i < size; ++i)
        check(name, "a byte past the sheets", store[i], past);
}

static void shelf_changes(void)
{
    static const char name[] = "a shelf";
    static const uint8_t order[] = {1, 0, 2, 0, 2, 1};
    uint8_t store[3 * ENTRY + 1];
    memset(store, 0xA5, sizeof store);
    shelved(name, shelf_add(store, sizeof store, 0, kept_sheet(2, 1)), 0, 0, ENTRY);
    shelved(name, shelf_add(store, sizeof store, ENTRY, kept_sheet(1, 0)), 0, 0, 2 * ENTRY);
    shelved(name, shelf_add(store, sizeof store, 2 * ENTRY, kept_sheet(2, 0)), 0, 0, 3 * ENTRY);
    holds(name, store, sizeof store, order, 3, 0xA5);
    shelved(name, shelf_add(store, sizeof store, 3 * ENTRY, kept_sheet(3, 0)), 8, 0, 3 * ENTRY);
    shelved(name, shelf_add(store, sizeof store, 3 * ENTRY, kept_sheet(2, 0)), 0, 0, 3 * ENTRY);
    shelved(name, shelf_add(store, sizeof store, 3 * ENTRY, journey_sheet), 2, 0, 3 * ENTRY);
    shelved(name, seglink_shelf_add(store, sizeof store, 3 * ENTRY, desk_sheet.byte, 24), 9, 24, 3 * ENTRY);
    shelved(name, shelf_add(store, sizeof store, 3 * ENTRY - 1, journey_sheet), 21, 0, 3 * ENTRY - 1);
    shelved(name, shelf_add(store, sizeof store, sizeof store + 1, journey_sheet), 21, 0, sizeof store + 1);
    shelved(name, seglink_shelf_remove(store, sizeof store, 3 * ENTRY, (seglink_key){2, 0, 0, 2}), 17, 0, 3 * ENTRY);
    shelved(name, seglink_shelf_remove(store, sizeof store, 3 * ENTRY, (seglink_key){0x402, 0, 0, 0x100}), 17, 0, 3 * ENTRY);
    holds(name, store, sizeof store, order, 3, 0xA5);
    shelved(name, seglink_shelf_remove(store, sizeof store, 3 * ENTRY, (seglink_key){1, 0, 0, 0}), 0, 0, 2 * ENTRY);
    holds(name, store, 2 * ENTRY, order + 2, 2, 0);
    shelved(name, seglink_shelf_remove(store, sizeof store, 2 * ENTRY, (seglink_key){1, 0, 0, 0}), 17, 0, 2 * ENTRY);
    check(name, "the last byte", store[sizeof store - 1], 0xA5);
}

static void shelf_lookups(void)
{
    static const char name[] = "a lookup";
    static const seglink_key one = {1, 0, 0, 0}, two = {2, 0, 0, 0};
    uint8_t yard[2 * ENTRY], standard[2 * ENTRY];
    shelf_add(yard, sizeof yard, 0, kept_sheet(1, 0));
    shelf_add(standard, sizeof standard, 0, kept_sheet(1, 0));
    shelf_add(standard, sizeof standard, ENTRY, kept_sheet(2, 0));
    looked_up(name, seglink_shelf_lookup(yard, sizeof yard, ENTRY, standard, sizeof standard, 2 * ENTRY, one), 0, yard + 4, 25);
    looked_up(name, seglink_shelf_lookup(yard, sizeof yard, 0, standard, sizeof standard, 2 * ENTRY, one), 0, standard + 4, 25);
    looked_up(name, seglink_shelf_lookup(yard, sizeof yard, ENTRY, standard, sizeof standard, 2 * ENTRY, two), 0, standard + ENTRY + 4, 25);
    looked_up(name, seglink_shelf_lookup(yard, sizeof yard, ENTRY, standard, sizeof standard, ENTRY, two), 17, yard, 0);
    looked_up(name, seglink_shelf_lookup(yard, sizeof yard, ENTRY - 1, standard, sizeof standard, ENTRY, one), 21, yard, 0);
    looked_up(name, seglink_shelf_lookup(yard, sizeof yard, ENTRY, standard, sizeof standard, 1, one), 21, yard, 0);
    looked_up(name, seglink_shelf_lookup(NULL, 0, 0, standard, sizeof standard, ENTRY, one), 0, standard + 4, 25);
    looked_up(name, seglink_shelf_lookup(yard, sizeof yard, ENTRY, NULL, 0, 0, one), 0, yard + 4, 25);
    looked_up(name, seglink_shelf_lookup(NULL, 0, 0, NULL, 0, 0, one), 17, NULL, 0);
    looked_up(name, seglink_shelf_lookup(NULL, 0, 1, NULL, 0, 0, one), 21, NULL, 0);
}

static void shelves(void)
{
    static const char name[] = "a shelf with null";
    uint8_t store[ENTRY];
    shelf_changes();
    shelf_lookups();
    shelved(name, seglink_shelf_add(NULL, 0, 0, NULL, 0), 9, 0, 0);
    shelved(name, shelf_add(NULL, 0, 0, desk_sheet), 8, 0, 0);
    shelved(name, shelf_add(NULL, 0, 1, desk_sheet), 21, 0, 1);
    shelved(name, seglink_shelf_add(store, sizeof store, 0, NULL, 0), 9, 0, 0);
    shelved(name, seglink_shelf_remove(NULL, 0, 0, (seglink_key){0, 0, 0, 0}), 17, 0, 0);
}

static void nulls(void)
{
    static const uint32_t lengths[] = {0, 1, 39, 0xFFFFFFFF}, refusals[] = {0, 1, 7, 8, 13, 77};
    null_conversions("packet to sheet with null", seglink_packet_to_sheet, &desk_packet);
    null_conversions("packet to sheet with null", seglink_packet_to_sheet, &journey_packet);
    null_conversions("sheet to packet with null", seglink_sheet_to_packet, &desk_sheet);
    null_conversions("sheet to packet with null", seglink_sheet_to_packet, &journey_sheet);
    null_questions();
    for (uint32_t phase = 0; phase < 4; ++phase)
        for (size_t i = 0; i < sizeof lengths / sizeof *lengths; ++i)
            for (size_t j = 0; j < sizeof refusals / sizeof *refusals; ++j)
                null_intake((seglink_intake){phase, lengths[i], refusals[j], 0});
}

// ---- Steps

// A segment of 10 cm: 100 km/h with the delay, from 5 cm on 140 km/h.
static const uint8_t stepped_sheet[] = {6, 0xC5, 0xC6, 4, 1, 0, 0, 7, 0, 0, 0, 0, 10, 0, 0, 0, 100, 0, 0, 1, 5, 0x8C, 1, 0, 0, 0, 0, 0, 0, 0};
static const seglink_train stepped_train = {.length = 2, .cant = 80, .maximum = 120};

// Copies a list to the end of readable memory, the nth of it; a null list stays null.
static const uint32_t *lend_list(int nth, const uint32_t *list, size_t length)
{
    return list == NULL ? NULL : memcpy(readable[nth] + PAGES - length * sizeof *list, list, length * sizeof *list);
}

// Checks the answer about steps on a run of the first `count` segments, all of them the first `length` bytes of that sheet. Nothing past the sheet and
// past the lists can be read, nor the segments past the count; with a count that is not 1 to 4, or another kind, no segment can be read.
static void steps_on(uint32_t kind, uint32_t count, size_t length, seglink_train train, const uint32_t *starts, size_t starts_len,
    const uint32_t *speeds, size_t speeds_len, uint32_t refusal, uint32_t place)
{
    static const char name[] = "steps";
    const uint8_t *sheet = memcpy(readable[0] + PAGES - length, stepped_sheet, length), *s[LENT];
    for (uint32_t i = 0; i < LENT; ++i)
        s[i] = i < count && count <= LENT && kind <= 1 ? sheet : unreadable;
    seglink_checked checked = seglink_check_steps(kind, count, s[0], length, s[1], length, s[2], length, s[3], length, train,
        lend_list(1, starts, starts_len), starts_len, lend_list(2, speeds, speeds_len), speeds_len);
    check(name, "the refusal", checked.refusal, refusal);
    check(name, "the place", checked.place, place);
}

// Checks the answer about steps on that sheet alone.
static void steps_are(const uint32_t *starts, size_t starts_len, const uint32_t *speeds, size_t speeds_len, uint32_t refusal, uint32_t place)
{
    steps_on(1, 1, sizeof stepped_sheet, stepped_train, starts, starts_len, speeds, speeds_len, refusal, place);
}

static void steps(void)
{
    static const uint32_t starts[] = {0, 7}, thrice[] = {0, 3, 7}, early[] = {0, 5}, late[] = {0, 8}, offset[] = {1, 7}, twice[] = {0, 7, 7},
                          past[] = {0, 7, 10}, speeds[] = {100, 120, 120}, same[] = {100, 100, 120}, high[] = {100, 140}, low[] = {99, 120};
    static uint32_t many[129], alike[129];
    for (uint32_t i = 0; i < 129; ++i) {
        many[i] = i;
        alike[i] = 100;
    }
    steps_are(starts, 2, speeds, 2, 0, 0);
    steps_are(thrice, 3, same, 3, 0, 0);
    steps_are(early, 2, speeds, 2, 19, 5);
    steps_are(late, 2, speeds, 2, 19, 7);
    steps_are(starts, 1, speeds, 1, 19, 7);
    steps_are(starts, 2, high, 2, 19, 7);
    steps_are(starts, 2, low, 2, 19, 0);
    steps_are(starts, 0, speeds, 0, 18, 0);
    steps_are(offset, 2, speeds, 2, 18, 0);
    steps_are(twice, 3, speeds, 3, 18, 0);
    steps_are(past, 3, speeds, 3, 18, 0);
    steps_are(starts, 2, low, 1, 18, 0);
    steps_are(starts, 1, low, 2, 18, 0);
    steps_are(many, 129, alike, 129, 18, 0);
    steps_are(NULL, 0, NULL, 0, 18, 0);
    steps_on(2, 0, 0, (seglink_train){.length = 0}, NULL, 0, NULL, 0, 15, 0);
    steps_on(1, 0, sizeof stepped_sheet, stepped_train, starts, 2, speeds, 2, 16, 0);
    steps_on(1, 5, sizeof stepped_sheet, stepped_train, starts, 2, speeds, 2, 16, 0);
    steps_on(1, 1, 29, (seglink_train){.length = 0}, NULL, 0, NULL, 0, 9, 29);
    steps_on(1, 1, sizeof stepped_sheet, (seglink_train){.length = 0}, NULL, 0, NULL, 0, 10, 0);
    // the train's tail is on the segment before: its change to 140 km/h holds from its start on, and for 2 cm past its end
    steps_on(1, 2, sizeof stepped_sheet, stepped_train, starts, 2, speeds, 2, 0, 0);
    steps_on(1, 4, sizeof stepped_sheet, stepped_train, starts, 2, speeds, 2, 0, 0);
    check("steps", "the size of an answer", sizeof(seglink_checked), 8);
}

// Checks the answers about the largest segment, whose lists are all full.
static void largest_asked(const struct fields *s)
{
    static const char name[] = "the largest segment";
    static const seglink_train train = {.length = 200, .cant = 300, .maximum = 600};
    struct bytes packet = packet_of(s), sheet = sheet_of(s, false);
    seglink_altitude altitude = seglink_altitude_of_packet(packet.byte, packet.length);
    check(name, "the refusal of its altitude", altitude.refusal, 0);
    check(name, "its altitude", (size_t)altitude.altitude, 948575);
    kinds_asked(name, SEGLINK_KIND_PACKET, &packet, train, 16777214, (seglink_speed){0, 0, 600});
    kinds_asked(name, SEGLINK_KIND_SHEET, &sheet, train, 16777214, (seglink_speed){0, 0, 600});
}

// Checks the interface's number, and where a train's numbers lie.
static void interface(void)
{
    static const char name[] = "the interface";
    check(name, "the archive's number", seglink_version(), SEGLINK_INTERFACE);
    check(name, "the number of its symbol", seglink_interface(), SEGLINK_INTERFACE);
    check(name, "the size of a train", sizeof(seglink_train), 16);
    check(name, "where the maximum lies", offsetof(seglink_train, maximum), 8);
    check(name, "where the first membership lies", offsetof(seglink_train, freight_p), 12);
    check(name, "where the last membership lies", offsetof(seglink_train, passenger), 14);
}

static int all_checks(struct fields *s)
{
    interface();
    smallest(s);
    sizes("the smallest segment", s, 185, 39, 23);
    both("the smallest segment", s, 0, 0);
    largest(s);
    sizes("the largest segment", s, 16460, 2073, 5728);
    both("the largest segment", s, 0, 0);
    largest_asked(s);
    mixed(s, 12, 11);
    both("a mixed segment", s, 0, 0);
    mixed(s, 31, 24);
    both("a mixed segment of 31 voltage changes and 24 of current", s, 0, 0);
    mixed(s, 24, 31);
    both("a mixed segment of 24 voltage changes and 31 of current", s, 0, 0);
    desk_cases(s);
    altitudes(s);
    single_fields(s);
    lists(s);
    cut_sheets("the desk sheet cut", &desk_sheet);
    damaged_packets();
    damaged_sheets();
    speeds_by_cant();
    speeds_by_maximum(s);
    speeds_by_kind();
    journeys(s);
    intakes();
    runs(s);
    shelves();
    steps();
    nulls();
    printf("%u passed, %u failed\n", passed, failed);
    return failed == 0 ? 0 : 1;
}

// ---- Times

enum { ROUNDS = 15, FIELDS_A_ROUND = 1000000 };

static int by_size(const void *a, const void *b)
{
    double x = *(const double *)a, y = *(const double *)b;
    return (x > y) - (x < y);
}

static double now(void)
{
    struct timespec t;
    clock_gettime(CLOCK_MONOTONIC, &t);
    return (double)t.tv_sec * 1e9 + (double)t.tv_nsec;
}

// Prints the median over the rounds of the nanoseconds that one field takes.
static void timed(const char *name, conversion *convert, const struct bytes *in, size_t fields)
{
    size_t repeats = FIELDS_A_ROUND / fields;
    double took[ROUNDS];
    seglink_converted c = {0};
    for (int r = 0; r < ROUNDS; ++r) {
        double began = now();
        for (size_t i = 0; i < repeats; ++i) {
            c = convert(in->byte, in->length, store + GUARD, ROOM);
            if (c.refusal != 0)
                exit(1);
        }
        took[r] = (now() - began) / (double)(repeats * fields);
    }
    qsort(took, ROUNDS, sizeof *took, by_size);
    printf("%s, %zu fields, %zu bytes to %u: %.2f ns a field (median of %d rounds of %zu conversions; fastest %.2f, slowest %.2f)\n", name, fields,
           in->length, (unsigned)c.length, took[ROUNDS / 2], ROUNDS, repeats, took[0], took[ROUNDS - 1]);
}

static void both_timed(const char *name, const struct fields *s)
{
    char title[64];
    struct bytes packet = packet_of(s), sheet = sheet_of(s, false);
    snprintf(title, sizeof title, "%s, packet to sheet", name);
    timed(title, seglink_packet_to_sheet, &packet, s->count);
    snprintf(title, sizeof title, "%s, sheet to packet", name);
    timed(title, seglink_sheet_to_packet, &sheet, s->count);
}

static int all_times(struct fields *s)
{
    printf("The fields are those of the sheet, so L_PACKET_ATO is not counted. The room of %d bytes is not cleared between conversions.\n", ROOM);
    smallest(s);
    both_timed("smallest", s);
    largest(s);
    both_timed("largest", s);
    one_journey(s, false);
    both_timed("journey of one timing point", s);
    full_journey(s, 41, 486, 0);
    both_timed("largest journey without constraints", s);
    full_journey(s, 28, 0, 868);
    both_timed("journey full of constraints", s);
    return 0;
}

int main(int argc, char **argv)
{
    static struct fields s;
    if (argc == 1)
        return all_checks(&s);
    if (argc == 2 && strcmp(argv[1], "time") == 0)
        return all_times(&s);
    fprintf(stderr, "usage: conversions [time]\n");
    return 2;
}
