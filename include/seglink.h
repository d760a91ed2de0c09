// The operations of the segment link, for C99 and C++98 and what came after them: link with libseglink.a, which `tests/proved target/staticlib/libseglink.a` writes for x86-64.
// C++17 has seglink.hpp beside it.
// This is the interface number 10: it links with an archive of that number and with no other.
// A packet or a sheet is of a segment (packet number 6) or of a journey (packet number 4). The conversions and the intake take both; the questions
// on speed and altitude and the shelf take segments alone, but for the restricted speed, which takes a journey beside them. A segment has up to 31 changes of speed, 31 of voltage and 31 of current.
//
// Each segment of a journey has up to 31 temporary constraints. Q_TC_Type 0 uses Q_FRONT and V_Speed_Level, 1 uses the adhesion, 2 and 3 use neither.
// Q_TC_Range 0 uses the start, 1 the end, 2 both, 3 neither. A field that is not used is 0. No type uses the current: it is 1,023 in the packet
// and 0 in the sheet. A constraint's speed, like a segment's, is lowered to a multiple of 5 km/h on its way to the packet.
//
// Any bytes may be handed over, in any number. A pointer may be null if its length is 0: the inline functions hand the archive another in its place,
// as seglink_lent does for a caller; the archive's functions take null itself too, which is tested for each, and not proved.
// The caller keeps two rules: the room shares no byte with the input; each bool is 0 or 1, as C has it unless a bool's byte is overwritten.
// No operation keeps a pointer, has a state of its own or stops the program, so any number of threads may call the operations.
#ifndef SEGLINK_H
#define SEGLINK_H

#ifndef __cplusplus
#include <stdbool.h>
#endif
#include <stddef.h>
#include <stdint.h>

#ifdef __cplusplus
extern "C" {
#endif

// Number of this interface: it rises whenever a name, a layout or a meaning here changes.
#define SEGLINK_INTERFACE 10

// Why an operation refused: the numbers of the build definition, each with its ground.
//
// If several grounds are met, the refusal that is judged first is given:
//     a packet              1, 2, 3, then its fields in order (6 before 4 or 5), then 13, then 7
//     a sheet               its numbers in order (9 before 2, 4 or 5), then 9 for bytes that are left
//     a conversion          the refusals of its packet or sheet, then 12 (of a sheet alone), then 8
//     a speed question      15, then 16, then the refusals of its packets or sheets, one segment after the other, then 10, then 11
//     a restricted speed    15, then 16, then the refusals of its segments as above, then those of its journey (of a sheet 12 last), then 22, then for
//                           each segment 23, 24, 25, then 10, then 11, then 26
//     a check of steps      the refusals of a speed question without 11, then 18, then 19
//     an altitude question  the refusals of its packet
//     a completion          8, then the refusals of its packet
//     an intake's sheet     14 where there is no verdict, then the verdict's refusal, then 14 where the packet's room is cut short, then
//                           the refusals of a conversion
//     an addition           21, then the refusals of its sheet, then 8
//     a removal             21, then 17
//     a lookup              21 of either store, then 17
//
// The fields that 4 asks to be 0 where they are not used: NID_CTRACTION at voltage 0, the last eight fields at a passing point, and of a temporary
// constraint those that its type and range do not use; but its current is 1,023 in a packet.
//
// The place says where the fault is: a bit of the packet or a byte of the sheet. Both are counted from 0 at the start, the top bit of a byte first;
// of a run, at the start of the segment that is refused; of a journey beside a run, at the journey's start.
//     4, 5                  the first bit of the field at fault, or the first byte of its number; of a constraint whose start is not below
//                           its end, the end is at fault
//     6                     the first bit of the field that does not fit
//     7                     the first padding bit that is 1
//     9                     the first byte of the number at fault, which is the sheet's length where the sheet ends before the number; or
//                           the first byte that is left
//     13                    the first bit that is left
//     19                    the first wrong centimetre, counted from the start of the run's last segment
//     all others, success   0
enum seglink_refusal {
    SEGLINK_SUCCESS = 0,
    SEGLINK_SHORT_PACKET = 1,    // a packet has fewer than 15 bytes
    SEGLINK_PACKET_NUMBER = 2,   // the packet number is neither 4 nor 6, is 4 where a segment is needed, or is 6 where a journey is needed
    SEGLINK_PACKET_LENGTH = 3,   // the packet's bytes are not 15 + L_PACKET_ATO / 8, rounded up
    SEGLINK_FIELD_VALUE = 4,     // a field is outside its range or set, or not 0 where it is not used
    SEGLINK_CHANGE_LOCATION = 5, // a change's location does not rise, is 0, or is at or past L_SP; or a temporary constraint's start is not below its end
    SEGLINK_BODY_BITS = 6,       // a field does not fit in the body's remaining bits
    SEGLINK_PADDING_BIT = 7,     // a padding bit is 1
    SEGLINK_SHORT_ROOM = 8,      // the result is longer than the lent room, or a packet's deliveries together are; or a store has no room for a sheet
    SEGLINK_SHEET_FORM = 9,      // a sheet ends too soon, has bytes left, or a number is not in its shortest form or not below 4,294,967,296
    SEGLINK_TRAIN_VALUE = 10,    // the train's length, cant deficiency or maximum is not allowed
    SEGLINK_PAST_END = 11,       // x is at or past L_SP of the run's last segment
    SEGLINK_LONG_BODY = 12,      // a sheet's body would exceed 65,535 bits
    SEGLINK_BITS_LEFT = 13,      // bits of the body are left after the last field
    SEGLINK_TOO_EARLY = 14,      // an intake's sheet is asked for before a completion, after the next delivery or in phase 2 with a refusal or place that no completion gives; or with the packet's room cut short
    SEGLINK_UNKNOWN_KIND = 15,   // the kind is neither 0 nor 1
    SEGLINK_RUN_COUNT = 16,      // the run has no segment or more than 4
    SEGLINK_NOT_KEPT = 17,       // no sheet with the key is kept in the stores that are asked
    SEGLINK_STEPS = 18,          // there are no steps or more than 128, unequal numbers of starts and speeds, or starts that do not rise from 0 on or reach L_SP
    SEGLINK_WRONG_SPEED = 19,    // the last step at or before a centimetre does not give the permitted speed
    SEGLINK_NO_SHELF = 21,       // a store has more than 65,536 bytes, or its used part is not a run of accepted sheets with different keys
    SEGLINK_NO_LEG = 22,         // the leg is no segment of the journey, or the run would begin before the journey
    SEGLINK_OTHER_SEGMENT = 23,  // a segment's NID_C, NID_SP or version are not those of the journey's segment at its place
    SEGLINK_REVERSE_LEG = 24,    // a segment is not travelled in its nominal direction
    SEGLINK_CONSTRAINT_PLACE = 25, // a constraint of type 0 uses a location outside its segment: a start at or past L_SP, an end of 0 or past L_SP
    SEGLINK_TAIL_BEFORE = 26     // the train may still stand on a segment before the run: the run does not begin at leg 0, and x counted from the run's start is below the train's length
};

// Kinds of a speed question: it brings packets of segments, or sheets of segments.
enum seglink_kind {
    SEGLINK_KIND_PACKET = 0,
    SEGLINK_KIND_SHEET = 1
};

// Sizes in bytes: of a segment's packets and sheet, then of a journey's, whose sheet is never longer than the last size. A room of a journey's
// largest is never refused as too short, nor is a room of a segment's largest for a segment.
enum seglink_size {
    SEGLINK_SMALLEST_PACKET = 39,
    SEGLINK_LARGEST_PACKET = 2073,
    SEGLINK_LARGEST_SHEET = 5728,
    SEGLINK_LARGEST_JOURNEY_PACKET = 8207,
    SEGLINK_LARGEST_JOURNEY_SHEET = 15226
};

// Most steps of a check.
enum seglink_steps_limit {
    SEGLINK_MOST_STEPS = 128
};

// Most bytes of a shelf's store.
enum seglink_store_limit {
    SEGLINK_LARGEST_STORE = 65536
};

// Answer of a conversion: 0, 0 and the count of bytes that it wrote; or a refusal, its place and 0.
typedef struct {
    uint32_t refusal, place, length;
} seglink_converted;

// Answer to a speed question: 0, 0 and the speed in km/h, 0 to 600; or a refusal, its place and 0.
typedef struct {
    uint32_t refusal, place, speed;
} seglink_speed;

// Answer to a check of steps: 0 and 0; or a refusal and its place, with 19 the first wrong centimetre.
typedef struct {
    uint32_t refusal, place;
} seglink_checked;

// Answer to an altitude question: 0, 0 and the altitude in cm, from -100,000 to 948,575; or a refusal, its place and 0.
typedef struct {
    uint32_t refusal, place;
    int32_t altitude;
} seglink_altitude;

// A train: its length in cm, 1 to 150,000; its cant deficiency in mm, 80, 100, 130, 150, 165, 180, 210, 225, 245, 275 or 300; its own top speed in
// km/h, 1 to 600 (any other length, cant deficiency or maximum is refused with 10); whether it is freight in P position, freight in G position, a
// passenger train. Make it by seglink_train_of, which names the categories: three bools by their order are easily crossed.
// An element's entries with Q_DIFF 0 count if they name the train's cant deficiency or, if no entry does, the greatest figure below it. The lowest
// speed of the entries that count is taken; V_STATIC if none counts. With entries for 100 and 165, a train of 150 mm has the speed of the entry for 100.
#ifndef SEGLINK_TRAIN // fleet.h declares it too
#define SEGLINK_TRAIN 10 // the number of seglink.h that gave it this layout

// Marks a function whose answer is not to be dropped, where the language or the compiler has such a mark.
#if defined(__cplusplus) && __cplusplus >= 201703L
#define SEGLINK_NODISCARD [[nodiscard]]
#elif defined(__GNUC__)
#define SEGLINK_NODISCARD __attribute__((warn_unused_result))
#else
#define SEGLINK_NODISCARD
#endif

// Marks a struct whose fields are to be set by their names: gcc warns in C where they are set by their order.
#if defined(__has_attribute) && !defined(__cplusplus)
#if __has_attribute(designated_init)
#define SEGLINK_BY_NAME __attribute__((designated_init))
#endif
#endif
#ifndef SEGLINK_BY_NAME
#define SEGLINK_BY_NAME
#endif

typedef struct SEGLINK_BY_NAME {
    uint32_t length, cant, maximum;
    bool freight_p, freight_g, passenger;
} seglink_train;

// Categories of a train, by which seglink_train_of makes it: freight in P position, freight in G position, a passenger train. A train may have several,
// as SEGLINK_FREIGHT_P | SEGLINK_FREIGHT_G, or none.
enum seglink_category {
    SEGLINK_NO_CATEGORY = 0,
    SEGLINK_FREIGHT_P = 1,
    SEGLINK_FREIGHT_G = 2,
    SEGLINK_PASSENGER = 4
};

// Makes a train of its length in cm, cant deficiency in mm, own top speed in km/h and categories. Nothing is judged here; but a bit that is no category's
// makes a train of zeros, which every operation refuses with 10.
SEGLINK_NODISCARD
static inline seglink_train seglink_train_of(uint32_t length_cm, uint32_t cant_mm, uint32_t maximum_kmh, uint32_t categories)
{
    const bool known = categories <= (SEGLINK_FREIGHT_P | SEGLINK_FREIGHT_G | SEGLINK_PASSENGER);
    seglink_train train;
    train.length = known ? length_cm : 0;
    train.cant = known ? cant_mm : 0;
    train.maximum = known ? maximum_kmh : 0;
    train.freight_p = known && (categories & SEGLINK_FREIGHT_P) != 0;
    train.freight_g = known && (categories & SEGLINK_FREIGHT_G) != 0;
    train.passenger = known && (categories & SEGLINK_PASSENGER) != 0;
    return train;
}
#elif SEGLINK_TRAIN != 10
#error "seglink.h and fleet.h declare trains of different layouts"
#endif // SEGLINK_TRAIN

// State of an intake, which takes packets that arrive in several deliveries, one packet after the other, into one room. The caller keeps the
// state and the room, lends both at each call and takes the state back. All 0 is fresh; any four numbers may be handed over.
// Phase 0, and each above 2, gathers: `length` bytes of a packet are in the room. Phase 1: the deliveries passed the room's end. Phase 2 is judged:
// `refusal` and `place` are the verdict, 0 and 0 for an accepted packet, and `length` is the count of the packet's bytes, 0 if the refusal is 8.
// In phase 2, a refusal that no completion gives (any but 0 to 8 and 13), and a place other than 0 with the refusal 0, 1, 2, 3 or 8, are no verdict.
typedef struct {
    uint32_t phase, length, refusal, place;
} seglink_intake;

// Key of a segment's sheet on a shelf. Any four numbers may be handed over; those of a sheet are below 1,024, 4,294,967,296, 256 and 256.
typedef struct {
    uint32_t nid_c, nid_sp, major, minor;
} seglink_key;

// Answer to a change of a shelf: 0, 0 and how many bytes of the store are used then; or a refusal, its place (a byte of the sheet) and `used` as it was.
typedef struct {
    uint32_t refusal, place, used;
} seglink_shelved;

// A part of a store: a pointer into the store, and how many bytes.
typedef struct {
    const uint8_t *bytes;
    size_t length;
} seglink_part;

// Answer of a lookup: 0 and the part that is the sheet; or a refusal and an empty part, the yard's pointer with length 0.
typedef struct {
    uint32_t refusal;
    seglink_part part;
} seglink_found;

// Returns the ground of a refusal in words, as the list of refusals has it; of 0 that there is none, and of any other number that no refusal has it.
SEGLINK_NODISCARD
static inline const char *seglink_refusal_text(uint32_t number)
{
    switch (number) {
    case SEGLINK_SUCCESS: return "not refused";
    case SEGLINK_SHORT_PACKET: return "a packet has fewer than 15 bytes";
    case SEGLINK_PACKET_NUMBER: return "the packet number is neither 4 nor 6, is 4 where a segment is needed, or is 6 where a journey is needed";
    case SEGLINK_PACKET_LENGTH: return "the packet's bytes are not 15 + L_PACKET_ATO / 8, rounded up";
    case SEGLINK_FIELD_VALUE: return "a field is outside its range or set, or not 0 where it is not used";
    case SEGLINK_CHANGE_LOCATION: return "a change's location does not rise, is 0, or is at or past L_SP; or a temporary constraint's start is not below its end";
    case SEGLINK_BODY_BITS: return "a field does not fit in the body's remaining bits";
    case SEGLINK_PADDING_BIT: return "a padding bit is 1";
    case SEGLINK_SHORT_ROOM: return "the result is longer than the lent room, or a packet's deliveries together are; or a store has no room for a sheet";
    case SEGLINK_SHEET_FORM: return "a sheet ends too soon, has bytes left, or a number is not in its shortest form or not below 4,294,967,296";
    case SEGLINK_TRAIN_VALUE: return "the train's length, cant deficiency or maximum is not allowed";
    case SEGLINK_PAST_END: return "x is at or past L_SP of the run's last segment";
    case SEGLINK_LONG_BODY: return "a sheet's body would exceed 65,535 bits";
    case SEGLINK_BITS_LEFT: return "bits of the body are left after the last field";
    case SEGLINK_TOO_EARLY: return "an intake's sheet is asked for before a completion, after the next delivery or in phase 2 with a refusal or place that no completion gives; or with the packet's room cut short";
    case SEGLINK_UNKNOWN_KIND: return "the kind is neither 0 nor 1";
    case SEGLINK_RUN_COUNT: return "the run has no segment or more than 4";
    case SEGLINK_NOT_KEPT: return "no sheet with the key is kept in the stores that are asked";
    case SEGLINK_STEPS: return "there are no steps or more than 128, unequal numbers of starts and speeds, or starts that do not rise from 0 on or reach L_SP";
    case SEGLINK_WRONG_SPEED: return "the last step at or before a centimetre does not give the permitted speed";
    case 20: return "the list has no card or more than 64, or it has no card of the number"; // of fleet.h
    case SEGLINK_NO_SHELF: return "a store has more than 65,536 bytes, or its used part is not a run of accepted sheets with different keys";
    case SEGLINK_NO_LEG: return "the leg is no segment of the journey, or the run would begin before the journey";
    case SEGLINK_OTHER_SEGMENT: return "a segment's NID_C, NID_SP or version are not those of the journey's segment at its place";
    case SEGLINK_REVERSE_LEG: return "a segment is not travelled in its nominal direction";
    case SEGLINK_CONSTRAINT_PLACE: return "a constraint of type 0 uses a location outside its segment: a start at or past L_SP, an end of 0 or past L_SP";
    case SEGLINK_TAIL_BEFORE: return "the train may still stand on a segment before the run: the run does not begin at leg 0, and x counted from the run's start is below the train's length";
    default: return "no refusal has this number";
    }
}

// Returns whether a refusal has a place of its own: a bit or a byte with 4, 5, 6, 7, 9 and 13, a centimetre with 19. With all others the place is 0.
SEGLINK_NODISCARD
static inline bool seglink_refusal_has_place(uint32_t number)
{
    return (number >= SEGLINK_FIELD_VALUE && number <= SEGLINK_PADDING_BIT) || number == SEGLINK_SHEET_FORM || number == SEGLINK_BITS_LEFT
        || number == SEGLINK_WRONG_SPEED;
}

// Returns the pointer that the archive is handed for `length` bytes: the same, or where they are none another that is not null.
SEGLINK_NODISCARD
static inline const uint8_t *seglink_lent(const uint8_t *bytes, size_t length)
{
    static const uint8_t none = 0;
    return length != 0 ? bytes : &none;
}

// Writes the sheet of a packet, of a segment or a journey, to the start of the room and returns the sheet's length; the bytes of the room past it
// stay. Any bytes may be handed over; a refusal (1 to 8 or 13) leaves the room as it was.
SEGLINK_NODISCARD
seglink_converted seglink_packet_to_sheet(const uint8_t *packet, size_t packet_len, uint8_t *room, size_t room_len);

// Writes the packet of a sheet, of a segment or a journey, to the start of the room and returns the packet's length; the bytes of the room past it
// stay. Any bytes may be handed over; a refusal (2, 4, 5, 8, 9 or 12) leaves the room as it was.
SEGLINK_NODISCARD
seglink_converted seglink_sheet_to_packet(const uint8_t *sheet, size_t sheet_len, uint8_t *room, size_t room_len);

// Returns the permitted speed of `train` at `x` cm from the start of the last segment of a run: the first `count` of the four segments, in order of
// travel. Their elements are laid end to end; each ends where the next starts, across boundaries too. An element with Q_FRONT 0 holds for the train's
// length past its end, over several short segments if need be: so the segments on which the tail still stands are to be lent. No answer is above the
// train's maximum, which need be no multiple of 5.
// `kind` says what the segments are: 0 packets, whose speeds are multiples of 5 km/h, 1 sheets, whose speeds are in km/h. The same segment may stand
// twice; NID_C, NID_SP, version and D_EoA_Offset play no part.
// Any kind, count, bytes, train and x may be handed over. A kind that is neither is refused with 15, first of all, and a count of 0 or above 4 with
// 16; no segment is read then, whatever the other values are. Any other refusal of kind 0 is 1 to 7, 10, 11 or 13, of kind 1 it is 2, 4, 5, 9, 10
// or 11. The place is within the segment that is refused; which one that is, is not told.
// Segments past the count are not read, and may lie in memory that cannot be read. One that is not lent has a pointer all the same: the first one
// again, with length 0.
SEGLINK_NODISCARD
seglink_speed seglink_permitted_speed(uint32_t kind, uint32_t count, const uint8_t *first, size_t first_len, const uint8_t *second, size_t second_len,
                                      const uint8_t *third, size_t third_len, const uint8_t *fourth, size_t fourth_len, seglink_train train, uint32_t x);

// Answers as seglink_permitted_speed for a run of one segment.
SEGLINK_NODISCARD
static inline seglink_speed seglink_permitted_speed_one(uint32_t kind, const uint8_t *segment, size_t segment_len, seglink_train train, uint32_t x)
{
    const uint8_t *lent = seglink_lent(segment, segment_len);
    return seglink_permitted_speed(kind, 1, lent, segment_len, lent, 0, lent, 0, lent, 0, train, x);
}

// Returns the restricted speed of `train` at `x` cm from the start of the last segment of a run: the lowest of what seglink_permitted_speed answers
// there and of the speeds of the journey's temporary constraints of type 0 that hold there. A dashboard that has the journey asks this question and
// shows its answer: the permitted speed alone knows nothing of the yard's restrictions.
// `kind`, `count`, the segments, `train` and `x` are as there; the journey is of the same kind, a packet's speeds count 5 km/h there too. `leg` is the
// number of the journey's segment in which x lies, 0 the first: the run's segments are the journey's segments leg - count + 1 to leg.
// A constraint restricts, within its own segment, from its start to L_SP (Q_TC_Range 0), from 0 to its end (1), from its start to its end (2) or all
// of it (3). It holds from its start on and before its end, with Q_FRONT 0 before its end plus the train's length, across boundaries too. Constraints
// of other types, and those of other segments of the journey, restrict nothing. Q_JP_Status plays no part.
// Any values may be handed over. With 15 and 16 neither a segment nor the journey is read. Any other refusal is one of seglink_permitted_speed, of
// kind 1 also 12, or 22 to 26, whose place is 0. With 23 to 25 the first segment of the run at fault decides: a typing error in a constraint is told
// and not dropped. A train that is longer than all that is lent is refused with 26, unless the run begins at leg 0, where its tail is before the journey.
SEGLINK_NODISCARD
seglink_speed seglink_restricted_speed(uint32_t kind, uint32_t count, const uint8_t *first, size_t first_len, const uint8_t *second, size_t second_len,
                                       const uint8_t *third, size_t third_len, const uint8_t *fourth, size_t fourth_len,
                                       const uint8_t *journey, size_t journey_len, uint32_t leg, seglink_train train, uint32_t x);

// Answers as seglink_restricted_speed for a run of one segment.
SEGLINK_NODISCARD
static inline seglink_speed seglink_restricted_speed_one(uint32_t kind, const uint8_t *segment, size_t segment_len, const uint8_t *journey, size_t journey_len,
                                                         uint32_t leg, seglink_train train, uint32_t x)
{
    const uint8_t *lent = seglink_lent(segment, segment_len);
    return seglink_restricted_speed(kind, 1, lent, segment_len, lent, 0, lent, 0, lent, 0, seglink_lent(journey, journey_len), journey_len, leg, train, x);
}

// Checks the steps that a supplier's tool prints for a train on a segment: `starts` in cm from the start of the last segment of a run, and `speeds`
// in km/h. Success exactly if there are 1 to SEGLINK_MOST_STEPS steps, as many starts as speeds, the first start is 0, the starts rise strictly and lie
// below L_SP of the last segment, and at every centimetre of it the last step at or before it gives the speed that seglink_permitted_speed answers.
// Neighbours of one speed are allowed. `kind`, `count`, the segments and the train are as there; any may be handed over, and any starts and speeds.
// A refusal is one of seglink_permitted_speed without 11, then 18, then 19 with the first wrong centimetre. Each segment is judged once.
SEGLINK_NODISCARD
seglink_checked seglink_check_steps(uint32_t kind, uint32_t count, const uint8_t *first, size_t first_len, const uint8_t *second, size_t second_len,
                                    const uint8_t *third, size_t third_len, const uint8_t *fourth, size_t fourth_len, seglink_train train,
                                    const uint32_t *starts, size_t starts_len, const uint32_t *speeds, size_t speeds_len);

// Returns the altitude of a packet's segment in signed centimetres.
// Any bytes may be handed over; a refusal is 1 to 7 or 13.
SEGLINK_NODISCARD
seglink_altitude seglink_altitude_of_packet(const uint8_t *packet, size_t packet_len);

// Returns the state of an intake that has taken nothing: all 0.
SEGLINK_NODISCARD
seglink_intake seglink_intake_fresh(void);

// Takes a delivery and returns the state after it. Writes the delivery after the packet's bytes in the room, or to the room's start after a verdict;
// the other bytes of the room stay. A delivery of no bytes changes neither the room nor the state. A delivery that would pass the room's end, or
// 4,294,967,295 bytes, and each delivery after it until completion, writes nothing. For speed, no delivery is judged: it costs a call and a copy.
SEGLINK_NODISCARD
seglink_intake seglink_intake_deliver(seglink_intake intake, const uint8_t *delivery, size_t delivery_len, uint8_t *room, size_t room_len);

// Judges the bytes delivered since the last verdict as a packet, of a segment or a journey, and returns the state with the verdict: 8, before all
// others, if the bytes exceeded the room (or `length` is more than the room has); else 0, or the packet's own refusal (1 to 7 or 13) with its place.
// No bytes are refused with 1. The next packet starts afresh.
SEGLINK_NODISCARD
seglink_intake seglink_intake_complete(seglink_intake intake, const uint8_t *room, size_t room_len);

// Answers as seglink_packet_to_sheet for the packet that was judged; `taken` is the room that took the packet. The sheet may be asked for, any number
// of times, until the next delivery that has bytes or the next completion. At any other time, in phase 2 without a verdict, and if `taken` has
// fewer bytes than an accepted packet, the refusal is 14 at 0. If the verdict was a refusal, the answer is its number and place again. A refusal
// leaves the room as it was.
SEGLINK_NODISCARD
seglink_converted seglink_intake_sheet(seglink_intake intake, const uint8_t *taken, size_t taken_len, uint8_t *room, size_t room_len);

// A shelf keeps segment sheets in a store that the caller lends, of at most SEGLINK_LARGEST_STORE bytes, by NID_C, NID_SP and version. The caller
// keeps the store and how many of its bytes are used; a fresh store has 0, whatever its bytes. A kept sheet is four bytes for its length, most
// significant first, then its bytes as they were given; the used part has nothing between its sheets. Each call judges the store. In stores that
// only these calls changed keys rise (NID_C, then NID_SP, major, minor), and each call then judges every sheet once and compares each key once; any
// other order is taken too, with more comparisons.

// Keeps the sheet of a segment in the store and returns how many bytes are used then. A kept sheet of the same key goes first; the new one stands
// before the first of a greater key. The bytes past the used part stay. The sheet shares no byte with the store. A refusal (21, then 2, 4, 5 or 9
// with its place, then 8) moves nothing: 8 exactly if the kept sheets without the replaced one, the new sheet and four bytes for each exceed the store.
SEGLINK_NODISCARD
seglink_shelved seglink_shelf_add(uint8_t *store, size_t store_len, uint32_t used, const uint8_t *sheet, size_t sheet_len);

// Removes the sheet with this key from the store and returns how many bytes are used then. The bytes past the used part stay. A refusal (21 or 17)
// moves nothing.
SEGLINK_NODISCARD
seglink_shelved seglink_shelf_remove(uint8_t *store, size_t store_len, uint32_t used, seglink_key key);

// Looks a key up in the yard's store, then in the default store: sets `part` to the bytes of the sheet in the store that keeps it, and returns 0; or
// to the yard's pointer with length 0, and returns 21 or 17. Both stores are judged. Hand over any part, as { yard, 0 }: it is not read.
SEGLINK_NODISCARD
uint32_t seglink_shelf_lookup_into(seglink_part *part, const uint8_t *yard, size_t yard_len, uint32_t yard_used,
    const uint8_t *standard, size_t standard_len, uint32_t standard_used, seglink_key key);

// Looks a key up as seglink_shelf_lookup_into does, and returns the refusal and the part. The part is valid as long as its store, until a change.
SEGLINK_NODISCARD
static inline seglink_found seglink_shelf_lookup(const uint8_t *yard, size_t yard_len, uint32_t yard_used,
    const uint8_t *standard, size_t standard_len, uint32_t standard_used, seglink_key key)
{
    const uint8_t *first = seglink_lent(yard, yard_len), *second = seglink_lent(standard, standard_len);
    seglink_found found;
    found.part.bytes = first;
    found.part.length = 0;
    found.refusal = seglink_shelf_lookup_into(&found.part, first, yard_len, yard_used, second, standard_len, standard_used, key);
    if (found.refusal != SEGLINK_SUCCESS)
        found.part.bytes = yard;
    return found;
}

// Returns the number of the archive's interface, which is SEGLINK_INTERFACE: an archive of another number does not link with this header.
SEGLINK_NODISCARD
uint32_t seglink_version(void);

// The symbol of this number. Every object that includes this header refers to it, by a pointer that stays where unused sections are removed; so an
// object that was built with another number's header does not link ("undefined reference to `seglink_interface_..`"), and is to be built again.
uint32_t seglink_interface_10(void);
#ifdef __has_attribute
#if __has_attribute(retain)
#define SEGLINK_KEPT __attribute__((used, retain))
#endif
#endif
#ifndef SEGLINK_KEPT
#define SEGLINK_KEPT __attribute__((used))
#endif
static uint32_t (*const seglink_interface)(void) SEGLINK_KEPT = seglink_interface_10;

#ifdef __cplusplus
}
#endif

#endif
