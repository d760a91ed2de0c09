// The fleet board, for C99 and C++98 and what came after them: link with libfleet.a, which `tests/proved target/staticlib/libfleet.a` writes for x86-64. It needs no other archive.
// This is the interface number 1 of the board: it links with an archive of that number and with no other. seglink.h has a number of its own.
// The caller keeps a list of up to 64 train cards, each with a location on the segment of one packet, and lends it at each call.
// This header may be included together with seglink.h, in either order, and both archives may be linked into one program.
//
// Any cards, bytes and numbers may be handed over, in any number. A pointer may be null if its length is 0; this is tested, and not proved.
// The caller keeps two rules: the cards share no byte with the packet; each bool is 0 or 1, as C has it unless a bool's byte is overwritten.
// No operation keeps a pointer, has a state of its own or stops the program, so any number of threads may call them, each with its own list.
#ifndef FLEET_H
#define FLEET_H

#ifndef __cplusplus
#include <stdbool.h>
#endif
#include <stddef.h>
#include <stdint.h>

#ifdef __cplusplus
extern "C" {
#endif

// Number of this interface: it rises whenever a name, a layout or a meaning here changes, the train's too.
#define FLEET_INTERFACE 1

// Why the board refused, in the order in which it is judged. The place is 0 but for the packet's own refusals.
//     20          the list has no card or more than 64; before all else
//     1 to 7, 13  the packet's own, as seglink.h names them and their places: a bit of the packet
//     10, 11      of the first card that has one: 10 before 11 on one card, and card 0's 11 before card 1's 10. 10: the train's length, cant
//                 deficiency or maximum is not allowed. 11: the card's location is at or past L_SP
enum fleet_refusal {
    FLEET_SUCCESS = 0,
    FLEET_CARD_LIST = 20 // the list has no card or more than 64, or it has no card of the number
};

// Most cards of a list.
enum fleet_limit {
    FLEET_MOST_CARDS = 64
};

// A train: its length in cm, 1 to 150,000; its cant deficiency in mm, one of eleven figures; its own top speed in km/h, 1 to 600; whether it is
// freight in P position, freight in G position, a passenger train. seglink.h says what each means for the permitted speed.
#ifndef SEGLINK_TRAIN // seglink.h declares it too
#define SEGLINK_TRAIN 10 // the number of seglink.h that gave it this layout

// Marks a function whose answer is not to be dropped, where the language or the compiler has such a mark.
#if defined(__cplusplus) && __cplusplus >= 201703L
#define SEGLINK_NODISCARD [[nodiscard]]
#elif defined(__GNUC__)
#define SEGLINK_NODISCARD __attribute__((warn_unused_result))
#else
#define SEGLINK_NODISCARD
#endif

// Marks a struct whose fields are to be set by their names: gcc warns in C where they are set by their order.
#if defined(__has_attribute) && !defined(__cplusplus)
#if __has_attribute(designated_init)
#define SEGLINK_BY_NAME __attribute__((designated_init))
#endif
#endif
#ifndef SEGLINK_BY_NAME
#define SEGLINK_BY_NAME
#endif

typedef struct SEGLINK_BY_NAME {
    uint32_t length, cant, maximum;
    bool freight_p, freight_g, passenger;
} seglink_train;

// Categories of a train, by which seglink_train_of makes it: freight in P position, freight in G position, a passenger train. A train may have several,
// as SEGLINK_FREIGHT_P | SEGLINK_FREIGHT_G, or none.
enum seglink_category {
    SEGLINK_NO_CATEGORY = 0,
    SEGLINK_FREIGHT_P = 1,
    SEGLINK_FREIGHT_G = 2,
    SEGLINK_PASSENGER = 4
};

// Makes a train of its length in cm, cant deficiency in mm, own top speed in km/h and categories. Nothing is judged here; but a bit that is no category's
// makes a train of zeros, which every operation refuses with 10.
SEGLINK_NODISCARD
static inline seglink_train seglink_train_of(uint32_t length_cm, uint32_t cant_mm, uint32_t maximum_kmh, uint32_t categories)
{
    const bool known = categories <= (SEGLINK_FREIGHT_P | SEGLINK_FREIGHT_G | SEGLINK_PASSENGER);
    seglink_train train;
    train.length = known ? length_cm : 0;
    train.cant = known ? cant_mm : 0;
    train.maximum = known ? maximum_kmh : 0;
    train.freight_p = known && (categories & SEGLINK_FREIGHT_P) != 0;
    train.freight_g = known && (categories & SEGLINK_FREIGHT_G) != 0;
    train.passenger = known && (categories & SEGLINK_PASSENGER) != 0;
    return train;
}
#elif SEGLINK_TRAIN != 10
#error "seglink.h and fleet.h declare trains of different layouts"
#endif // SEGLINK_TRAIN

// A train card: a train, and the location of its front in cm from the start of the packet's segment.
typedef struct {
    seglink_train train;
    uint32_t location;
} fleet_card;

// Answer of the board: 0, 0, the number of a card, 0 the first, and its permitted speed in km/h; or a refusal, its place, 0 and 0.
typedef struct {
    uint32_t refusal, place, card, speed;
} fleet_board;

// The archive's layout of a card: a compiler with another refuses an array of -1 elements.
typedef char fleet_card_has_20_bytes_its_location_at_16[sizeof(fleet_card) == 20 && offsetof(fleet_card, location) == 16 ? 1 : -1];

// Returns the ground of a refusal of the board in words, as seglink_refusal_text does; of 0 that there is none, and of any other number that the board
// does not refuse with it.
SEGLINK_NODISCARD
static inline const char *fleet_refusal_text(uint32_t number)
{
    switch (number) {
    case FLEET_SUCCESS: return "not refused";
    case 1: return "a packet has fewer than 15 bytes";
    case 2: return "the packet number is neither 4 nor 6, is 4 where a segment is needed, or is 6 where a journey is needed";
    case 3: return "the packet's bytes are not 15 + L_PACKET_ATO / 8, rounded up";
    case 4: return "a field is outside its range or set, or not 0 where it is not used";
    case 5: return "a change's location does not rise, is 0, or is at or past L_SP; or a temporary constraint's start is not below its end";
    case 6: return "a field does not fit in the body's remaining bits";
    case 7: return "a padding bit is 1";
    case 10: return "the train's length, cant deficiency or maximum is not allowed";
    case 11: return "x is at or past L_SP of the run's last segment";
    case 13: return "bits of the body are left after the last field";
    case FLEET_CARD_LIST: return "the list has no card or more than 64, or it has no card of the number";
    default: return "the board has no refusal of this number";
    }
}

// Returns the number and the permitted speed of the first card with the lowest permitted speed on the packet's segment. Each card's speed is what
// seglink_permitted_speed_one answers for the packet, the card's train and its location. The packet is judged once, not once a card.
SEGLINK_NODISCARD
fleet_board fleet_lowest(const fleet_card *cards, size_t cards_len, const uint8_t *packet, size_t packet_len);

// Changes the location of the card with this number, to any location; the board judges it. All else of the list stays as it was. Returns 0; or 20 if
// the list has no card, more than 64 or no card of this number, and then changes nothing.
SEGLINK_NODISCARD
uint32_t fleet_move(fleet_card *cards, size_t cards_len, uint32_t card, uint32_t location);

// The symbol of this number, and a function that answers it. Every object that includes this header refers to it, by a pointer that stays where unused
// sections are removed; so an object that was built with another number's header does not link ("undefined reference to `fleet_interface_..`").
uint32_t fleet_interface_1(void);
#ifdef __has_attribute
#if __has_attribute(retain)
#define FLEET_KEPT __attribute__((used, retain))
#endif
#endif
#ifndef FLEET_KEPT
#define FLEET_KEPT __attribute__((used))
#endif
static uint32_t (*const fleet_interface)(void) FLEET_KEPT = fleet_interface_1;

#ifdef __cplusplus
}
#endif

#endif
