// Calls of the fleet board over its archive, beside the segment link's archive: layouts, orders of refusal, moves, null pointers.
#include <stdio.h>
#include <string.h>

#include "seglink.h"
#include "fleet.h"

static unsigned failed;

#define REQUIRE(so) ((so) ? (void)0 : (void)(failed++, printf("FAILED: line %d: %s\n", __LINE__, #so)))

// A packet of a segment of 1,000 cm: 100 km/h with train length delay up to 500 cm, 120 km/h for 150 mm, 60 for freight in P position, 45 for freight
// in G position, at most 90 for passengers; 140 km/h from 500 cm on. crates/wall_screen/data/packet has the same bytes.
static const uint8_t PACKET[] = {
    0x06, 0x01, 0x12, 0x01, 0x23, 0x45, 0x00, 0x00, 0x00, 0x01, 0x00, 0x00, 0x00, 0x00, 0x07, 0x00, 0x00, 0x00, 0x00, 0x00, 0x00, 0x00, 0x00, 0x00, 0xFA,
    0x00, 0x00, 0x00, 0x00, 0x00, 0x00, 0x01, 0x41, 0x03, 0x30, 0x80, 0xC4, 0x44, 0xC4, 0x48, 0x20, 0x00, 0x3E, 0x87, 0x00, 0x00, 0x00, 0x1F, 0xF8, 0x00,
};

// Six different cards, and what the segment permits each.
static const fleet_card CARDS[] = {
    {{.length = 200, .cant = 80, .maximum = 600}, 699},
    {{.length = 100, .cant = 100, .maximum = 300, .freight_p = true}, 10},
    {{.length = 300, .cant = 130, .maximum = 250, .freight_g = true}, 20},
    {{.length = 400, .cant = 150, .maximum = 200, .passenger = true}, 30},
    {{.length = 500, .cant = 165, .maximum = 83}, 40},
    {{.length = 600, .cant = 180, .maximum = 500}, 999},
};
static const uint32_t SPEEDS[] = {100, 60, 45, 90, 83, 120};
enum { COUNT = sizeof CARDS / sizeof *CARDS };

static bool is(fleet_board board, uint32_t refusal, uint32_t place, uint32_t card, uint32_t speed)
{
    return board.refusal == refusal && board.place == place && board.card == card && board.speed == speed;
}

static fleet_board on(const fleet_card *cards, size_t count)
{
    return fleet_lowest(cards, count, PACKET, sizeof PACKET);
}

// Each card alone, and each list of the first cards, against the public question.
static void speeds(void)
{
    uint32_t lowest = 0;
    for (size_t i = 0; i < COUNT; i++) {
        seglink_speed asked = seglink_permitted_speed_one(SEGLINK_KIND_PACKET, PACKET, sizeof PACKET, CARDS[i].train, CARDS[i].location);
        REQUIRE(asked.refusal == 0 && asked.speed == SPEEDS[i]);
        REQUIRE(is(on(&CARDS[i], 1), 0, 0, 0, SPEEDS[i]));
        if (SPEEDS[i] < SPEEDS[lowest])
            lowest = (uint32_t)i;
        REQUIRE(is(on(CARDS, i + 1), 0, 0, lowest, SPEEDS[lowest]));
    }
}

// Lists of equal cards: the first is named, up to 64 of them.
static void equals(void)
{
    fleet_card list[66];
    for (size_t i = 0; i < 66; i++)
        list[i] = CARDS[2];
    for (size_t n = 1; n <= FLEET_MOST_CARDS; n++)
        REQUIRE(is(on(list, n), 0, 0, 0, 45));
    REQUIRE(is(on(list, 65), FLEET_CARD_LIST, 0, 0, 0));
    REQUIRE(is(on(list, 66), FLEET_CARD_LIST, 0, 0, 0));
    list[0] = CARDS[0];
    REQUIRE(is(on(list, 64), 0, 0, 1, 45));
    list[63].train.freight_p = true; // 45 stays: the lowest entry that names it
    list[63].train.maximum = 44;
    REQUIRE(is(on(list, 64), 0, 0, 63, 44));
}

// 20 before all else, then the packet's own with its place, then each card's 10 or 11, first card first.
static void refusals(void)
{
    fleet_card list[3] = {CARDS[0], CARDS[1], CARDS[2]};
    uint8_t padded[sizeof PACKET];
    memcpy(padded, PACKET, sizeof PACKET);
    padded[sizeof PACKET - 1] |= 1;
    REQUIRE(is(fleet_lowest(NULL, 0, NULL, 0), FLEET_CARD_LIST, 0, 0, 0));
    REQUIRE(is(fleet_lowest(list, 0, PACKET, sizeof PACKET), FLEET_CARD_LIST, 0, 0, 0));
    list[0].train.length = 0;
    REQUIRE(is(fleet_lowest(list, 1, NULL, 0), SEGLINK_SHORT_PACKET, 0, 0, 0));
    REQUIRE(is(fleet_lowest(list, 3, padded, sizeof padded), SEGLINK_PADDING_BIT, 8 * sizeof PACKET - 1, 0, 0));
    REQUIRE(is(on(list, 3), SEGLINK_TRAIN_VALUE, 0, 0, 0));
    list[0] = CARDS[0];
    list[1].location = 1000;
    list[2].train.maximum = 601;
    REQUIRE(is(on(list, 2), SEGLINK_PAST_END, 0, 0, 0));
    REQUIRE(is(on(list, 3), SEGLINK_PAST_END, 0, 0, 0));
    list[1].train.cant = 81;
    REQUIRE(is(on(list, 3), SEGLINK_TRAIN_VALUE, 0, 0, 0));
    list[1] = CARDS[1];
    list[2].location = 1000;
    REQUIRE(is(on(list, 3), SEGLINK_TRAIN_VALUE, 0, 0, 0));
    REQUIRE(is(on(list, 2), 0, 0, 1, 60));
}

// A move changes four bytes of a list, or none.
static void moves(void)
{
    static fleet_card list[67], was[67];
    for (size_t n = 0; n <= 66; n++)
        for (uint32_t card = 0; card <= 66; card++) {
            memset(list, 0, sizeof list); // the padding's bytes are compared too
            for (size_t i = 0; i < 67; i++) {
                list[i].train = CARDS[i % COUNT].train;
                list[i].location = (uint32_t)i;
            }
            memcpy(was, list, sizeof list);
            bool made = 1 <= n && n <= FLEET_MOST_CARDS && card < n;
            REQUIRE(fleet_move(list, n, card, UINT32_MAX - card) == (made ? 0 : FLEET_CARD_LIST));
            if (made)
                was[card].location = UINT32_MAX - card;
            REQUIRE(memcmp(was, list, sizeof list) == 0);
        }
    REQUIRE(fleet_move(NULL, 0, 0, 0) == FLEET_CARD_LIST);
    REQUIRE(fleet_move(list, 64, UINT32_MAX, 0) == FLEET_CARD_LIST);
}

int main(void)
{
    speeds();
    equals();
    refusals();
    moves();
    return failed > 0;
}
