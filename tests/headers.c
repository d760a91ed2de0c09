// What the headers do themselves, in C99 and C++98 alike: trains by named categories, the words of the refusals, null with length 0.
#include <stdio.h>
#include <string.h>

#include "fleet.h"
#include "seglink.h"

static unsigned failed;

#define REQUIRE(so) ((so) ? (void)0 : (void)(failed++, printf("FAILED: line %d: %s\n", __LINE__, #so)))

// A packet of a segment of 1,000 cm: 100 km/h up to 500 cm, 120 km/h for 150 mm, 60 for freight in P position, 45 for freight in G position, at most
// 90 for passengers. crates/wall_screen/data/packet has the same bytes.
static const uint8_t PACKET[] = {
    0x06, 0x01, 0x12, 0x01, 0x23, 0x45, 0x00, 0x00, 0x00, 0x01, 0x00, 0x00, 0x00, 0x00, 0x07, 0x00, 0x00, 0x00, 0x00, 0x00, 0x00, 0x00, 0x00, 0x00, 0xFA,
    0x00, 0x00, 0x00, 0x00, 0x00, 0x00, 0x01, 0x41, 0x03, 0x30, 0x80, 0xC4, 0x44, 0xC4, 0x48, 0x20, 0x00, 0x3E, 0x87, 0x00, 0x00, 0x00, 0x1F, 0xF8, 0x00
};

static seglink_speed asked(seglink_train train)
{
    return seglink_permitted_speed_one(SEGLINK_KIND_PACKET, PACKET, sizeof PACKET, train, 10);
}

// Each set of categories, in the order of its bits, has its own speed; a bit that is no category's is refused.
static void trains(void)
{
    static const uint32_t speeds[] = {100, 60, 45, 45, 90, 60, 45, 45};
    static const uint32_t unknown[] = {8, 9, 15, 16, 256, 0x80000000u, 0xFFFFFFFFu};
    uint32_t set, i;
    for (set = 0; set < 8; set++) {
        const seglink_train train = seglink_train_of(4000, 80, 160, set);
        REQUIRE(train.length == 4000 && train.cant == 80 && train.maximum == 160);
        REQUIRE(train.freight_p == ((set & SEGLINK_FREIGHT_P) != 0));
        REQUIRE(train.freight_g == ((set & SEGLINK_FREIGHT_G) != 0));
        REQUIRE(train.passenger == ((set & SEGLINK_PASSENGER) != 0));
        REQUIRE(asked(train).refusal == SEGLINK_SUCCESS && asked(train).speed == speeds[set]);
    }
    REQUIRE(asked(seglink_train_of(4000, 80, 160, SEGLINK_NO_CATEGORY)).speed == 100);
    REQUIRE(asked(seglink_train_of(4000, 80, 160, SEGLINK_FREIGHT_P)).speed == 60);
    REQUIRE(asked(seglink_train_of(4000, 80, 160, SEGLINK_FREIGHT_G)).speed == 45);
    REQUIRE(asked(seglink_train_of(4000, 80, 160, SEGLINK_FREIGHT_P | SEGLINK_PASSENGER)).speed == 60);
    for (i = 0; i < sizeof unknown / sizeof *unknown; i++)
        REQUIRE(asked(seglink_train_of(4000, 80, 160, unknown[i])).refusal == SEGLINK_TRAIN_VALUE);
}

// Every refusal has words of its own; the board's are the same; 4 names no field.
static void words(void)
{
    const char *const unknown = seglink_refusal_text(0xFFFFFFFFu), *const not_the_board_s = fleet_refusal_text(0xFFFFFFFFu);
    uint32_t number, other, known = 0, of_the_board = 0;
    REQUIRE(unknown[0] != '\0' && not_the_board_s[0] != '\0');
    for (number = 0; number < 100; number++) {
        const char *text = seglink_refusal_text(number);
        const bool is_known = strcmp(text, unknown) != 0;
        REQUIRE(text[0] != '\0');
        known += is_known;
        for (other = 0; is_known && other < number; other++)
            REQUIRE(strcmp(text, seglink_refusal_text(other)) != 0);
        REQUIRE(is_known || !seglink_refusal_has_place(number));
        if (strcmp(fleet_refusal_text(number), not_the_board_s) != 0) {
            of_the_board++;
            REQUIRE(strcmp(fleet_refusal_text(number), text) == 0);
        }
    }
    REQUIRE(known >= 27 && of_the_board == 12);
    REQUIRE(strcmp(seglink_refusal_text(SEGLINK_PADDING_BIT), "a padding bit is 1") == 0);
    REQUIRE(strstr(seglink_refusal_text(SEGLINK_FIELD_VALUE), "NID_") == NULL);
    REQUIRE(seglink_refusal_has_place(SEGLINK_FIELD_VALUE) && seglink_refusal_has_place(SEGLINK_WRONG_SPEED));
    REQUIRE(!seglink_refusal_has_place(SEGLINK_SUCCESS) && !seglink_refusal_has_place(SEGLINK_PACKET_LENGTH));
}

// The inline functions take null with length 0, and a lookup hands the yard's own pointer back.
static void nulls(void)
{
    const seglink_train train = seglink_train_of(4000, 80, 160, SEGLINK_NO_CATEGORY);
    seglink_key key;
    seglink_found found;
    memset(&key, 0, sizeof key);
    REQUIRE(seglink_lent(PACKET, sizeof PACKET) == PACKET && seglink_lent(NULL, 0) != NULL);
    REQUIRE(seglink_permitted_speed_one(SEGLINK_KIND_PACKET, NULL, 0, train, 0).refusal == SEGLINK_SHORT_PACKET);
    REQUIRE(seglink_permitted_speed_one(SEGLINK_KIND_SHEET, NULL, 0, train, 0).refusal == SEGLINK_SHEET_FORM);
    REQUIRE(seglink_restricted_speed_one(SEGLINK_KIND_PACKET, NULL, 0, NULL, 0, 0, train, 0).refusal == SEGLINK_SHORT_PACKET);
    REQUIRE(seglink_restricted_speed_one(SEGLINK_KIND_PACKET, PACKET, sizeof PACKET, NULL, 0, 0, train, 0).refusal == SEGLINK_SHORT_PACKET);
    found = seglink_shelf_lookup(NULL, 0, 0, NULL, 0, 0, key);
    REQUIRE(found.refusal == SEGLINK_NOT_KEPT && found.part.bytes == NULL && found.part.length == 0);
    found = seglink_shelf_lookup(PACKET, 1, 0, NULL, 0, 1, key);
    REQUIRE(found.refusal == SEGLINK_NO_SHELF && found.part.bytes == PACKET && found.part.length == 0);
}

int main(void)
{
    trains();
    words();
    nulls();
    return failed == 0 ? 0 : 1;
}
