// A worked example in C: the build definition's sample packet to its sheet and back, its altitude, permitted speeds on it and on a run of two
// segments, and two refusals.
#include <stdio.h>
#include <string.h>

#include "seglink.h"

static const uint8_t PACKET[SEGLINK_SMALLEST_PACKET] = {
    0x06, 0x00, 0xB9, 0x00, 0x01, 0x23, 0x45, 0x00, 0x00, 0x01, 0x00, 0x00, 0x00, 0x00, 0x07, // header
    0x00, 0x00, 0x00, 0x00, 0x00, 0x00, 0x00, 0x00, 0x00, 0x00, 0x40, 0x00, 0x00, 0x00, 0x00, 0x00, // identity
    0x01, 0x00, 0x00, 0x00, 0x00, 0x3F, 0xF0, 0x00, // speed, voltage, current
};

// Prints the count of the bytes, and the bytes in hexadecimal, 16 on a line.
static void print_bytes(const char *what, const uint8_t *bytes, size_t count)
{
    printf("%s, %zu bytes:", what, count);
    for (size_t i = 0; i < count; ++i)
        printf("%s%02X", i % 16 == 0 ? "\n    " : " ", bytes[i]);
    printf("\n");
}

// Converts the packet to its sheet and back. Returns the count of the sheet's bytes, or 0 after a refusal.
static size_t convert(uint8_t sheet[SEGLINK_LARGEST_SHEET])
{
    seglink_converted there = seglink_packet_to_sheet(PACKET, sizeof PACKET, sheet, SEGLINK_LARGEST_SHEET);
    if (there.refusal != SEGLINK_SUCCESS) {
        printf("The packet is refused: %u at bit %u\n", (unsigned)there.refusal, (unsigned)there.place);
        return 0;
    }
    print_bytes("Its sheet", sheet, there.length);
    uint8_t packet[SEGLINK_LARGEST_PACKET];
    seglink_converted back = seglink_sheet_to_packet(sheet, there.length, packet, sizeof packet);
    bool same = back.length == sizeof PACKET && memcmp(packet, PACKET, sizeof PACKET) == 0;
    printf("The sheet's packet has %u bytes and is %s.\n", (unsigned)back.length, same ? "the same" : "another");
    return there.length;
}

// Asks for the altitude, and for a speed from the packet and from the sheet.
static void ask(const uint8_t *sheet, size_t sheet_len)
{
    seglink_altitude altitude = seglink_altitude_of_packet(PACKET, sizeof PACKET);
    printf("The segment lies at %d cm (refusal %u).\n", (int)altitude.altitude, (unsigned)altitude.refusal);
    seglink_train train = seglink_train_of(200, 150, 160, SEGLINK_PASSENGER);
    seglink_speed here = seglink_permitted_speed_one(SEGLINK_KIND_PACKET, PACKET, sizeof PACKET, train, 0);
    printf("A passenger train of 200 cm may run at %u km/h at 0 cm (refusal %u).\n", (unsigned)here.speed, (unsigned)here.refusal);
    seglink_speed same = seglink_permitted_speed_one(SEGLINK_KIND_SHEET, sheet, sheet_len, train, 0);
    printf("From the sheet the answer is %u km/h (refusal %u).\n", (unsigned)same.speed, (unsigned)same.refusal);
    train.maximum = 63;
    seglink_speed slower = seglink_permitted_speed_one(SEGLINK_KIND_PACKET, PACKET, sizeof PACKET, train, 0);
    printf("A train whose own maximum is 63 km/h may run at %u km/h (refusal %u).\n", (unsigned)slower.speed, (unsigned)slower.refusal);
}

// Asks for a speed on the next segment, a faster one, while the train's tail is still on this one.
static void ask_next(const uint8_t *sheet, size_t sheet_len)
{
    uint8_t next[SEGLINK_LARGEST_SHEET];
    memcpy(next, sheet, sheet_len);
    next[16] = 120; // V_STATIC
    seglink_train train = seglink_train_of(200, 150, 160, SEGLINK_PASSENGER);
    seglink_speed alone = seglink_permitted_speed_one(SEGLINK_KIND_SHEET, next, sheet_len, train, 0);
    // two segments are lent: the other two are the first one again, with length 0
    seglink_speed run = seglink_permitted_speed(SEGLINK_KIND_SHEET, 2, sheet, sheet_len, next, sheet_len, sheet, 0, sheet, 0, train, 0);
    printf("The next segment alone permits %u km/h (refusal %u); ", (unsigned)alone.speed, (unsigned)alone.refusal);
    printf("with the tail still here the train may run at %u km/h (refusal %u).\n", (unsigned)run.speed, (unsigned)run.refusal);
}

// Converts the packet without its last byte, and with one bit more than its fields have: both are refused, and the room keeps its bytes.
static void refuse(void)
{
    uint8_t room[4] = {0xA5, 0xA5, 0xA5, 0xA5}, longer[sizeof PACKET];
    seglink_converted cut = seglink_packet_to_sheet(PACKET, sizeof PACKET - 1, room, sizeof room);
    printf("Without its last byte the packet is refused: %u", (unsigned)cut.refusal);
    printf("%s.\n", cut.refusal == SEGLINK_PACKET_LENGTH ? " (its bytes are not those that L_PACKET_ATO asks for)" : "");
    memcpy(longer, PACKET, sizeof PACKET);
    longer[2] += 1; // L_PACKET_ATO
    seglink_converted left = seglink_packet_to_sheet(longer, sizeof longer, room, sizeof room);
    printf("With a body of one bit more it is refused: %u at bit %u", (unsigned)left.refusal, (unsigned)left.place);
    printf("%s.\n", left.refusal == SEGLINK_BITS_LEFT ? " (the first that no field has)" : "");
    print_bytes("The room then", room, sizeof room);
}

int main(void)
{
    uint8_t sheet[SEGLINK_LARGEST_SHEET];
    print_bytes("The packet", PACKET, sizeof PACKET);
    size_t length = convert(sheet);
    if (length == 0)
        return 1;
    ask(sheet, length);
    ask_next(sheet, length);
    refuse();
    return 0;
}
