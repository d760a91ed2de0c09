// A worked example in C of a radio loop: packets arrive in several deliveries, are judged when they are complete, and are asked for their sheets.
#include <stdio.h>

#include "seglink.h"

static const uint8_t SEGMENT[] = {
    0x06, 0x00, 0xB9, 0x00, 0x01, 0x23, 0x45, 0x00, 0x00, 0x01, 0x00, 0x00, 0x00, 0x00, 0x07, // header
    0x00, 0x00, 0x00, 0x00, 0x00, 0x00, 0x00, 0x00, 0x00, 0x00, 0x40, 0x00, 0x00, 0x00, 0x00, 0x00, // identity
    0x01, 0x00, 0x00, 0x00, 0x00, 0x3F, 0xF0, 0x00, // speed, voltage, current
};
static const uint8_t WRONG_END[] = {0x3F, 0xF0, 0x24}; // two padding bits are 1
static const uint8_t JOURNEY[] = {0x04, 0x00, 0x0B, 0x00, 0x01, 0x23, 0x45, 0x00, 0x00, 0x01, 0x00, 0x00, 0x00, 0x00, 0x07, 0x20, 0x00};

// Deliveries of the radio: bytes, at times none, and whether the packet is complete with them.
static const struct { const uint8_t *bytes; size_t count; bool complete; } TRAFFIC[] = {
    {SEGMENT, 10, false},
    {SEGMENT, 0, false},
    {SEGMENT + 10, 29, true},
    {SEGMENT, 0, false},
    {SEGMENT, 36, false}, // a damaged packet
    {WRONG_END, 3, true},
    {SEGMENT, 39, false}, // two packets in one, as the end of the first got lost
    {SEGMENT, 20, false},
    {SEGMENT + 20, 19, true},
    {JOURNEY, 1, false},
    {JOURNEY + 1, 16, true},
};

enum { GATHERS, PAST_END, JUDGED };

// Prints the state of an intake in words.
static void print_state(seglink_intake intake)
{
    if (intake.phase == GATHERS)
        printf("%u in the room", (unsigned)intake.length);
    else if (intake.phase == PAST_END)
        printf("past the room's end");
    else if (intake.refusal == SEGLINK_SUCCESS)
        printf("accepted, %u bytes", (unsigned)intake.length);
    else
        printf("refused with %u at bit %u", (unsigned)intake.refusal, (unsigned)intake.place);
}

// Asks an intake for its sheet and prints the bytes, or why there is none.
static void print_sheet(seglink_intake intake, const uint8_t *taken, size_t taken_len)
{
    uint8_t sheet[SEGLINK_LARGEST_JOURNEY_SHEET];
    seglink_converted asked = seglink_intake_sheet(intake, taken, taken_len, sheet, sizeof sheet);
    if (asked.refusal == SEGLINK_TOO_EARLY)
        printf("    no sheet yet\n");
    else if (asked.refusal != SEGLINK_SUCCESS)
        printf("    no sheet: %u at bit %u\n", (unsigned)asked.refusal, (unsigned)asked.place);
    else
        printf("    its sheet:");
    for (size_t i = 0; i < asked.length; ++i)
        printf(" %02X%s", sheet[i], i + 1 == asked.length ? "\n" : "");
}

int main(void)
{
    uint8_t room[48]; // SEGLINK_LARGEST_JOURNEY_PACKET would hold any packet
    seglink_intake intake = seglink_intake_fresh();
    for (size_t i = 0; i < sizeof TRAFFIC / sizeof *TRAFFIC; ++i) {
        intake = seglink_intake_deliver(intake, TRAFFIC[i].bytes, TRAFFIC[i].count, room, sizeof room);
        printf("%zu bytes: ", TRAFFIC[i].count);
        print_state(intake);
        if (TRAFFIC[i].complete) {
            intake = seglink_intake_complete(intake, room, sizeof room);
            printf("; complete: ");
            print_state(intake);
        }
        printf("\n");
        print_sheet(intake, room, sizeof room);
    }
    return 0;
}
