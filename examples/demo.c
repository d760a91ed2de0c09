// demo [SEGMENT]: reads a packet from standard input and converts it to its sheet and back; of a segment, answers the permitted speed of four trains
// at two places. If SEGMENT is a file with the packet of the next segment, answers their speeds there too, by that segment alone and by the run of
// both. Of a journey, SEGMENT is the packet of its first segment: answers the permitted speed there, and the speed that the journey restricts it to.
#include <stdio.h>
#include <string.h>

#include "seglink.h"

static const struct {
    const char *name;
    seglink_train train;
} TRAINS[] = {
    {"passenger, 15 m, 150 mm, 160 km/h", {.length = 1500, .cant = 150, .maximum = 160, .passenger = true}},
    {"passenger, 15 m, 180 mm, 160 km/h", {.length = 1500, .cant = 180, .maximum = 160, .passenger = true}}, // has no entry of its own: falls to 150 mm
    {"freight P, 25 m, 130 mm,  83 km/h", {.length = 2500, .cant = 130, .maximum = 83, .freight_p = true}},
    {"freight G, 40 m,  80 mm, 100 km/h", {.length = 4000, .cant = 80, .maximum = 100, .freight_g = true}},
};
static const uint32_t PLACES[] = {6000, 11800}, NEXT_PLACES[] = {300, 1800, 4500}, RESTRICTED_PLACES[] = {2500, 6500};
enum { JOURNEY = 4 };

// Prints the count of the bytes, and the bytes in hexadecimal, 24 on a line.
static void print_bytes(const char *what, const uint8_t *bytes, size_t count)
{
    printf("%s, %zu bytes:", what, count);
    for (size_t i = 0; i < count; ++i)
        printf("%s%02X", i % 24 == 0 ? "\n    " : " ", bytes[i]);
    printf("\n");
}

// Prints a speed in km/h, or a refusal with its place.
static void print_speed(seglink_speed answer)
{
    if (answer.refusal == SEGLINK_SUCCESS)
        printf("%4u km/h", (unsigned)answer.speed);
    else
        printf(" REFUSED %u AT %u", (unsigned)answer.refusal, (unsigned)answer.place);
}

// Converts the sheet back and prints whether the result is the packet again.
static void print_back(const uint8_t *packet, size_t packet_len, const uint8_t *sheet, size_t sheet_len)
{
    uint8_t again[SEGLINK_LARGEST_JOURNEY_PACKET];
    seglink_converted back = seglink_sheet_to_packet(sheet, sheet_len, again, sizeof again);
    bool same = back.length == packet_len && memcmp(packet, again, packet_len) == 0;
    printf("Back from the sheet, %u bytes: %s.\n", (unsigned)back.length, same ? "the same packet" : "ANOTHER PACKET");
}

// Prints the permitted speed of each train at each place of a segment's packet.
static void print_speeds(const uint8_t *packet, size_t packet_len)
{
    for (size_t i = 0; i < sizeof PLACES / sizeof *PLACES; ++i) {
        printf("Permitted at %u cm:\n", (unsigned)PLACES[i]);
        for (size_t j = 0; j < sizeof TRAINS / sizeof *TRAINS; ++j) {
            printf("    %s: ", TRAINS[j].name);
            print_speed(seglink_permitted_speed_one(SEGLINK_KIND_PACKET, packet, packet_len, TRAINS[j].train, PLACES[i]));
            printf("\n");
        }
    }
}

// Prints the permitted speed of each train at each place of the next segment: by that segment alone, and by a run of both, where the tail counts.
static void print_next(const uint8_t *packet, size_t packet_len, const uint8_t *next, size_t next_len)
{
    for (size_t i = 0; i < sizeof NEXT_PLACES / sizeof *NEXT_PLACES; ++i) {
        uint32_t x = NEXT_PLACES[i];
        printf("Permitted at %u cm of the next segment, by it alone and by the run of both:\n", (unsigned)x);
        for (size_t j = 0; j < sizeof TRAINS / sizeof *TRAINS; ++j) {
            seglink_train train = TRAINS[j].train;
            printf("    %s: ", TRAINS[j].name);
            print_speed(seglink_permitted_speed_one(SEGLINK_KIND_PACKET, next, next_len, train, x));
            printf(", ");
            print_speed(seglink_permitted_speed(SEGLINK_KIND_PACKET, 2, packet, packet_len, next, next_len, packet, 0, packet, 0, train, x));
            printf("\n");
        }
    }
}

// Prints the permitted speed of each train at each place of the journey's first segment, and the speed that the journey restricts it to.
static void print_restricted(const uint8_t *segment, size_t segment_len, const uint8_t *journey, size_t journey_len)
{
    for (size_t i = 0; i < sizeof RESTRICTED_PLACES / sizeof *RESTRICTED_PLACES; ++i) {
        uint32_t x = RESTRICTED_PLACES[i];
        printf("Permitted at %u cm of its first segment, and restricted by the journey:\n", (unsigned)x);
        for (size_t j = 0; j < sizeof TRAINS / sizeof *TRAINS; ++j) {
            seglink_train train = TRAINS[j].train;
            printf("    %s: ", TRAINS[j].name);
            print_speed(seglink_permitted_speed_one(SEGLINK_KIND_PACKET, segment, segment_len, train, x));
            printf(", ");
            print_speed(seglink_restricted_speed_one(SEGLINK_KIND_PACKET, segment, segment_len, journey, journey_len, 0, train, x));
            printf("\n");
        }
    }
}

// Reads the file with a segment's packet and returns the count of its bytes, 0 if it cannot be read.
static size_t read_segment(const char *name, uint8_t segment[SEGLINK_LARGEST_PACKET + 1])
{
    FILE *file = fopen(name, "rb");
    if (file == NULL)
        return 0;
    size_t length = fread(segment, 1, SEGLINK_LARGEST_PACKET + 1, file);
    fclose(file);
    return length;
}

int main(int argc, char **argv)
{
    // a byte more than the largest packet, so that a longer input is refused and not cut
    uint8_t packet[SEGLINK_LARGEST_JOURNEY_PACKET + 1], sheet[SEGLINK_LARGEST_JOURNEY_SHEET];
    size_t length = fread(packet, 1, sizeof packet, stdin);
    print_bytes("The packet", packet, length);
    seglink_converted there = seglink_packet_to_sheet(packet, length, sheet, sizeof sheet);
    if (there.refusal != SEGLINK_SUCCESS) {
        printf("REFUSED %u AT %u\n", (unsigned)there.refusal, (unsigned)there.place);
        return 1;
    }
    print_bytes("Its sheet", sheet, there.length);
    print_back(packet, length, sheet, there.length);
    if (packet[0] != JOURNEY)
        print_speeds(packet, length);
    if (argc > 1) {
        uint8_t segment[SEGLINK_LARGEST_PACKET + 1];
        size_t segment_len = read_segment(argv[1], segment);
        if (packet[0] == JOURNEY)
            print_restricted(segment, segment_len, packet, length);
        else
            print_next(packet, length, segment, segment_len);
    }
    return 0;
}
