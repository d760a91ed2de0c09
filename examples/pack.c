// Reads a sheet as text, a number at the start of each line, and writes its packet: examples/sample.numbers makes the segment
// examples/sample.packet, examples/next.numbers the segment after it, examples/next.packet, and examples/journey.numbers the journey
// examples/journey.packet, which has a speed restriction.
#include <stdio.h>
#include <stdlib.h>

#include "seglink.h"

enum { LINE = 256, LONGEST_NUMBER = 5 };

// Writes a number at the byte `at` in groups of seven bits, lowest group first; the top bit of a group is 1 if another follows. Returns the next byte.
static size_t put_number(uint8_t *sheet, size_t at, uint32_t number)
{
    for (; number > 127; number /= 128)
        sheet[at++] = (uint8_t)(128 + number % 128);
    sheet[at++] = (uint8_t)number;
    return at;
}

// Reads the number at the start of a line and returns whether there is one; a number that no sheet can hold ends the program.
static bool number_of(const char *line, uint32_t *number)
{
    char *end;
    unsigned long long read = strtoull(line, &end, 0);
    if (read > UINT32_MAX) {
        fprintf(stderr, "Not below 4,294,967,296: %s", line);
        exit(1);
    }
    *number = (uint32_t)read;
    return end != line;
}

// Writes the sheet of the numbers on standard input and returns its length; passes over a line that starts with no number.
static size_t read_sheet(uint8_t sheet[SEGLINK_LARGEST_JOURNEY_SHEET + LONGEST_NUMBER])
{
    char line[LINE];
    uint32_t number;
    size_t length = 0;
    while (length <= SEGLINK_LARGEST_JOURNEY_SHEET && fgets(line, sizeof line, stdin) != NULL)
        if (number_of(line, &number))
            length = put_number(sheet, length, number);
    return length;
}

int main(void)
{
    uint8_t sheet[SEGLINK_LARGEST_JOURNEY_SHEET + LONGEST_NUMBER], packet[SEGLINK_LARGEST_JOURNEY_PACKET];
    size_t length = read_sheet(sheet);
    seglink_converted made = seglink_sheet_to_packet(sheet, length, packet, sizeof packet);
    if (made.refusal != SEGLINK_SUCCESS) {
        fprintf(stderr, "The sheet is refused: %u at byte %u\n", (unsigned)made.refusal, (unsigned)made.place);
        return 1;
    }
    return fwrite(packet, 1, made.length, stdout) == made.length ? 0 : 1;
}
