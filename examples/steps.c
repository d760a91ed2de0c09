// A worked example in C of the check of steps: reads lists of speed steps from standard input, as a supplier's tool prints them for the segment of
// examples/sample.packet, and says of each whether it is ours, or at which centimetre it is wrong first and what we permit there.
// A list is a line with '#' and its name, then a line for each step, its start in cm and its speed in km/h. Empty lines are skipped.
#include <stdio.h>
#include <string.h>

#include "seglink.h"

static const seglink_train TRAIN = {.length = 1500, .cant = 150, .maximum = 160, .passenger = true};

static uint8_t packet[SEGLINK_LARGEST_PACKET];
static size_t packet_length;

// A list of steps: whether a line of it was read, its name, and one step more than is allowed, so that too many are told.
struct list {
    bool begun;
    char name[80];
    uint32_t starts[SEGLINK_MOST_STEPS + 1], speeds[SEGLINK_MOST_STEPS + 1];
    size_t count;
};

// Checks a list and prints what is found.
static void check(const struct list *list)
{
    if (!list->begun)
        return;
    seglink_checked checked = seglink_check_steps(SEGLINK_KIND_PACKET, 1, packet, packet_length, packet, 0, packet, 0, packet, 0, TRAIN,
        list->starts, list->count, list->speeds, list->count);
    printf("%s, %zu steps: ", list->name, list->count);
    if (checked.refusal == SEGLINK_SUCCESS) {
        printf("right at every centimetre\n");
    } else if (checked.refusal == SEGLINK_WRONG_SPEED) {
        seglink_speed ours = seglink_permitted_speed_one(SEGLINK_KIND_PACKET, packet, packet_length, TRAIN, checked.place);
        printf("wrong first at centimetre %u, where we permit %u km/h\n", (unsigned)checked.place, (unsigned)ours.speed);
    } else {
        printf("refused with %u at %u\n", (unsigned)checked.refusal, (unsigned)checked.place);
    }
}

// Takes a line of a list: a step is two whole numbers and nothing else. Returns whether the line is one.
static bool taken(struct list *list, const char *line)
{
    unsigned start, speed;
    char more;
    if (line[strspn(line, "0123456789 \t\r\n")] != '\0' || sscanf(line, "%9u %9u %c", &start, &speed, &more) != 2)
        return false;
    list->begun = true;
    if (list->count <= SEGLINK_MOST_STEPS) {
        list->starts[list->count] = start;
        list->speeds[list->count++] = speed;
    }
    return true;
}

int main(void)
{
    FILE *file = fopen("examples/sample.packet", "rb");
    if (file == NULL)
        return 1;
    packet_length = fread(packet, 1, sizeof packet, file);
    fclose(file);

    struct list list = {.count = 0};
    char line[200];
    while (fgets(line, sizeof line, stdin) != NULL) {
        if (line[0] == '#') {
            check(&list);
            list.begun = true;
            list.count = 0;
            line[strcspn(line, "\r\n")] = '\0';
            snprintf(list.name, sizeof list.name, "%.70s", line + 1 + strspn(line + 1, " "));
        } else if (line[strspn(line, " \t\r\n")] != '\0' && !taken(&list, line)) {
            printf("no step: %s", line);
            return 1;
        }
    }
    check(&list);
    return 0;
}
