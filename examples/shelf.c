// A worked example in C of the shelf: the yard's sheets before the default ones, a sheet replaced, removed and looked up, and what is refused.
#include <stdio.h>
#include <string.h>

#include "seglink.h"

// The build definition's sample sheet, 25 bytes: a segment of 1 cm. NID_C is byte 8, the speed is byte 16.
static const uint8_t SHEET[25] = {6, 0xC5, 0xC6, 4, 1, 0, 0, 7, 0, 0, 0, 0, 1, 0, 0, 0, 80};

// A store of the server: its bytes, and how many are used.
struct store { uint8_t bytes[64]; uint32_t used; };

// Adds the sample sheet with another NID_C and speed, and prints the answer.
static void add(const char *name, struct store *store, uint8_t nid_c, uint8_t speed)
{
    uint8_t sheet[sizeof SHEET];
    memcpy(sheet, SHEET, sizeof sheet);
    sheet[8] = nid_c;
    sheet[16] = speed;
    seglink_shelved shelved = seglink_shelf_add(store->bytes, sizeof store->bytes, store->used, sheet, sizeof sheet);
    store->used = shelved.used; // as it was on a refusal
    if (shelved.refusal == SEGLINK_SHORT_ROOM)
        printf("%s: no room for segment %u, %u bytes used\n", name, nid_c, (unsigned)shelved.used);
    else
        printf("%s: segment %u at %u km/h added, %u bytes used\n", name, nid_c, speed, (unsigned)shelved.used);
}

// Removes a segment's sheet and prints the answer.
static void drop(const char *name, struct store *store, uint32_t nid_c)
{
    seglink_shelved shelved = seglink_shelf_remove(store->bytes, sizeof store->bytes, store->used, (seglink_key){nid_c, 0, 0, 0});
    store->used = shelved.used;
    printf("%s: segment %u %s, %u bytes used\n", name, (unsigned)nid_c, shelved.refusal == SEGLINK_NOT_KEPT ? "is not kept" : "removed",
        (unsigned)shelved.used);
}

// Looks a segment up and prints where its sheet lies, and the speed that it permits.
static void look(const struct store *yard, const struct store *standard, uint32_t nid_c)
{
    seglink_found found = seglink_shelf_lookup(yard->bytes, sizeof yard->bytes, yard->used, standard->bytes, sizeof standard->bytes,
        standard->used, (seglink_key){nid_c, 0, 0, 0});
    if (found.refusal != SEGLINK_SUCCESS) {
        printf("lookup of segment %u: refused with %u, %zu bytes\n", (unsigned)nid_c, (unsigned)found.refusal, found.part.length);
        return;
    }
    bool of_yard = yard->bytes <= found.part.bytes && found.part.bytes < yard->bytes + sizeof yard->bytes;
    printf("lookup of segment %u: %zu bytes at byte %td of the %s store, %u km/h\n", (unsigned)nid_c, found.part.length,
        found.part.bytes - (of_yard ? yard->bytes : standard->bytes), of_yard ? "yard's" : "default", found.part.bytes[16]);
}

int main(void)
{
    struct store yard = {.used = 0}, standard = {.used = 0};
    add("default", &standard, 1, 80);
    add("default", &standard, 2, 100);
    add("default", &standard, 3, 120);
    look(&yard, &standard, 2);
    add("yard", &yard, 2, 30);
    look(&yard, &standard, 2);
    look(&yard, &standard, 1);
    look(&yard, &standard, 3);
    drop("default", &standard, 1);
    add("default", &standard, 3, 120);
    look(&yard, &standard, 3);
    add("default", &standard, 3, 60); // replaces
    look(&yard, &standard, 3);
    drop("yard", &yard, 2);
    drop("yard", &yard, 2);
    look(&yard, &standard, 2);
    standard.bytes[0] = 1; // a damaged length
    look(&yard, &standard, 2);
    return 0;
}
