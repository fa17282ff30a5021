/* opc_entry_at, called from C: every set and field, in the order of the keys, and its refusals. */
#include "check.h"

#define ITEMS 4
#define FIELDS_MAX 5

static uint8_t package[OPC_BUFFER_LENGTH(1000)];

/* A set, and what its entries have in each field. */
struct set {
    uint64_t number;
    size_t entries;
    size_t fields;
    const char *texts[ITEMS][FIELDS_MAX];
};

static const struct set sets[] = {
    {OPC_ITEMS, 4, 2, {{"/t-1", "whole"}, {"/T3.tif/[0].piece", "hello "}, {"/t3.TIF/[1].last.Piece", "world"}, {"/t4", ""}}},
    {OPC_DEFAULTS, 2, 2, {{"jpg", "image/jpeg"}, {"TIF", "image/tiff;page=2"}}},
    {OPC_OVERRIDES, 1, 2, {{"/T4", "a/b"}}},
    {OPC_RELATIONSHIPS,
     3,
     5,
     {{"/", "R1", "a:case", "\1", "c#17"}, {"/", "r1", "a:tile", "", "t4"}, {"/t4", "r0", "a:tile", "", "t3.tif"}}},
};

/* The entries, put in another order than that of their keys. */
static int fill(void)
{
    const size_t length = sizeof package;
    CHECK(done(opc_start(package, length, 1000)));
    CHECK(done(opc_put_item(package, length, TEXT("/t4"), OPC_NO_BYTES, 0)));
    CHECK(done(opc_put_item(package, length, TEXT("/t3.TIF/[1].last.Piece"), TEXT("world"))));
    CHECK(done(opc_put_item(package, length, TEXT("/t-1"), TEXT("whole"))));
    CHECK(done(opc_put_item(package, length, TEXT("/T3.tif/[0].piece"), TEXT("hello "))));
    CHECK(done(opc_put_default(package, length, TEXT("TIF"), TEXT("image/tiff;page=2"))));
    CHECK(done(opc_put_default(package, length, TEXT("jpg"), TEXT("image/jpeg"))));
    CHECK(done(opc_put_override(package, length, TEXT("/T4"), TEXT("a/b"))));
    CHECK(done(opc_put_relationship(package, length, TEXT("/t4"), TEXT("r0"), TEXT("a:tile"), OPC_INTERNAL, TEXT("t3.tif"))));
    CHECK(done(opc_put_relationship(package, length, TEXT("/"), TEXT("r1"), TEXT("a:tile"), OPC_INTERNAL, TEXT("t4"))));
    CHECK(done(opc_put_relationship(package, length, TEXT("/"), TEXT("R1"), TEXT("a:case"), OPC_EXTERNAL, TEXT("c#17"))));
    return 0;
}

/* One field: written in full with the rest of the output kept, and in an output of just its length; else 3 and all kept. */
static int check_field(const struct set *set, uint64_t position, uint64_t field)
{
    const char *text = set->texts[position][field];
    int mode = set->number == OPC_RELATIONSHIPS && field == OPC_RELATIONSHIP_MODE;
    size_t n = mode ? 1 : strlen(text);
    uint8_t out[100], kept[100];

    memset(out, '.', sizeof out);
    memset(kept, '.', sizeof kept);
    if (n > 0) {
        CHECK(is(opc_entry_at(package, sizeof package, set->number, position, field, out, n - 1), OPC_OUTPUT_TOO_SHORT, 2, n,
                 0, 0));
        CHECK(memcmp(out, kept, sizeof out) == 0);
    }
    CHECK(is(opc_entry_at(package, sizeof package, set->number, position, field, out, n), 0, 2, n, set->entries, 0));
    CHECK(memcmp(out, text, n) == 0 && memcmp(out + n, kept, sizeof out - n) == 0);
    memset(out, '.', sizeof out);
    CHECK(is(opc_entry_at(package, sizeof package, set->number, position, field, out, sizeof out), 0, 2, n, set->entries, 0));
    CHECK(memcmp(out, text, n) == 0 && memcmp(out + n, kept, sizeof out - n) == 0);
    return 0;
}

/* All fields of a set; past its last entry 13; past its last field 8, at any position. */
static int check_set(const struct set *set)
{
    const uint64_t ends[] = {set->entries, set->entries + 1, UINT32_MAX, UINT64_MAX};
    uint8_t out[100];

    for (size_t position = 0; position < set->entries; position++) {
        for (size_t field = 0; field < set->fields; field++) {
            if (check_field(set, position, field) != 0) {
                return 1;
            }
        }
        CHECK(is(opc_entry_at(package, sizeof package, set->number, position, set->fields, out, sizeof out), 8, 2, 0, 0, 0));
    }
    for (size_t i = 0; i < sizeof ends / sizeof *ends; i++) {
        CHECK(is(opc_entry_at(package, sizeof package, set->number, ends[i], 0, out, 0), OPC_NOT_HELD, 2, 0, 0, 0));
        CHECK(is(opc_entry_at(package, sizeof package, set->number, ends[i], UINT64_MAX, out, 0), 8, 2, 0, 0, 0));
    }
    return 0;
}

int check_entries(void)
{
    uint8_t out[100];

    memset(package, 0, sizeof package);
    CHECK(is(opc_entry_at(package, sizeof package, 9, 9, 9, out, sizeof out), OPC_NOT_A_PACKAGE, 2, 0, 0, 0));
    CHECK(done(opc_start(package, sizeof package, 1000)));
    for (uint64_t set = OPC_ITEMS; set <= OPC_RELATIONSHIPS; set++) {
        CHECK(is(opc_entry_at(package, sizeof package, set, 0, 0, OPC_NO_BYTES, 0), OPC_NOT_HELD, 2, 0, 0, 0));
    }
    if (fill() != 0) {
        return 1;
    }
    for (size_t i = 0; i < sizeof sets / sizeof *sets; i++) {
        if (check_set(&sets[i]) != 0) {
            return 1;
        }
    }
    CHECK(is(opc_entry_at(package, sizeof package, OPC_RELATIONSHIPS + 1, 0, 0, out, 0), 8, 2, 0, 0, 0));
    CHECK(is(opc_entry_at(package, sizeof package, UINT64_MAX, 99, 0, out, 0), 8, 2, 0, 0, 0));
    return 0;
}
