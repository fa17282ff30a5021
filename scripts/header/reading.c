/* opc_read_types and opc_read_relationships, called from C: entries of a stream, what was written read back, refusals. */
#include "check.h"

#define CAPACITY 1000
#define TYPES(content) "<Types xmlns='http://schemas.openxmlformats.org/package/2006/content-types'>" content "</Types>"
#define RELATIONSHIPS(content)                                                                           \
    "<Relationships xmlns='http://schemas.openxmlformats.org/package/2006/relationships'>" content       \
    "</Relationships>"
#define DEFAULT "<!-- tiles --> <Default ContentType='image/tiff' Extension='TIF'></Default>"
#define OVERRIDE "<Override PartName=\"/R&amp;D\" ContentType = \"a/b;c=&apos;\" />"
#define LINKS                                                                                            \
    "<Relationship Id='r1' Type='a:tile' Target='t3'/><x:y>z</x:y>"                                      \
    "<Relationship TargetMode='External' Id='r2' Type='a:' Target='b:'/>"
#define FOUR_DEEPER "<x:a><x:a><x:a><x:a>"

static uint8_t package[OPC_BUFFER_LENGTH(CAPACITY)];
static uint8_t other[OPC_BUFFER_LENGTH(CAPACITY)];

/* Entries of two streams, in the forms of others. */
static int entries(void)
{
    uint8_t out[100];

    CHECK(done(opc_start(package, sizeof package, CAPACITY)));
    CHECK(done(opc_read_types(package, sizeof package, TEXT(TYPES(DEFAULT OVERRIDE)))));
    CHECK(is(opc_entry_at(package, sizeof package, OPC_DEFAULTS, 0, OPC_DEFAULT_EXTENSION, out, sizeof out), 0, 2, 3, 1, 0));
    CHECK(memcmp(out, "TIF", 3) == 0);
    CHECK(is(opc_entry_at(package, sizeof package, OPC_OVERRIDES, 0, OPC_OVERRIDE_NAME, out, sizeof out), 0, 2, 4, 1, 0));
    CHECK(memcmp(out, "/R&D", 4) == 0);
    CHECK(done(opc_read_relationships(package, sizeof package, TEXT("/a"), TEXT(RELATIONSHIPS(LINKS)))));
    CHECK(is(opc_resolve_relationship(package, sizeof package, TEXT("/A"), TEXT("r2"), TEXT("c:"), out, sizeof out), 0, 3, 2,
             OPC_EXTERNAL, 0));
    CHECK(is(opc_totals(package, sizeof package), 0, 3, 0, 0, 13 + 11 + 12 + 8));
    return 0;
}

/* What was written is read back, and written again. */
static int there_and_back(void)
{
    uint8_t types[500], links[500], again[500];
    size_t length;

    length = opc_write_types(package, sizeof package, types, sizeof types).first;
    CHECK(done(opc_start(other, sizeof other, CAPACITY)));
    CHECK(done(opc_read_types(other, sizeof other, types, length)));
    CHECK(opc_write_types(other, sizeof other, again, sizeof again).first == length && memcmp(types, again, length) == 0);
    length = opc_write_relationships(package, sizeof package, TEXT("/a"), links, sizeof links).first;
    CHECK(done(opc_read_relationships(other, sizeof other, TEXT("/A"), links, length)));
    CHECK(opc_write_relationships(other, sizeof other, TEXT("/a"), again, sizeof again).first == length);
    CHECK(memcmp(links, again, length) == 0);
    return 0;
}

static int refused(opc_reply reply, uint64_t number)
{
    return is(reply, number, 1, 0, 0, 0);
}

/* Every refusal leaves the package as it was. */
static int refusals(void)
{
    const size_t length = sizeof other;
    const char *deep = TYPES(FOUR_DEEPER FOUR_DEEPER FOUR_DEEPER FOUR_DEEPER);

    memcpy(package, other, length);
    CHECK(refused(opc_read_types(other, length, OPC_NO_BYTES, 0), OPC_MALFORMED_STREAM));
    CHECK(refused(opc_read_types(other, length, TEXT(TYPES("<Default/>"))), OPC_MALFORMED_STREAM));
    CHECK(refused(opc_read_types(other, length, (const uint8_t *)deep, strlen(deep)), OPC_TOO_DEEP));
    CHECK(refused(opc_read_types(other, length, TEXT(TYPES(DEFAULT))), OPC_TAKEN));
    CHECK(refused(opc_read_types(other, length, TEXT(TYPES("<Default Extension='.x' ContentType='a/b'/>"))), OPC_BAD_TYPE));
    CHECK(refused(opc_read_relationships(other, length, TEXT("a"), OPC_NO_BYTES, 0), OPC_NOT_A_PART_NAME));
    CHECK(refused(opc_read_relationships(other, length, TEXT("/_rels/.rels"), OPC_NO_BYTES, 0), OPC_RESERVED));
    CHECK(refused(opc_read_relationships(other, length, TEXT("/"), OPC_NO_BYTES, 0), OPC_MALFORMED_STREAM));
    CHECK(refused(opc_read_relationships(other, length, TEXT("/a"), TEXT(RELATIONSHIPS(LINKS))), OPC_TAKEN));
    CHECK(memcmp(package, other, length) == 0);
    memset(other, 0, length);
    CHECK(refused(opc_read_types(other, length, OPC_NO_BYTES, 0), OPC_NOT_A_PACKAGE));
    CHECK(refused(opc_read_relationships(other, length, TEXT("a"), OPC_NO_BYTES, 0), OPC_NOT_A_PACKAGE));
    return 0;
}

int check_reading(void)
{
    return entries() != 0 || there_and_back() != 0 || refusals() != 0;
}
