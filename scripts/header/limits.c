/* The constants of include/opc.h and its texts for numbers: what they say is so, at the limit and one past it. */
#include "check.h"

#define CAPACITY 200000
#define CHARACTERS(text) (sizeof(text) - 1)
#define DECLARATION "<?xml version=\"1.0\" encoding=\"UTF-8\"?>\n"
#define TYPES "<Types xmlns=\"http://schemas.openxmlformats.org/package/2006/content-types\">\n</Types>\n"
#define RELATIONSHIPS                                                                                     \
    "<Relationships xmlns=\"http://schemas.openxmlformats.org/package/2006/relationships\">\n"            \
    "</Relationships>\n"
#define DEFAULT_LINE "<Default Extension=\"\" ContentType=\"\"/>\n"
#define OVERRIDE_LINE "<Override PartName=\"\" ContentType=\"\"/>\n"
#define RELATIONSHIP_LINE "<Relationship Id=\"\" Type=\"\" Target=\"\" TargetMode=\"External\"/>\n"

#define TYPES_LENGTH (OPC_TYPES_STREAM_MAX - 4 * (3 * OPC_DEFAULTS_MAX + 4 * OPC_OVERRIDES_MAX))
#define RELATIONSHIPS_LENGTH (OPC_RELATIONSHIPS_STREAM_MAX - 4 * 2 * OPC_RELATIONSHIPS_MAX)

static uint8_t package[OPC_BUFFER_LENGTH(CAPACITY)];
static uint8_t other[OPC_BUFFER_LENGTH(CAPACITY)];
static uint8_t stream[OPC_RELATIONSHIPS_STREAM_MAX];
static uint8_t longest[OPC_PACK_IRI_MAX];

/* `head` and then so many bytes more that there are `length` in all. */
static const uint8_t *filled(uint8_t *text, const char *head, char byte, size_t length)
{
    memset(text, byte, length);
    memcpy(text, head, strlen(head));
    return text;
}

/* The buffer and the capacity. */
static int buffers(void)
{
    CHECK(OPC_BUFFER_LENGTH(CAPACITY) == CAPACITY + OPC_OVERHEAD);
    CHECK(done(opc_start(package, OPC_BUFFER_LENGTH(1000), 1000)));
    CHECK(is(opc_start(package, OPC_BUFFER_LENGTH(1000) - 1, 1000), OPC_BAD_START, 1, 0, 0, 0));
    CHECK(is(opc_start(package, sizeof package, (uint64_t)OPC_CAPACITY_MAX + 1), OPC_BAD_START, 1, 0, 0, 0));
    CHECK(is(opc_totals(package, OPC_BUFFER_LENGTH(1000)), 0, 3, 0, 0, 0));
    return 0;
}

/* No bytes: as content, as text, as output. */
static int no_bytes(void)
{
    CHECK(OPC_NO_BYTES != NULL);
    CHECK(!opc_is_part_name(OPC_NO_BYTES, 0));
    CHECK(opc_is_equivalent(OPC_NO_BYTES, 0, OPC_NO_BYTES, 0));
    CHECK(done(opc_start(package, sizeof package, CAPACITY)));
    CHECK(done(opc_put_item(package, sizeof package, TEXT("/empty"), OPC_NO_BYTES, 0)));
    CHECK(is(opc_put_item(package, sizeof package, OPC_NO_BYTES, 0, TEXT("x")), OPC_NOT_A_PART_NAME, 1, 0, 0, 0));
    CHECK(is(opc_read_part(package, sizeof package, TEXT("/empty"), 0, OPC_NO_BYTES, 0), 0, 1, 0, 0, 0));
    CHECK(is(opc_part_at(package, sizeof package, 0, OPC_NO_BYTES, 0), OPC_OUTPUT_TOO_SHORT, 1, 6, 0, 0));
    CHECK(is(opc_run(package, sizeof package, OPC_NO_BYTES, 0, OPC_NO_BYTES, 0), 0, 3, 0, 0, 0));
    return 0;
}

/* Each kind of text passes at its limit, and not with one byte more. */
static int texts(void)
{
    uint8_t text[300];

    CHECK(opc_is_part_name(filled(text, "/", 'a', sizeof text), OPC_PART_NAME_MAX));
    CHECK(!opc_is_part_name(text, OPC_PART_NAME_MAX + 1));
    CHECK(opc_is_media_type(filled(text, "a/", 'a', sizeof text), OPC_MEDIA_TYPE_MAX));
    CHECK(!opc_is_media_type(text, OPC_MEDIA_TYPE_MAX + 1));
    CHECK(opc_is_extension(filled(text, "", 'a', sizeof text), OPC_EXTENSION_MAX));
    CHECK(!opc_is_extension(text, OPC_EXTENSION_MAX + 1));
    CHECK(opc_is_id(text, OPC_ID_MAX));
    CHECK(!opc_is_id(text, OPC_ID_MAX + 1));
    CHECK(opc_is_iri(text, OPC_IRI_MAX));
    CHECK(!opc_is_iri(text, OPC_IRI_MAX + 1));
    return 0;
}

/* The names of items and of Relationships parts. */
static int names(void)
{
    uint8_t name[OPC_ITEM_NAME_MAX + 1], out[OPC_ITEM_NAME_MAX];

    filled(name, "/", 'a', sizeof name);
    memcpy(name + OPC_PART_NAME_MAX, "/[9999].last.piece", 18);
    CHECK(OPC_ITEM_NAME_MAX == OPC_PART_NAME_MAX + CHARACTERS("/[9999].last.piece"));
    CHECK(done(opc_start(package, sizeof package, CAPACITY)));
    CHECK(done(opc_put_item(package, sizeof package, name, OPC_ITEM_NAME_MAX, OPC_NO_BYTES, 0)));
    CHECK(is(opc_entry_at(package, sizeof package, OPC_ITEMS, 0, OPC_ITEM_NAME, out, sizeof out), 0, 2, OPC_ITEM_NAME_MAX, 1, 0));
    CHECK(memcmp(out, name, OPC_ITEM_NAME_MAX) == 0);
    CHECK(is(opc_relationships_part(name, OPC_PART_NAME_MAX, out, sizeof out), 0, 1, OPC_RELATIONSHIPS_PART_MAX, 0, 0));
    CHECK(is(opc_source_of_relationships_part(out, OPC_RELATIONSHIPS_PART_MAX, name, sizeof name), 0, 1, OPC_PART_NAME_MAX, 0, 0));
    return 0;
}

/* A reference against a longest base; the pack IRI of a longest package IRI, 254 of whose bytes become triplets, and back. */
static int iris(void)
{
    uint8_t base[OPC_IRI_MAX], name[OPC_PART_NAME_MAX], out[OPC_RESOLVED_REFERENCE_MAX];
    size_t length = OPC_PACK_IRI_MAX - 2;

    filled(base, "a://", 'a', sizeof base);
    filled(name, "b", 'b', sizeof name);
    CHECK(is(opc_resolve_reference(base, sizeof base, name, sizeof name, out, sizeof out), 0, 1, OPC_RESOLVED_REFERENCE_MAX, 0, 0));
    filled(base, "a:", ':', sizeof base);
    filled(name, "/", 'b', sizeof name);
    CHECK(is(opc_compose_pack_iri(base, sizeof base, name, sizeof name, longest, sizeof longest), 0, 1, length, 0, 0));
    CHECK(is(opc_resolve_pack_iri(longest, length, out, OPC_RESOLVED_PACK_IRI_MAX - 1), OPC_OUTPUT_TOO_SHORT, 2,
             OPC_RESOLVED_PACK_IRI_MAX, 0, 0));
    CHECK(is(opc_resolve_pack_iri(longest, length, out, OPC_RESOLVED_PACK_IRI_MAX), 0, 2, OPC_IRI_MAX, OPC_PART_NAME_MAX, 0));
    CHECK(memcmp(out, base, sizeof base) == 0 && memcmp(out + sizeof base, name, sizeof name) == 0);
    return 0;
}

/* All sets but the items full of longest values, of `&` where these may be: both streams have the length that is reckoned,
   and another package reads as much from them. */
static int streams(void)
{
    const size_t length = sizeof package;
    uint8_t key[OPC_PART_NAME_MAX], kind[OPC_IRI_MAX], target[OPC_IRI_MAX];
    char head[8];

    CHECK(done(opc_start(package, length, CAPACITY)));
    for (int i = 0; i < OPC_DEFAULTS_MAX; i++) {
        snprintf(head, sizeof head, "%02d", i);
        CHECK(done(opc_put_default(package, length, filled(key, head, '&', OPC_EXTENSION_MAX), OPC_EXTENSION_MAX,
                                   filled(kind, "&/", '&', OPC_MEDIA_TYPE_MAX), OPC_MEDIA_TYPE_MAX)));
    }
    for (int i = 0; i < OPC_OVERRIDES_MAX; i++) {
        snprintf(head, sizeof head, "/%02d", i);
        CHECK(done(opc_put_override(package, length, filled(key, head, '&', OPC_PART_NAME_MAX), OPC_PART_NAME_MAX, kind,
                                    OPC_MEDIA_TYPE_MAX)));
    }
    for (int i = 0; i < OPC_RELATIONSHIPS_MAX; i++) {
        snprintf(head, sizeof head, "r%03d", i);
        CHECK(done(opc_put_relationship(package, length, TEXT("/"), filled(key, head, '-', OPC_ID_MAX), OPC_ID_MAX,
                                        filled(kind, "a:", '&', OPC_IRI_MAX), OPC_IRI_MAX, OPC_EXTERNAL,
                                        filled(target, "", '&', OPC_IRI_MAX), OPC_IRI_MAX)));
    }
    /* four bytes less for each byte that is no `&`: two and one of a Default, three and one of an Override, two of a type */
    CHECK(is(opc_write_types(package, length, stream, OPC_TYPES_STREAM_MAX), 0, 1, TYPES_LENGTH, 0, 0));
    CHECK(done(opc_start(other, sizeof other, CAPACITY)));
    CHECK(done(opc_read_types(other, sizeof other, stream, TYPES_LENGTH)));
    CHECK(is(opc_write_relationships(package, length, TEXT("/"), stream, OPC_RELATIONSHIPS_STREAM_MAX), 0, 1,
             RELATIONSHIPS_LENGTH, 0, 0));
    CHECK(done(opc_read_relationships(other, sizeof other, TEXT("/"), stream, RELATIONSHIPS_LENGTH)));
    CHECK(opc_totals(other, sizeof other).third == opc_totals(package, length).third);
    return 0;
}

/* What the lengths of the streams are made of. */
static int stream_texts(void)
{
    CHECK(OPC_TYPES_STREAM_MAX ==
          CHARACTERS(DECLARATION TYPES) +
              OPC_DEFAULTS_MAX * (CHARACTERS(DEFAULT_LINE) + 5 * (OPC_EXTENSION_MAX + OPC_MEDIA_TYPE_MAX)) +
              OPC_OVERRIDES_MAX * (CHARACTERS(OVERRIDE_LINE) + 5 * (OPC_PART_NAME_MAX + OPC_MEDIA_TYPE_MAX)));
    CHECK(OPC_RELATIONSHIPS_STREAM_MAX ==
          CHARACTERS(DECLARATION RELATIONSHIPS) +
              OPC_RELATIONSHIPS_MAX * (CHARACTERS(RELATIONSHIP_LINE) + OPC_ID_MAX + 5 * (OPC_IRI_MAX + OPC_IRI_MAX)));
    return 0;
}

/* A text for each number, no two alike, and one for all others. */
static int reasons(void)
{
    const char *other = opc_reason(UINT64_MAX);

    for (uint64_t i = 0; i <= OPC_TOO_DEEP; i++) {
        CHECK(strlen(opc_reason(i)) > 0 && strcmp(opc_reason(i), other) != 0);
        for (uint64_t k = 0; k < i; k++) {
            CHECK(strcmp(opc_reason(i), opc_reason(k)) != 0);
        }
    }
    CHECK(strlen(other) > 0);
    CHECK(strcmp(opc_reason(OPC_TOO_DEEP + 1), other) == 0);
    CHECK(strcmp(opc_reason((uint64_t)1 << 32), other) == 0);
    return 0;
}

static int version(void)
{
    char text[20];

    snprintf(text, sizeof text, "%d.%d.%d", OPC_VERSION_MAJOR, OPC_VERSION_MINOR, OPC_VERSION_PATCH);
    CHECK(strcmp(text, OPC_VERSION) == 0);
    return 0;
}

int check_limits(void)
{
    int (*const checks[])(void) = {buffers, no_bytes, texts, names, iris, streams, stream_texts, reasons, version};

    for (size_t i = 0; i < sizeof checks / sizeof *checks; i++) {
        if (checks[i]() != 0) {
            return 1;
        }
    }
    return 0;
}
