/* A small viewer: fills a slide in a static buffer, lists what it holds and follows its link. It prints viewer.out. */
#include <inttypes.h>
#include <stdio.h>
#include <stdlib.h>
#include <string.h>

#include "opc.h"

#define CAPACITY 10000
#define BASE "http://slides.example.org/ovary-17.opc"
#define SLIDE slide, sizeof slide

static uint8_t slide[OPC_BUFFER_LENGTH(CAPACITY)];

static void tell(const char *what, opc_reply reply)
{
    printf("%s: %s (%" PRIu64 ")\n", what, opc_reason(reply.number), reply.number);
}

/* The reply of a call that nothing here refuses. */
static opc_reply must(const char *what, opc_reply reply)
{
    if (reply.number != OPC_ACCEPTED) {
        tell(what, reply);
        exit(EXIT_FAILURE);
    }
    return reply;
}

/* A tile whose last piece comes first, spelled otherwise; a count sheet, and its link to the tile. */
static void load(void)
{
    must("start", opc_start(SLIDE, CAPACITY));
    must("piece 1", opc_put_item(SLIDE, OPC_TEXT("/Left/T3.TIF/[1].LAST.piece"), OPC_TEXT("orld")));
    must("piece 0", opc_put_item(SLIDE, OPC_TEXT("/left/t3.tif/[0].piece"), OPC_TEXT("hello w")));
    must("sheet", opc_put_item(SLIDE, OPC_TEXT("/counts.xml"), OPC_TEXT("<counts/>")));
    must("Default", opc_put_default(SLIDE, OPC_TEXT("tif"), OPC_TEXT("image/tiff")));
    must("link", opc_put_relationship(SLIDE, OPC_TEXT("/counts.xml"), OPC_TEXT("tile"),
                                      OPC_TEXT("http://schemas.example.org/tile"), OPC_INTERNAL,
                                      OPC_TEXT("left/t3.tif")));
    tell("a tile named as the folder of another", opc_put_item(SLIDE, OPC_TEXT("/left"), OPC_TEXT("x")));
}

static void show_parts(void)
{
    uint8_t name[OPC_PART_NAME_MAX], type[OPC_MEDIA_TYPE_MAX], begin[20];
    opc_reply totals = must("totals", opc_totals(SLIDE));

    printf("\n%" PRIu64 " parts of %" PRIu64 " items, %" PRIu64 " of %d bytes\n", totals.second, totals.first,
           totals.third, CAPACITY);
    for (uint64_t i = 0; i < totals.second; i++) {
        size_t length = (size_t)must("part", opc_part_at(SLIDE, i, name, sizeof name)).first;
        size_t read = (size_t)must("content", opc_read_part(SLIDE, name, length, 0, begin, sizeof begin)).first;
        opc_reply typed = opc_media_type(SLIDE, name, length, type, sizeof type);

        printf("  %.*s: %.*s, ", (int)length, (char *)name, (int)read, (char *)begin);
        if (typed.number == OPC_ACCEPTED) {
            printf("%.*s\n", (int)typed.first, (char *)type);
        } else {
            printf("%s\n", opc_reason(typed.number));
        }
    }
}

/* All entries of a set, with their fields. */
static void show_set(const char *title, uint64_t set, uint64_t fields)
{
    static uint8_t field[CAPACITY];

    for (uint64_t position = 0;; position++) {
        for (uint64_t i = 0; i < fields; i++) {
            opc_reply reply = opc_entry_at(SLIDE, set, position, i, field, sizeof field);

            if (reply.number == OPC_NOT_HELD) { /* past the last one */
                return;
            }
            reply = must(title, reply);
            if (position == 0 && i == 0) {
                printf("\n%s: %" PRIu64 "\n", title, reply.second);
            }
            if (set == OPC_RELATIONSHIPS && i == OPC_RELATIONSHIP_MODE) {
                printf("  %s", field[0] == OPC_INTERNAL ? "internal" : "external");
            } else {
                printf("  %.*s", (int)reply.first, (char *)field);
            }
        }
        printf("\n");
    }
}

static void show_link(void)
{
    uint8_t iri[OPC_PACK_IRI_MAX];
    opc_reply link = must("resolve", opc_resolve_relationship(SLIDE, OPC_TEXT("/COUNTS.xml"), OPC_TEXT("tile"),
                                                              OPC_TEXT(BASE), iri, sizeof iri));
    const char *note = link.third == 1 ? "held" : "not held";

    printf("\nthe tile of the count sheet: %.*s, %s\n", (int)link.first, (char *)iri, note);
}

int main(void)
{
    load();
    show_parts();
    show_set("items", OPC_ITEMS, OPC_ITEM_FIELDS);
    show_set("Defaults", OPC_DEFAULTS, OPC_DEFAULT_FIELDS);
    show_set("Overrides", OPC_OVERRIDES, OPC_OVERRIDE_FIELDS);
    show_set("relationships", OPC_RELATIONSHIPS, OPC_RELATIONSHIP_FIELDS);
    show_link();
    return fflush(stdout) == 0 ? EXIT_SUCCESS : EXIT_FAILURE;
}
