/* Every function of include/opc.h called from C, its answers checked. scripts/header-check compiles and runs it. */
#include "check.h"

#define CAPACITY 1000

static uint8_t package[OPC_BUFFER_LENGTH(CAPACITY)];

/* Texts judged. */
static int judgements(void)
{
    CHECK(opc_is_part_name(TEXT("/tiles/t3.tiff")));
    CHECK(!opc_is_part_name(TEXT("/tiles/")));
    CHECK(opc_is_reserved(TEXT("/x/_RELS/y.RELS")));
    CHECK(!opc_is_reserved(TEXT("/_rels/x.rels.xml")));
    CHECK(opc_is_media_type(TEXT("image/tiff")));
    CHECK(!opc_is_media_type(TEXT("image")));
    CHECK(opc_is_media_type(TEXT("image/tiff;page=2")));
    CHECK(!opc_is_media_type(TEXT("image/tiff; page=2")));
    CHECK(opc_is_extension(TEXT("tiff")));
    CHECK(!opc_is_extension(TEXT("a.b")));
    CHECK(opc_is_id(TEXT("r1")));
    CHECK(!opc_is_id(TEXT("1r")));
    CHECK(opc_is_iri(TEXT("../t3#left")));
    CHECK(!opc_is_iri(TEXT("1a:b")));
    CHECK(opc_is_package_iri(TEXT("http://h/p.opc")));
    CHECK(!opc_is_package_iri(TEXT("p.opc")));
    return 0;
}

/* Names compared and taken apart. */
static int names(void)
{
    CHECK(opc_is_equivalent(TEXT("/Tiles"), TEXT("/tIles")));
    CHECK(!opc_is_equivalent(TEXT("/tiles"), TEXT("/tile")));
    CHECK(opc_is_derivable(TEXT("/A/b"), TEXT("/a")));
    CHECK(!opc_is_derivable(TEXT("/a"), TEXT("/A/b")));
    CHECK(opc_compare_folded(TEXT("/a"), TEXT("/B")) == 0);
    CHECK(opc_compare_folded(TEXT("/b"), TEXT("/B")) == 1);
    CHECK(opc_compare_folded(TEXT("/b"), TEXT("/A")) == 2);
    CHECK(opc_extension_at(TEXT("/t3.tiff")) == 4);
    CHECK(is(opc_take_apart(TEXT("/t3/[12].last.piece")), OPC_ACCEPTED, 3, 3, 2, 12));
    CHECK(is(opc_take_apart(TEXT("/t3/[01].piece")), OPC_BAD_SUFFIX, 3, 0, 0, 0));
    return 0;
}

/* IRIs and the names of Relationships parts. */
static int iris(void)
{
    uint8_t out[OPC_PACK_IRI_MAX];

    CHECK(wrote(opc_resolve_reference(TEXT("http://h/p.opc"), TEXT("b.xml"), out, sizeof out), out, "http://h/b.xml"));
    CHECK(wrote(opc_resolve_target(TEXT("/a/b/c"), TEXT("../../g"), out, sizeof out), out, "/g"));
    CHECK(wrote(opc_compose_pack_iri(TEXT("http://h/p.opc"), TEXT("/t3"), out, sizeof out), out, "pack://http%3A,,h,p.opc/t3"));
    CHECK(is(opc_resolve_pack_iri(TEXT("pack://http%3A,,h,p.opc/t3"), out, sizeof out), OPC_ACCEPTED, 2, 14, 3, 0));
    CHECK(memcmp(out, "http://h/p.opc/t3", 17) == 0);
    CHECK(wrote(opc_relationships_part(TEXT("/foo/bar.xml"), out, sizeof out), out, "/foo/_rels/bar.xml.rels"));
    CHECK(wrote(opc_source_of_relationships_part(TEXT("/_RELS/.rels"), out, sizeof out), out, "/"));
    return 0;
}

/* A package, and its items: in the end two pieces. */
static int items(void)
{
    uint8_t out[100];
    opc_reply reply;

    CHECK(opc_totals(package, sizeof package).number == OPC_NOT_A_PACKAGE);
    CHECK(opc_start(package, sizeof package, CAPACITY + 1).number == OPC_BAD_START);
    CHECK(is(opc_start(package, sizeof package, CAPACITY), OPC_ACCEPTED, 1, 0, 0, 0));
    CHECK(is(opc_put_item(package, sizeof package, TEXT("/t3.tif/[1].last.piece"), TEXT("world")), 0, 1, 0, 0, 0));
    CHECK(is(opc_put_item(package, sizeof package, TEXT("/T3.tif/[0].piece"), TEXT("hello ")), 0, 1, 0, 0, 0));
    CHECK(opc_put_item(package, sizeof package, TEXT("/t3.TIF/a"), TEXT("")).number == OPC_DERIVABLE);
    CHECK(is(opc_put_item(package, sizeof package, TEXT("/t4"), TEXT("")), 0, 1, 0, 0, 0));
    CHECK(is(opc_drop_item(package, sizeof package, TEXT("/T4")), 0, 1, 0, 0, 0));
    CHECK(is(opc_drop_item(package, sizeof package, TEXT("/t4")), OPC_NOT_HELD, 1, 0, 0, 0));
    CHECK(is(opc_find_item(package, sizeof package, TEXT("/t3.tif/[0].PIECE")), 0, 1, 6, 0, 0));
    CHECK(opc_find_item(package, sizeof package, TEXT("/t3.tif")).number == OPC_NOT_HELD);

    reply = opc_view_item(package, sizeof package, TEXT("/t3.tif/[0].piece"));
    CHECK(reply.count == 2 && reply.second == 6 && memcmp(package + reply.first, "hello ", 6) == 0);

    memset(out, '.', sizeof out);
    CHECK(wrote(opc_read_part(package, sizeof package, TEXT("/t3.tif"), 2, out, sizeof out), out, "llo world"));
    CHECK(out[9] == '.');

    CHECK(is(opc_part_at(package, sizeof package, 0, out, 3), OPC_OUTPUT_TOO_SHORT, 1, 7, 0, 0));
    CHECK(wrote(opc_part_at(package, sizeof package, 0, out, sizeof out), out, "/T3.tif"));
    return 0;
}

/* The part cut and joined. */
static int cuts(void)
{
    uint8_t out[100];

    CHECK(is(opc_join_part(package, sizeof package, TEXT("/t3.tif")), 0, 1, 0, 0, 0));
    CHECK(is(opc_join_part(package, sizeof package, TEXT("/t3.tif")), OPC_WRONG_FORM, 1, 0, 0, 0));
    CHECK(is(opc_find_item(package, sizeof package, TEXT("/t3.tif")), 0, 1, 11, 0, 0));
    CHECK(is(opc_cut_part(package, sizeof package, TEXT("/t4"), 2), OPC_NOT_HELD, 2, 0, 0, 0));
    CHECK(is(opc_cut_part(package, sizeof package, TEXT("/t3.tif"), 257), OPC_BAD_PIECE_COUNT, 2, 0, 0, 0));
    CHECK(is(opc_cut_part(package, sizeof package, TEXT("/t3.tif"), 256), OPC_FULL, 2, 0, 0, 0));
    CHECK(is(opc_cut_part(package, sizeof package, TEXT("/t3.tif"), 2), 0, 2, 5, 1, 0));
    CHECK(is(opc_find_item(package, sizeof package, TEXT("/t3.tif/[0].piece")), 0, 1, 6, 0, 0));
    CHECK(wrote(opc_read_part(package, sizeof package, TEXT("/t3.tif"), 0, out, sizeof out), out, "hello world"));
    CHECK(wrote(opc_part_at(package, sizeof package, 0, out, sizeof out), out, "/T3.tif"));
    return 0;
}

/* Its media type by a Default, and what it comes from. */
static int defaults(void)
{
    uint8_t out[100];

    CHECK(opc_media_type(package, sizeof package, TEXT("/t3.tif"), out, sizeof out).number == OPC_NO_MEDIA_TYPE);
    CHECK(is(opc_type_origin(package, sizeof package, TEXT("/t3.tif"), out, 0), 0, 2, OPC_NEITHER, 0, 0));
    CHECK(is(opc_type_origin(package, sizeof package, TEXT("/t4"), out, sizeof out), OPC_NOT_HELD, 2, 0, 0, 0));
    CHECK(is(opc_type_origin(package, sizeof package, TEXT("t4"), out, sizeof out), OPC_NOT_A_PART_NAME, 2, 0, 0, 0));
    CHECK(is(opc_put_default(package, sizeof package, TEXT("TIF"), TEXT("image/tiff")), 0, 1, 0, 0, 0));
    CHECK(wrote(opc_media_type(package, sizeof package, TEXT("/t3.tif"), out, sizeof out), out, "image/tiff"));
    memset(out, '.', sizeof out);
    CHECK(is(opc_type_origin(package, sizeof package, TEXT("/t3.tif"), out, 2), OPC_OUTPUT_TOO_SHORT, 2, 3, 0, 0));
    CHECK(out[0] == '.');
    CHECK(is(opc_type_origin(package, sizeof package, TEXT("/t3.tif"), out, sizeof out), 0, 2, OPC_DEFAULT, 3, 0));
    CHECK(memcmp(out, "TIF.", 4) == 0);
    return 0;
}

/* Its media type by an Override. */
static int overrides(void)
{
    uint8_t out[300];

    CHECK(is(opc_put_override(package, sizeof package, TEXT("/T3.TIF"), TEXT("a/b;")), OPC_BAD_TYPE, 1, 0, 0, 0));
    CHECK(is(opc_put_override(package, sizeof package, TEXT("/T3.TIF"), TEXT("a/b;c=&")), 0, 1, 0, 0, 0));
    CHECK(wrote(opc_media_type(package, sizeof package, TEXT("/t3.tif"), out, sizeof out), out, "a/b;c=&"));
    CHECK(is(opc_type_origin(package, sizeof package, TEXT("/t3.tif"), out, 6), OPC_OUTPUT_TOO_SHORT, 2, 7, 0, 0));
    CHECK(is(opc_type_origin(package, sizeof package, TEXT("/t3.tif"), out, 7), 0, 2, OPC_OVERRIDE, 7, 0));
    CHECK(memcmp(out, "/T3.TIF", 7) == 0);
    CHECK(wrote(opc_write_types(package, sizeof package, out, sizeof out), out,
                "<?xml version=\"1.0\" encoding=\"UTF-8\"?>\n"
                "<Types xmlns=\"http://schemas.openxmlformats.org/package/2006/content-types\">\n"
                "<Default Extension=\"TIF\" ContentType=\"image/tiff\"/>\n"
                "<Override PartName=\"/T3.TIF\" ContentType=\"a/b;c=&amp;\"/>\n"
                "</Types>\n"));
    CHECK(is(opc_drop_override(package, sizeof package, TEXT("/t3.tif")), 0, 1, 0, 0, 0));
    return 0;
}

/* Its relationships. */
static int relationships(void)
{
    uint8_t out[300];

    CHECK(opc_put_relationship(package, sizeof package, TEXT("/"), TEXT("r1"), TEXT("a:tile"), 2, TEXT("t3.tif")).number ==
          OPC_BAD_RELATIONSHIP_FIELD);
    CHECK(is(opc_put_relationship(package, sizeof package, TEXT("/"), TEXT("r1"), TEXT("a:tile"), OPC_INTERNAL, TEXT("t3.tif")),
             0, 1, 0, 0, 0));
    CHECK(is(opc_put_relationship(package, sizeof package, TEXT("/"), TEXT("r2"), TEXT("a:case"), OPC_EXTERNAL, TEXT("c#17")),
             0, 1, 0, 0, 0));
    CHECK(is(opc_resolve_relationship(package, sizeof package, TEXT("/"), TEXT("r1"), TEXT("http://h/p.opc"), out, sizeof out),
             0, 3, 30, OPC_INTERNAL, 1));
    CHECK(memcmp(out, "pack://http%3A,,h,p.opc/t3.tif", 30) == 0);
    CHECK(is(opc_resolve_relationship(package, sizeof package, TEXT("/"), TEXT("r2"), TEXT("http://h/p.opc"), out, sizeof out),
             0, 3, 13, OPC_EXTERNAL, 0));
    CHECK(memcmp(out, "http://h/c#17", 13) == 0);
    CHECK(is(opc_drop_relationship(package, sizeof package, TEXT("/"), TEXT("r2")), 0, 1, 0, 0, 0));
    CHECK(wrote(opc_write_relationships(package, sizeof package, TEXT("/"), out, sizeof out), out,
                "<?xml version=\"1.0\" encoding=\"UTF-8\"?>\n"
                "<Relationships xmlns=\"http://schemas.openxmlformats.org/package/2006/relationships\">\n"
                "<Relationship Id=\"r1\" Type=\"a:tile\" Target=\"t3.tif\"/>\n"
                "</Relationships>\n"));
    CHECK(is(opc_drop_relationship(package, sizeof package, TEXT("/"), TEXT("r1")), 0, 1, 0, 0, 0));
    return 0;
}

/* The charge. */
static int totals(void)
{
    /* 22 + 5 and 17 + 6 for the pieces, 3 + 10 for the Default */
    CHECK(is(opc_totals(package, sizeof package), 0, 3, 2, 1, 63));
    CHECK(is(opc_drop_default(package, sizeof package, TEXT("tif")), 0, 1, 0, 0, 0));
    CHECK(is(opc_totals(package, sizeof package), 0, 3, 2, 1, 50));
    return 0;
}

int main(void)
{
    int (*const checks[])(void) = {judgements, names,         iris,          items,         cuts,         defaults, overrides,
                                   relationships, totals, check_scripts, check_entries, check_reading, check_limits};

    CHECK(sizeof(opc_reply) == OPC_REPLY_SIZE);
    for (size_t i = 0; i < sizeof checks / sizeof *checks; i++) {
        if (checks[i]() != 0) {
            return 1;
        }
    }
    puts("ok");
    return 0;
}
