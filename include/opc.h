/*
 * The Zombirels package engine for C: the functions of crates/abi/out/libabi.a, which `rt lib` in crates/abi makes and
 * `scripts/install PREFIX` installs as libzombirels.a. A program that uses it is samples/viewer.c.
 *
 * LENDING. A byte string is a pointer and a length. The engine keeps no pointer past its return, allocates nothing and
 * has no state of its own: a package is the bytes that the caller lends, and nothing else. For every argument:
 * - the pointer is not NULL, not even with length 0 (OPC_NOT_NULL), and so many bytes lie behind it: where there are
 *   none, OPC_NO_BYTES points to them;
 * - `const uint8_t *` is read only, `uint8_t *` may be written as well;
 * - what may be written overlaps no other argument, and nobody else reads or writes it during the call.
 * Any bytes may be given in any argument. Names are not ended by a NUL.
 *
 * ANSWERS. A call that can be refused returns an opc_reply. A refused call leaves the package and the output as they
 * were. A call that writes leaves the output past the written bytes as it was; if the output is too short it writes
 * nothing, answers OPC_OUTPUT_TOO_SHORT and the length that is needed.
 *
 * REFUSALS. Each call names the numbers by which it can be refused, in the order in which they are tried: the first
 * that applies is answered. opc_reason has each of them as text.
 *
 * Two calls on one package must not run at once unless both only read it.
 */
#ifndef OPC_H
#define OPC_H

#include <stddef.h>
#include <stdint.h>
#ifndef __cplusplus
#include <stdbool.h>
#endif

#define OPC_VERSION_MAJOR 0
#define OPC_VERSION_MINOR 2
#define OPC_VERSION_PATCH 0
#define OPC_VERSION "0.2.0"

/* The compiler warns where an answer is dropped. */
#if (defined(__cplusplus) && __cplusplus >= 201703L) || (defined(__STDC_VERSION__) && __STDC_VERSION__ >= 202311L)
#define OPC_MUST_USE [[nodiscard]]
#elif defined(__GNUC__)
#define OPC_MUST_USE __attribute__((warn_unused_result))
#else
#define OPC_MUST_USE
#endif

/* No pointer is NULL, whatever the length beside it: the compiler warns of a NULL that it sees, and counts on there
   being no other. */
#if defined(__GNUC__)
#define OPC_NOT_NULL __attribute__((nonnull))
#else
#define OPC_NOT_NULL
#endif

#ifdef __cplusplus
extern "C" {
#endif

/* A pointer to no bytes, for an empty text, content or output: `OPC_NO_BYTES, 0`. */
#define OPC_NO_BYTES opc_no_bytes()
OPC_MUST_USE static inline uint8_t *opc_no_bytes(void)
{
    static uint8_t none[1];
    return none;
}

/* A string literal as the two arguments of a text: its bytes without the NUL, and how many these are. */
#define OPC_TEXT(literal) (const uint8_t *)(literal), sizeof(literal) - 1

/* The numbers of a reply. */
enum opc_number {
    OPC_ACCEPTED = 0,
    /* who lends memory */
    OPC_NOT_A_PACKAGE = 1,    /* the buffer is no package */
    OPC_BAD_START = 2,        /* the capacity is above 1,000,000 or the buffer too short */
    OPC_OUTPUT_TOO_SHORT = 3, /* `first` is the length needed */
    /* who names */
    OPC_NOT_A_PART_NAME = 4,
    OPC_RESERVED = 5,   /* an item, a source or a resolved target that is reserved */
    OPC_BAD_SUFFIX = 6, /* after the last slash stands a `[` that begins no piece suffix */
    /* who fills fields */
    OPC_BAD_TYPE = 7,               /* media type or extension */
    OPC_BAD_RELATIONSHIP_FIELD = 8, /* id, relationship type or mode; of opc_entry_at, the set or the field */
    OPC_BAD_TARGET = 9,             /* target, package IRI or pack IRI */
    /* earlier calls */
    OPC_TAKEN = 10,           /* the name or the key is held already */
    OPC_DERIVABLE = 11,       /* the prefix is derivable from a held one, or a held one from it */
    OPC_PIECES_DISAGREE = 12, /* a whole item beside a piece, a second last piece, a number above that of the last
                                 piece, a last piece whose number is below a held one */
    OPC_NOT_HELD = 13,        /* not held, no part yet, or no such position */
    OPC_NO_MEDIA_TYPE = 14,
    OPC_FULL = 15, /* a set is full, or the charge would pass the capacity */
    /* a line of the program `sheet`, or what a script has for a call; only opc_run writes it, among its answers */
    OPC_UNREADABLE_LINE = 16,
    /* cutting and joining */
    OPC_BAD_PIECE_COUNT = 17, /* no piece, or more than 256 */
    OPC_WRONG_FORM = 18,      /* to cut, the part is not whole; to join, it is not in pieces */
    /* streams that are read */
    OPC_MALFORMED_STREAM = 19, /* the stream is malformed, or has what is not accepted */
    OPC_TOO_DEEP = 20          /* a start tag at depth 17; what stands before it is well-formed */
};

/* What a number says, as a text that is ended by a NUL; of a number that no reply has, just that. */
OPC_MUST_USE static inline const char *opc_reason(uint64_t number)
{
    switch (number) {
    case OPC_ACCEPTED: return "accepted";
    case OPC_NOT_A_PACKAGE: return "the buffer is no package";
    case OPC_BAD_START: return "the capacity is too large or the buffer too short";
    case OPC_OUTPUT_TOO_SHORT: return "the output is too short";
    case OPC_NOT_A_PART_NAME: return "not a part name";
    case OPC_RESERVED: return "the name is reserved";
    case OPC_BAD_SUFFIX: return "not a piece suffix";
    case OPC_BAD_TYPE: return "not a media type or not an extension";
    case OPC_BAD_RELATIONSHIP_FIELD: return "not an id, relationship type, mode or field";
    case OPC_BAD_TARGET: return "not a target, package IRI or pack IRI";
    case OPC_TAKEN: return "the name or key is taken";
    case OPC_DERIVABLE: return "one name would be derivable from another";
    case OPC_PIECES_DISAGREE: return "the pieces disagree";
    case OPC_NOT_HELD: return "not held";
    case OPC_NO_MEDIA_TYPE: return "the part has no media type";
    case OPC_FULL: return "the package is full";
    case OPC_UNREADABLE_LINE: return "the line or call is unreadable";
    case OPC_BAD_PIECE_COUNT: return "not 1 to 256 pieces";
    case OPC_WRONG_FORM: return "the part is not whole or not in pieces";
    case OPC_MALFORMED_STREAM: return "the stream is malformed";
    case OPC_TOO_DEEP: return "the stream is too deep";
    default: return "no number of a reply";
    }
}

/* Of the three values the first `count` are the call's; the others are 0. On a refusal all are 0, but for the length of
   number 3. */
typedef struct opc_reply {
    uint64_t number; /* 0, or the number of the refusal */
    uint64_t count;
    uint64_t first;
    uint64_t second;
    uint64_t third;
} opc_reply;

/* The buffer of a package has its capacity and an overhead beside it. */
#define OPC_OVERHEAD 32768
#define OPC_CAPACITY_MAX 1000000
#define OPC_BUFFER_LENGTH(capacity) ((capacity) + OPC_OVERHEAD)

/* How many entries each set of a package has at most. */
#define OPC_ITEMS_MAX 256
#define OPC_DEFAULTS_MAX 64
#define OPC_OVERRIDES_MAX 64
#define OPC_RELATIONSHIPS_MAX 256

/*
 * How many bytes a text has at most, so that an output of this length suffices. It does for every package that these
 * calls have made; a foreign buffer may hold longer texts, for which OPC_OUTPUT_TOO_SHORT tells the length.
 */
#define OPC_PART_NAME_MAX 255
#define OPC_ITEM_NAME_MAX (OPC_PART_NAME_MAX + 18) /* 273: a part name, `/[9999].last.piece` */
#define OPC_MEDIA_TYPE_MAX 127
#define OPC_EXTENSION_MAX 31
#define OPC_ID_MAX 63
#define OPC_IRI_MAX 255                                             /* target, package IRI, type of a relationship */
#define OPC_RESOLVED_REFERENCE_MAX (2 * OPC_IRI_MAX + 1)            /* 511: both IRIs, and a slash */
#define OPC_PACK_IRI_MAX (7 + 3 * OPC_IRI_MAX + OPC_PART_NAME_MAX)  /* 1,027: `pack://`, triplets, a part name */
#define OPC_RESOLVED_PACK_IRI_MAX (OPC_IRI_MAX + OPC_PART_NAME_MAX) /* 510: a package IRI, a part name */
#define OPC_RELATIONSHIPS_PART_MAX (OPC_PART_NAME_MAX + 11)         /* 266: a part name, `_rels/`, `.rels` */
/* The XML streams: what stands around the lines, and the lines, with values whose every byte may be an `&` and take
   five. No id has one. 177,917 and 684,941. */
#define OPC_TYPES_STREAM_MAX                                                         \
    (125 + OPC_DEFAULTS_MAX * (39 + 5 * (OPC_EXTENSION_MAX + OPC_MEDIA_TYPE_MAX)) +  \
     OPC_OVERRIDES_MAX * (39 + 5 * (OPC_PART_NAME_MAX + OPC_MEDIA_TYPE_MAX)))
#define OPC_RELATIONSHIPS_STREAM_MAX (141 + OPC_RELATIONSHIPS_MAX * (62 + OPC_ID_MAX + 5 * 2 * OPC_IRI_MAX))

/* The modes of a relationship. */
#define OPC_INTERNAL 0
#define OPC_EXTERNAL 1

/* The sets of a package, and the fields of their entries, for opc_entry_at. */
#define OPC_ITEMS 0
#define OPC_ITEM_FIELDS 2 /* how many there are */
#define OPC_ITEM_NAME 0  /* as it was put, with the suffix of a piece */
#define OPC_ITEM_BYTES 1 /* as many as the package has room for */
#define OPC_DEFAULTS 1
#define OPC_DEFAULT_FIELDS 2
#define OPC_DEFAULT_EXTENSION 0
#define OPC_DEFAULT_TYPE 1
#define OPC_OVERRIDES 2
#define OPC_OVERRIDE_FIELDS 2
#define OPC_OVERRIDE_NAME 0
#define OPC_OVERRIDE_TYPE 1
#define OPC_RELATIONSHIPS 3
#define OPC_RELATIONSHIP_FIELDS 5
#define OPC_RELATIONSHIP_SOURCE 0
#define OPC_RELATIONSHIP_ID 1
#define OPC_RELATIONSHIP_TYPE 2
#define OPC_RELATIONSHIP_MODE 3 /* one byte, OPC_INTERNAL or OPC_EXTERNAL */
#define OPC_RELATIONSHIP_TARGET 4

/* What a part's media type comes from. */
#define OPC_NEITHER 0
#define OPC_DEFAULT 1
#define OPC_OVERRIDE 2

/*
 * JUDGEMENTS on any bytes. None is refused. An empty text is OPC_NO_BYTES, 0, and never NULL.
 */
OPC_MUST_USE bool opc_is_part_name(const uint8_t *name, size_t name_length) OPC_NOT_NULL;
OPC_MUST_USE bool opc_is_reserved(const uint8_t *name, size_t name_length) OPC_NOT_NULL; /* of a part name */
/* A media type, 3 to 127 bytes: token/token, then any number of parameters, each `;`, a token, `=`, a token, without
   spaces, as in `image/tiff;page=2`. */
OPC_MUST_USE bool opc_is_media_type(const uint8_t *text, size_t text_length) OPC_NOT_NULL;
OPC_MUST_USE bool opc_is_extension(const uint8_t *text, size_t text_length) OPC_NOT_NULL;
OPC_MUST_USE bool opc_is_id(const uint8_t *text, size_t text_length) OPC_NOT_NULL;
OPC_MUST_USE bool opc_is_iri(const uint8_t *text, size_t text_length) OPC_NOT_NULL;
OPC_MUST_USE bool opc_is_package_iri(const uint8_t *text, size_t text_length) OPC_NOT_NULL;

/* Names without regard to the case of ASCII letters: whether they are one name, whether a grows out of b by further
   segments. */
OPC_MUST_USE bool opc_is_equivalent(const uint8_t *a, size_t a_length, const uint8_t *b, size_t b_length) OPC_NOT_NULL;
OPC_MUST_USE bool opc_is_derivable(const uint8_t *a, size_t a_length, const uint8_t *b, size_t b_length) OPC_NOT_NULL;

/* Folded order: 0 if a comes before b, 1 if they are equivalent, 2 if a comes after b. */
OPC_MUST_USE uint8_t opc_compare_folded(const uint8_t *a, size_t a_length,
                                        const uint8_t *b, size_t b_length) OPC_NOT_NULL;

/* Where a part name's extension begins, 0 if it has none. */
OPC_MUST_USE size_t opc_extension_at(const uint8_t *name, size_t name_length) OPC_NOT_NULL;

/* An item name taken apart: the prefix's length; 0 for a whole item, 1 for a piece, 2 for the last piece; the piece's
   number.
   Refusals: 6, 4. */
OPC_MUST_USE opc_reply opc_take_apart(const uint8_t *name, size_t name_length) OPC_NOT_NULL;

/*
 * IRIS. Each writes one text to `out` and answers its length. An output of length 0 is OPC_NO_BYTES, 0, and never NULL;
 * so is an empty text.
 */

/* A reference against a package IRI, RFC 3986 5.2. OPC_RESOLVED_REFERENCE_MAX bytes suffice.
   Refusals: 9 for either IRI; 3. */
OPC_MUST_USE opc_reply opc_resolve_reference(const uint8_t *base, size_t base_length,
                                             const uint8_t *reference, size_t reference_length,
                                             uint8_t *out, size_t out_length) OPC_NOT_NULL;

/* The part name that an internal target leads to from a source, `/` or a part name. OPC_PART_NAME_MAX bytes suffice.
   Refusals: 4, 5 for the source; 9 for the target, 5 if it leads to a reserved name; 3. */
OPC_MUST_USE opc_reply opc_resolve_target(const uint8_t *source, size_t source_length,
                                          const uint8_t *target, size_t target_length,
                                          uint8_t *out, size_t out_length) OPC_NOT_NULL;

/* The pack IRI of a part, or of the package if the name is `/`. OPC_PACK_IRI_MAX bytes suffice.
   Refusals: 9 for the package IRI `base`; 4 for the name; 3. */
OPC_MUST_USE opc_reply opc_compose_pack_iri(const uint8_t *base, size_t base_length,
                                            const uint8_t *name, size_t name_length,
                                            uint8_t *out, size_t out_length) OPC_NOT_NULL;

/* The package IRI of a pack IRI, directly followed by the part name, if there is one: both lengths.
   OPC_RESOLVED_PACK_IRI_MAX bytes suffice.
   Refusals: 9; 3, with the sum of both lengths. */
OPC_MUST_USE opc_reply opc_resolve_pack_iri(const uint8_t *iri, size_t iri_length,
                                            uint8_t *out, size_t out_length) OPC_NOT_NULL;

/* The name of a source's Relationships part. OPC_RELATIONSHIPS_PART_MAX bytes suffice.
   Refusals: 4, 5 for the source; 3. */
OPC_MUST_USE opc_reply opc_relationships_part(const uint8_t *source, size_t source_length,
                                              uint8_t *out, size_t out_length) OPC_NOT_NULL;

/* Back: the source that has this Relationships part. OPC_PART_NAME_MAX bytes suffice.
   Refusals: 4 if no source has; 3. */
OPC_MUST_USE opc_reply opc_source_of_relationships_part(const uint8_t *name, size_t name_length,
                                                        uint8_t *out, size_t out_length) OPC_NOT_NULL;

/*
 * PACKAGES. `package` is the whole lent buffer, at least OPC_BUFFER_LENGTH(capacity) bytes, in every call; its bytes
 * may be stored, mapped or moved between calls. They are laid out in the engine's own way, not as a ZIP archive. Every
 * call but opc_start, opc_view_item and opc_run is refused by 1 before all else if the buffer is no package; the lists
 * of refusals leave that out. An empty content, text or output is OPC_NO_BYTES, 0, and never NULL.
 */

/* Makes an empty package of the buffer, whatever it held. The capacity is the most that the charge may be: the bytes of
   all fields of all entries, names with their suffixes. No call tells the capacity afterwards.
   Refusals: 2. */
OPC_MUST_USE opc_reply opc_start(uint8_t *package, size_t package_length, uint64_t capacity) OPC_NOT_NULL;

/* Holds a whole item (`/t3`) or a piece (`/t3/[0].piece`), perhaps empty; drops it.
   Refusals: 6, 4, 5 for the name; to put 10, 12, 11, 15; to drop 13. */
OPC_MUST_USE opc_reply opc_put_item(uint8_t *package, size_t package_length, const uint8_t *name, size_t name_length,
                                    const uint8_t *bytes, size_t bytes_length) OPC_NOT_NULL;
OPC_MUST_USE opc_reply opc_drop_item(uint8_t *package, size_t package_length,
                                     const uint8_t *name, size_t name_length) OPC_NOT_NULL;

/* The length of an item.
   Refusals: 6, 4 for the name; 13. */
OPC_MUST_USE opc_reply opc_find_item(const uint8_t *package, size_t package_length,
                                     const uint8_t *name, size_t name_length) OPC_NOT_NULL;

/* Where an item's bytes begin in the package, and their number. The place is valid until the next call that may change
   the package: a put, a cut or a join may move the bytes of every item. It is never refused: of an item that is not
   held there are 0 bytes. */
OPC_MUST_USE opc_reply opc_view_item(const uint8_t *package, size_t package_length,
                                     const uint8_t *name, size_t name_length) OPC_NOT_NULL;

/* Copies a part's content from `offset` on, as much as `out` takes: how many bytes these are.
   Refusals: 4; 13 if no items make that part, or not yet. An output of any length will do. */
OPC_MUST_USE opc_reply opc_read_part(const uint8_t *package, size_t package_length,
                                     const uint8_t *name, size_t name_length, uint64_t offset,
                                     uint8_t *out, size_t out_length) OPC_NOT_NULL;

/* Copies the name of the part at a position, from 0, in folded order: its length. OPC_PART_NAME_MAX bytes suffice.
   Refusals: 13; 3. */
OPC_MUST_USE opc_reply opc_part_at(const uint8_t *package, size_t package_length, uint64_t position,
                                   uint8_t *out, size_t out_length) OPC_NOT_NULL;

/* Copies a field of the entry at a position, from 0, of a set: its length, and how many entries the set has. Items
   stand by their folded prefixes, a whole one or its pieces by number; Defaults by their folded extensions, Overrides
   by their folded names; relationships by their folded sources, then by the bytes of their ids. The most bytes that a
   text of the field's kind has suffice (OPC_ITEM_NAME_MAX, OPC_IRI_MAX, ..); an item's bytes are within the capacity.
   It is no call of document 01, by whose rule all others go, and none of a script.
   Refusals: 8 if there is no such set, or its entries have no such field; 13 past the last entry, so at position 0 of
   an empty set; 3. */
OPC_MUST_USE opc_reply opc_entry_at(const uint8_t *package, size_t package_length,
                                    uint64_t set, uint64_t position, uint64_t field,
                                    uint8_t *out, size_t out_length) OPC_NOT_NULL;

/* Cuts a whole part into so many pieces, 1 to 256, numbered from 0, the final one marked last: q and r. The first r
   pieces have q + 1 bytes, the others q; all have the part's spelling. What is read of the part, its media type and its
   position stay as they are.
   Refusals: 4; 13 if no items make that part, or not yet; 18 if it is in pieces; 17; 15 by what would be held after. */
OPC_MUST_USE opc_reply opc_cut_part(uint8_t *package, size_t package_length,
                                    const uint8_t *name, size_t name_length, uint64_t pieces) OPC_NOT_NULL;

/* Joins the pieces of a part: one whole item is held instead, in the spelling of piece 0. It needs no room.
   Refusals: 4; 13 if no items make that part, or not yet; 18 if it is whole. */
OPC_MUST_USE opc_reply opc_join_part(uint8_t *package, size_t package_length,
                                     const uint8_t *name, size_t name_length) OPC_NOT_NULL;

/* How many items are held, how many parts they make, and the charge.
   Refusals: no others. */
OPC_MUST_USE opc_reply opc_totals(const uint8_t *package, size_t package_length) OPC_NOT_NULL;

/* The media type of an extension. It may have parameters and is kept as given.
   Refusals: 7 for either field; to put 10, 15; to drop 13. */
OPC_MUST_USE opc_reply opc_put_default(uint8_t *package, size_t package_length,
                                       const uint8_t *extension, size_t extension_length,
                                       const uint8_t *media_type, size_t media_type_length) OPC_NOT_NULL;
OPC_MUST_USE opc_reply opc_drop_default(uint8_t *package, size_t package_length,
                                        const uint8_t *extension, size_t extension_length) OPC_NOT_NULL;

/* The media type of one part name, which goes before that of its extension.
   Refusals: 4 for the name; to put 7, 10, 15; to drop 13. */
OPC_MUST_USE opc_reply opc_put_override(uint8_t *package, size_t package_length,
                                        const uint8_t *name, size_t name_length,
                                        const uint8_t *media_type, size_t media_type_length) OPC_NOT_NULL;
OPC_MUST_USE opc_reply opc_drop_override(uint8_t *package, size_t package_length,
                                         const uint8_t *name, size_t name_length) OPC_NOT_NULL;

/* Copies the media type of a part: its length. OPC_MEDIA_TYPE_MAX bytes suffice.
   Refusals: 4; 13 if no items make that part, or not yet; 14; 3. */
OPC_MUST_USE opc_reply opc_media_type(const uint8_t *package, size_t package_length,
                                      const uint8_t *name, size_t name_length,
                                      uint8_t *out, size_t out_length) OPC_NOT_NULL;

/* Tells which entry a part's media type comes from, and copies its key as it was put: OPC_OVERRIDE and the length of
   the Override's name, else OPC_DEFAULT and that of the Default's extension. Where opc_media_type is refused by 14, it
   answers OPC_NEITHER and 0 and writes nothing, whatever the output's length. OPC_PART_NAME_MAX bytes suffice.
   Refusals: 4; 13 if no items make that part, or not yet; 3 by the key's length, which is the first value. */
OPC_MUST_USE opc_reply opc_type_origin(const uint8_t *package, size_t package_length,
                                       const uint8_t *name, size_t name_length,
                                       uint8_t *out, size_t out_length) OPC_NOT_NULL;

/* A relationship from a source, `/` or a part name; `kind` is its type. A mode other than OPC_INTERNAL and OPC_EXTERNAL
   is refused.
   Refusals: 4, 5 for the source; 8 for the id; to put 8 for the type or the mode, 9 for the target, 5 if it leads to a
   reserved name, 10, 15; to drop 13. */
OPC_MUST_USE opc_reply opc_put_relationship(uint8_t *package, size_t package_length,
                                            const uint8_t *source, size_t source_length,
                                            const uint8_t *id, size_t id_length,
                                            const uint8_t *kind, size_t kind_length, uint64_t mode,
                                            const uint8_t *target, size_t target_length) OPC_NOT_NULL;
OPC_MUST_USE opc_reply opc_drop_relationship(uint8_t *package, size_t package_length,
                                             const uint8_t *source, size_t source_length,
                                             const uint8_t *id, size_t id_length) OPC_NOT_NULL;

/*
 * LINKS AND STREAMS. An output of length 0 is OPC_NO_BYTES, 0, and never NULL.
 */

/* Writes the IRI that a relationship leads to from the package IRI `base`: its length, its mode, and 1 if the part is
   held, else 0, as for pieces that are no part yet. OPC_PACK_IRI_MAX bytes suffice.
   Refusals: 4, 5 for the source; 8 for the id; 9 for `base`; 13; 3. */
OPC_MUST_USE opc_reply opc_resolve_relationship(const uint8_t *package, size_t package_length,
                                                const uint8_t *source, size_t source_length,
                                                const uint8_t *id, size_t id_length,
                                                const uint8_t *base, size_t base_length,
                                                uint8_t *out, size_t out_length) OPC_NOT_NULL;

/* Writes the Defaults and Overrides as XML: its length. OPC_TYPES_STREAM_MAX bytes suffice.
   Refusals: 13 in a foreign buffer alone, whose entries have more bytes than it says are in use; 3. */
OPC_MUST_USE opc_reply opc_write_types(const uint8_t *package, size_t package_length,
                                       uint8_t *out, size_t out_length) OPC_NOT_NULL;

/* Writes the relationships of a source as XML: its length. OPC_RELATIONSHIPS_STREAM_MAX bytes suffice.
   Refusals: 4, 5 for the source; 13 as for opc_write_types; 3. */
OPC_MUST_USE opc_reply opc_write_relationships(const uint8_t *package, size_t package_length,
                                               const uint8_t *source, size_t source_length,
                                               uint8_t *out, size_t out_length) OPC_NOT_NULL;

/*
 * READING STREAMS. What the two calls above wrote is read back, and streams of others that are written in this part of
 * XML 1.0:
 * - the declaration of those streams, byte for byte at the very start, or none; one root with their namespace, which is
 *   declared as default;
 * - entries as empty tags or tag pairs, their attributes in any order and with either quote mark, TargetMode perhaps
 *   missing for an internal target; in values the entities &lt; &gt; &amp; &quot; &apos;
 * - blanks in and around tags, comments around them;
 * - elements with prefixed names, which are passed over with all that they hold, text too, if their tags match;
 *   `xmlns:` declarations and other prefixed attributes, which are passed over likewise. The root is at depth 1, and no
 *   element is deeper than 16.
 * Names are ASCII letters, digits, `_`, `.` and `-`, and a colon behind a prefix. Everything else is malformed, such as
 * another declaration, a byte order mark, CDATA, character references, an unknown attribute or one that is repeated.
 *
 * All entries of a stream are put, or none: in the stream's order, each by the rule of its own put, with those before
 * it held already. The first that is refused gives the number. A call takes up to 64 KiB of the stack.
 */

/* Puts the Defaults and Overrides of a types stream.
   Refusals: 20 or 19, whichever the stream comes to first; of an entry 4 for the name of an Override, 7, 10, 15. */
OPC_MUST_USE opc_reply opc_read_types(uint8_t *package, size_t package_length,
                                      const uint8_t *stream, size_t stream_length) OPC_NOT_NULL;

/* Puts the relationships of a Relationships part, with the source as it is spelled here.
   Refusals: 4, 5 for the source; 20 or 19, whichever the stream comes to first; of an entry 8 for the id, the type or
   the mode, 9 for the target, 5 if it leads to a reserved name, 10, 15. */
OPC_MUST_USE opc_reply opc_read_relationships(uint8_t *package, size_t package_length,
                                              const uint8_t *source, size_t source_length,
                                              const uint8_t *stream, size_t stream_length) OPC_NOT_NULL;

/*
 * SCRIPTS: many calls in one. A script is calls in bytes, one behind the other. Each is a head of OPC_HEAD_SIZE bytes
 * and then its four texts a, b, c and d, one behind the other. The head is eight numbers of four bytes, the low byte
 * first:
 *   0 the code      4 how many bytes of output the call is lent
 *   8 length of a   12 length of b   16 length of c   20 length of d
 *   24 the low half of the number n   28 its high half
 * What a call does not take is passed over: texts, n, and the bytes lent to a call that writes nothing, which stay as
 * they were.
 *
 * The answer to each call takes the next OPC_REPLY_SIZE + (bytes lent) bytes of the output: its reply as it lies in
 * memory (five numbers of eight bytes, the low byte first), then the bytes that it was lent, as it left them. All are
 * answered as by their own functions, but OPC_CALL_VIEW_ITEM: its one value is the item's length, and as many of the
 * item's bytes as the lent ones take are copied there.
 *
 * For example, to put an item and read its first bytes: the number 2, a 0, the lengths of the name and of the bytes,
 * four 0, the name, the bytes; then the number 13, a 64, the length of the name, five 0, the name again. An output of
 * 40 + 104 bytes takes the answers: at 0 the reply to the put; at 40 the reply to the read, whose first value is how
 * many of the bytes from 80 on were read.
 */
#define OPC_HEAD_SIZE 32
#define OPC_REPLY_SIZE 40

/* The codes, each with what the call takes. */
enum opc_code {
    OPC_CALL_START = 1,             /* n capacity */
    OPC_CALL_PUT_ITEM = 2,          /* a name, b bytes */
    OPC_CALL_DROP_ITEM = 3,         /* a name */
    OPC_CALL_PUT_DEFAULT = 4,       /* a extension, b media type */
    OPC_CALL_DROP_DEFAULT = 5,      /* a extension */
    OPC_CALL_PUT_OVERRIDE = 6,      /* a name, b media type */
    OPC_CALL_DROP_OVERRIDE = 7,     /* a name */
    OPC_CALL_PUT_RELATIONSHIP = 8,  /* a source, b id, c type, n mode, d target */
    OPC_CALL_DROP_RELATIONSHIP = 9, /* a source, b id */
    OPC_CALL_FIND_ITEM = 10,        /* a name */
    OPC_CALL_VIEW_ITEM = 11,        /* a name; writes */
    OPC_CALL_TOTALS = 12,
    OPC_CALL_READ_PART = 13,            /* a name, n offset; writes */
    OPC_CALL_MEDIA_TYPE = 14,           /* a name; writes */
    OPC_CALL_PART_AT = 15,              /* n position; writes */
    OPC_CALL_RESOLVE_RELATIONSHIP = 16, /* a source, b id, c package IRI; writes */
    OPC_CALL_WRITE_TYPES = 17,          /* writes */
    OPC_CALL_WRITE_RELATIONSHIPS = 18,  /* a source; writes */
    OPC_CALL_CUT_PART = 19,             /* a name, n how many pieces */
    OPC_CALL_JOIN_PART = 20,            /* a name */
    OPC_CALL_TYPE_ORIGIN = 21,          /* a name; writes */
    OPC_CALL_READ_TYPES = 22,           /* a stream */
    OPC_CALL_READ_RELATIONSHIPS = 23    /* a source, b stream */
};

/* Makes the calls of a script, each on the package as the one before left it: how many bytes of `out` were written, how
   many bytes of the script the calls made have, and how many these are. The bytes of `out` past the written ones stay
   as they were. It is never refused; a refused call changes nothing but its own answer, and the run goes on behind it.
   An empty script or output is OPC_NO_BYTES, 0, and never NULL. The run ends
   - at the end of the script: its calls then have all of its bytes;
   - before a call for whose answer `out` has no room;
   - at what is no call, which has no code of these or is cut short: if `out` has room for it, a reply with number 16 is
     written. */
OPC_MUST_USE opc_reply opc_run(uint8_t *package, size_t package_length, const uint8_t *script, size_t script_length,
                               uint8_t *out, size_t out_length) OPC_NOT_NULL;

#ifdef __cplusplus
}
#endif

#endif
