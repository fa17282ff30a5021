/* Scripts, called from C. */
#include "check.h"

#define TYPES "<Types xmlns='http://schemas.openxmlformats.org/package/2006/content-types'/>"

static uint8_t package[OPC_BUFFER_LENGTH(1000)];
static uint8_t script[1000];

/* Writes a number of four bytes behind the script's `length` bytes. */
static size_t put4(size_t length, uint32_t number)
{
    for (int i = 0; i < 4; i++) {
        script[length + i] = (uint8_t)(number >> 8 * i);
    }
    return length + 4;
}

/* Writes a call with up to two texts behind the script's `length` bytes: the new length. */
static size_t put_call(size_t length, enum opc_code code, uint32_t lent, const char *a, const char *b, uint64_t n)
{
    size_t a_length = strlen(a), b_length = strlen(b);
    const uint32_t head[] = {code, lent, (uint32_t)a_length, (uint32_t)b_length, 0, 0, (uint32_t)n, (uint32_t)(n >> 32)};
    for (size_t i = 0; i < 8; i++) {
        length = put4(length, head[i]);
    }
    memcpy(script + length, a, a_length);
    memcpy(script + length + a_length, b, b_length);
    return length + a_length + b_length;
}

/* The reply that lies at a place of a run's output. */
static opc_reply reply_at(const uint8_t *place)
{
    uint64_t numbers[5] = {0};
    for (int i = 0; i < OPC_REPLY_SIZE; i++) {
        numbers[i / 8] |= (uint64_t)place[i] << 8 * (i % 8);
    }
    return (opc_reply){numbers[0], numbers[1], numbers[2], numbers[3], numbers[4]};
}

/* A package with two pieces. */
int check_scripts(void)
{
    uint8_t out[600];
    size_t length = 0, first;

    CHECK(done(opc_start(package, sizeof package, 1000)));
    CHECK(done(opc_put_item(package, sizeof package, TEXT("/t3.tif/[1].last.piece"), TEXT("world"))));
    CHECK(done(opc_put_item(package, sizeof package, TEXT("/T3.tif/[0].piece"), TEXT("hello "))));

    CHECK(is(opc_run(package, sizeof package, script, 0, out, sizeof out), 0, 3, 0, 0, 0));

    length = put_call(length, OPC_CALL_PUT_ITEM, 0, "/t5", "tile", 0);
    first = length;
    length = put_call(length, OPC_CALL_PUT_ITEM, 2, "/T5", "", 0);
    length = put_call(length, OPC_CALL_READ_PART, 8, "/T5", "", 1);
    length = put_call(length, OPC_CALL_VIEW_ITEM, 3, "/t5", "", 0);
    length = put_call(length, OPC_CALL_CUT_PART, 0, "/t5", "", 3);
    length = put_call(length, OPC_CALL_JOIN_PART, 1, "/t5", "", 0);
    length = put_call(length, OPC_CALL_PUT_OVERRIDE, 0, "/T5", "a/b", 0);
    length = put_call(length, OPC_CALL_TYPE_ORIGIN, 5, "/t5", "", 0);
    length = put_call(length, OPC_CALL_DROP_OVERRIDE, 0, "/t5", "", 0);
    length = put_call(length, OPC_CALL_DROP_ITEM, 0, "/t5", "", 0);
    length = put_call(length, OPC_CALL_TOTALS, 0, "", "", 0);
    length = put_call(length, OPC_CALL_READ_TYPES, 0, TYPES, "", 0);
    length = put_call(length, OPC_CALL_READ_RELATIONSHIPS, 0, "/", "<Relationships/>", 0);
    CHECK(first == OPC_HEAD_SIZE + 7);

    memset(out, '.', sizeof out);
    CHECK(is(opc_run(package, sizeof package, script, length, out, sizeof out), 0, 3, 539, length, 13));
    CHECK(is(reply_at(out), 0, 1, 0, 0, 0));
    CHECK(is(reply_at(out + 40), OPC_TAKEN, 1, 0, 0, 0) && memcmp(out + 80, "..", 2) == 0);
    CHECK(is(reply_at(out + 82), 0, 1, 3, 0, 0) && memcmp(out + 122, "ile.....", 8) == 0);
    CHECK(is(reply_at(out + 130), 0, 1, 4, 0, 0) && memcmp(out + 170, "til", 3) == 0);
    CHECK(is(reply_at(out + 173), 0, 2, 1, 1, 0));
    CHECK(is(reply_at(out + 213), 0, 1, 0, 0, 0) && out[253] == '.');
    CHECK(is(reply_at(out + 254), 0, 1, 0, 0, 0));
    CHECK(is(reply_at(out + 294), 0, 2, OPC_OVERRIDE, 3, 0) && memcmp(out + 334, "/T5..", 5) == 0);
    CHECK(is(reply_at(out + 339), 0, 1, 0, 0, 0));
    CHECK(is(reply_at(out + 379), 0, 1, 0, 0, 0));
    CHECK(is(reply_at(out + 419), 0, 3, 2, 1, 50));
    CHECK(is(reply_at(out + 459), 0, 1, 0, 0, 0));
    CHECK(is(reply_at(out + 499), OPC_MALFORMED_STREAM, 1, 0, 0, 0));
    CHECK(out[539] == '.' && out[599] == '.');

    /* no room for the second answer; then what is no call in its place */
    CHECK(is(opc_run(package, sizeof package, script, length, out, 81), 0, 3, 40, first, 1));
    CHECK(is(opc_drop_item(package, sizeof package, TEXT("/t5")), 0, 1, 0, 0, 0));
    put4(first, OPC_CALL_READ_RELATIONSHIPS + 1);
    CHECK(is(opc_run(package, sizeof package, script, length, out, sizeof out), 0, 3, 80, first, 1));
    CHECK(is(reply_at(out + 40), OPC_UNREADABLE_LINE, 1, 0, 0, 0));
    return 0;
}

