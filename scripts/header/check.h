/* What the files of the C program of scripts/header-check share. */
#ifndef CHECK_H
#define CHECK_H

#include <stdio.h>
#include <string.h>

#include "opc.h"

#define TEXT(text) OPC_TEXT(text)
#define CHECK(condition)                                                       \
    do {                                                                       \
        if (!(condition)) {                                                    \
            fprintf(stderr, "%s:%d: %s\n", __FILE__, __LINE__, #condition);    \
            return 1;                                                          \
        }                                                                      \
    } while (0)

static inline int is(opc_reply reply, uint64_t number, uint64_t count, uint64_t first, uint64_t second, uint64_t third)
{
    return reply.number == number && reply.count == count && reply.first == first && reply.second == second &&
           reply.third == third;
}

/* Whether a call was made that answers no value. */
static inline int done(opc_reply reply)
{
    return is(reply, OPC_ACCEPTED, 1, 0, 0, 0);
}

/* Whether a call that answers one length wrote just this text. */
static inline int wrote(opc_reply reply, const uint8_t *out, const char *text)
{
    size_t length = strlen(text);
    return is(reply, OPC_ACCEPTED, 1, length, 0, 0) && memcmp(out, text, length) == 0;
}

/* The subjects of the other files. Each is 0 if all is right. */
int check_scripts(void);
int check_entries(void);
int check_reading(void);
int check_limits(void);

#endif
