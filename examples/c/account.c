#include "account.h"

#include <inttypes.h>
#include <stdarg.h>
#include <stdio.h>
#include <stdlib.h>

void begin(const struct post *p, const char *what, ...)
{
    va_list values;
    printf("%-9s  ", p->name);
    va_start(values, what);
    vprintf(what, values);
    va_end(values);
    printf(": ");
}

void tag(const uint8_t *bytes)
{
    int i;
    for (i = 0; i < GOOSETABLE_PREFIX_SIZE; i++)
        printf("%02x", bytes[i]);
}

static void said(goosetable_answer a)
{
    if (a.said != GOOSETABLE_DONE && a.said < GOOSETABLE_MALFORMED)
        printf("refused %d, ", a.said);
    printf("%s", goosetable_said_name(a.said));
    if (a.said == GOOSETABLE_OURS)
        printf(", contact %" PRIu64 ", generation %d, index %" PRIu32, a.contact, a.generation, a.idx);
}

static void reply(const uint8_t *replies, size_t i)
{
    static const char *const kinds[] = {"fetch", "envelope", "custody", "tomb"};
    static const char *const codes[] = {"accepted", "full", "duplicate", "off", "invalid"};
    uint8_t kind = goosetable_reply_kind(replies, i);
    const uint8_t *body = goosetable_reply_body(replies, i);
    printf("; %s ", kinds[kind]);
    tag(goosetable_body_tag(body));
    if (kind == GOOSETABLE_REPLY_ENVELOPE)
        printf(" of cell %d, copies %d, expiry %" PRIu32,
               goosetable_reply_cell(replies, i), goosetable_body_copies(body), goosetable_body_expiry(body));
    if (kind == GOOSETABLE_REPLY_CUSTODY)
        printf(" %s", codes[goosetable_body_code(body)]);
}

/* What the host stores for a put: the row's blob. */
static void stored(const struct post *p, uint64_t slot)
{
    static const char *const kinds[] = {"no row", "carried", "tombstone"};
    uint8_t *blob = area(GOOSETABLE_BLOB_SIZE);
    goosetable_answer a = goosetable_post_row_blob(&p->areas, slot, blob);
    goosetable_row row = goosetable_row_read(blob, a.length);
    printf("%s of %zu bytes", kinds[row.kind], a.length);
    if (row.kind == GOOSETABLE_KIND_CARRIED)
        printf(", copies %d", row.copies);
    free(blob);
}

static void action(const struct post *p, size_t i)
{
    uint64_t number = goosetable_action_number(p->areas.actions, i);
    switch (goosetable_action_kind(p->areas.actions, i)) {
    case GOOSETABLE_ACTION_PUT:
        printf("; put slot %" PRIu64 ", ", number);
        stored(p, number);
        break;
    case GOOSETABLE_ACTION_DELETE:
        printf("; delete slot %" PRIu64, number);
        break;
    case GOOSETABLE_ACTION_OWN_PUT:
        printf("; own put, contact %" PRIu64 " message %" PRIu32, number, goosetable_action_msgno(p->areas.actions, i));
        break;
    }
}

static void rows(const struct post *p, goosetable_answer a)
{
    size_t i;
    for (i = 0; i < a.replies; i++)
        reply(p->areas.replies, i);
    for (i = 0; i < a.actions; i++)
        action(p, i);
    putchar('\n');
}

void end(const struct post *p, goosetable_answer a)
{
    said(a);
    rows(p, a);
}

void end_with(const struct post *p, goosetable_answer a, const char *unit)
{
    said(a);
    printf(", %s %zu", unit, a.length);
    rows(p, a);
}
