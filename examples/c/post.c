#include "post.h"

#include <stdio.h>
#include <stdlib.h>
#include <string.h>

uint8_t *area(size_t size)
{
    uint8_t *bytes = malloc(size ? size : 1);
    if (!bytes) {
        fprintf(stderr, "no memory for an area of %zu bytes\n", size);
        exit(1);
    }
    return bytes;
}

/* An area whose length is set beside it. */
static uint8_t *sized(size_t *len, size_t size)
{
    *len = size;
    return area(size);
}

void post_open(struct post *p, const char *name, uint64_t id)
{
    goosetable_post *a = &p->areas;
    p->name = name;
    p->id = id;
    a->device = area(GOOSETABLE_DEVICE_SIZE);
    a->contacts = area(GOOSETABLE_CONTACTS_SIZE);
    a->own = area(GOOSETABLE_OWN_SIZE);
    a->carried = area(GOOSETABLE_CARRIED_SIZE);
    a->tombstones = sized(&a->tombstones_len, GOOSETABLE_TOMBSTONES_SIZE(TOMBSTONES));
    a->bad_tags = sized(&a->bad_tags_len, GOOSETABLE_BAD_TAGS_SIZE(BAD_TAGS));
    a->own_cells = sized(&a->own_cells_len, GOOSETABLE_CELLS_SIZE(CELLS));
    a->carried_cells = sized(&a->carried_cells_len, GOOSETABLE_CELLS_SIZE(CELLS));
    a->replies = sized(&a->replies_len, GOOSETABLE_REPLIES_SIZE);
    a->actions = sized(&a->actions_len, GOOSETABLE_ACTIONS_SIZE(TOMBSTONES));
    a->sessions = (goosetable_session *)area(SESSIONS * sizeof *a->sessions);
    a->session_count = SESSIONS;
    p->window = NULL;
    post_window(p, 0);
    goosetable_post_fresh(a);
}

void post_close(struct post *p)
{
    goosetable_post *a = &p->areas;
    free(a->device);
    free(a->contacts);
    free(a->own);
    free(a->carried);
    free(a->tombstones);
    free(a->bad_tags);
    free(a->own_cells);
    free(a->carried_cells);
    free(a->replies);
    free(a->actions);
    free(a->sessions);
    free(p->window);
}

uint8_t *post_window(struct post *p, size_t rows)
{
    free(p->window);
    p->areas.window = p->window = sized(&p->areas.window_len, GOOSETABLE_WINDOW_SIZE(rows));
    return p->window;
}

struct envelope envelope_of(const struct post *p, const uint8_t *replies, size_t i)
{
    struct envelope e;
    memcpy(e.header, goosetable_reply_body(replies, i), sizeof e.header);
    e.ct_len = goosetable_post_ciphertext_length(&p->areas, replies, i);
    e.ct = memcpy(area(e.ct_len), goosetable_post_ciphertext(&p->areas, replies, i), e.ct_len);
    return e;
}
