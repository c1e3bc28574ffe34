/* A post of these examples, with its areas as goosetable_post.h has them. A phone has the same holdings, and is a post here. */
#ifndef POST_H
#define POST_H

#include "goosetable_post.h"

/*
 * How many ciphertexts of each kind a post has room for: as many as count. The share of a contact is promised for 256 carried cells alone; with
 * fewer there comes a refusal, 4, where a code should go back.
 */
#define CELLS GOOSETABLE_MAX_ROWS
/* How many tombstones: with as many as docs/HOST.md says, 5 comes of no call but a load; and bad tags: few are enough here. */
#define TOMBSTONES 1024
#define BAD_TAGS 2
/* Meetings at once. */
#define SESSIONS 2

struct post {
    const char *name;
    uint64_t id;
    goosetable_post areas;
    uint8_t *window;
};

/* What goes over the air: an envelope's header (tag, commitment, expiry, copies) and its ciphertext. */
struct envelope {
    uint8_t header[GOOSETABLE_BODY_SIZE];
    uint8_t *ct;
    size_t ct_len;
};

/* Memory of a size; the program ends if there is none. */
uint8_t *area(size_t size);

/* A fresh post. Every area but a session's has its size in memory of its own, so that a checker sees a byte that is written or read past its end. */
void post_open(struct post *p, const char *name, uint64_t id);
void post_close(struct post *p);

/* A window of so many rows, for the caller to fill, in place of the one that the post had. */
uint8_t *post_window(struct post *p, size_t rows);

/* The envelope that reply row i tells of, with a copy of its ciphertext. */
struct envelope envelope_of(const struct post *p, const uint8_t *replies, size_t i);

#endif
