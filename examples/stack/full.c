#include "full.h"

#include <string.h>

void put(uint8_t *bytes, size_t width, uint64_t number)
{
    while (width--) {
        bytes[width] = (uint8_t)number;
        number >>= 8;
    }
}

void put_tag(uint8_t *bytes, enum origin origin, uint64_t i)
{
    memset(bytes, origin, GOOSETABLE_TAG_SIZE);
    put(bytes + 4, 4, i);
}

static void fill_device(struct areas *a)
{
    goosetable_fresh(a->device);
    put(a->device + CONTACTS_AT, 8, GOOSETABLE_MAX_ROWS);
    put(a->device + OWN_AT, 8, GOOSETABLE_MAX_ROWS);
    put(a->device + CARRIED_AT, 8, GOOSETABLE_MAX_ROWS);
    put(a->device + TOMBSTONES_AT, 8, TOMBSTONES);
    put(a->device + BAD_TAGS_AT, 8, BAD_TAGS - 1);
    put(a->device + NEXT_SLOT_AT, 8, GOOSETABLE_MAX_ROWS + TOMBSTONES);
}

/* An own row for each contact, with its ciphertext in a cell as long as it can be. */
static void fill_own(struct areas *a)
{
    uint64_t i;
    for (i = 0; i < GOOSETABLE_MAX_ROWS; i++) {
        uint8_t *row = a->own + i * GOOSETABLE_OWN_ROW;
        put(row, 8, i + 1);
        put(row + 8, 4, 1);
        put_tag(row + 12, OF_OWN, i);
        put_tag(row + 28, OF_OWN, i);
        put(row + 44, 4, 1000);
        put(row + 48, 1, 6);
        put(row + 49, 1, 0);
        put(row + 50, 2, GOOSETABLE_CELL_SIZE);
        put(row + 52, 2, i);
    }
}

/* 32 carried rows of each of eight depositors. */
static void fill_carried(struct areas *a)
{
    uint64_t i;
    for (i = 0; i < GOOSETABLE_MAX_ROWS; i++) {
        uint8_t *row = a->carried + i * GOOSETABLE_CARRIED_ROW;
        put(row, 8, i);
        put(row + 8, 8, i / 32 + 1);
        put_tag(row + 16, OF_CARRIED, i);
        put_tag(row + 32, OF_CARRIED, i);
        put(row + 48, 4, 1000);
        put(row + 52, 1, 6);
        put(row + 53, 2, GOOSETABLE_CELL_SIZE);
        put(row + 55, 2, i);
    }
}

static void fill_tables(struct areas *a)
{
    uint64_t i;
    for (i = 0; i < GOOSETABLE_MAX_ROWS; i++) {
        put(a->contacts + i * GOOSETABLE_CONTACT_ROW, 8, i + 1);
        put(a->contacts + i * GOOSETABLE_CONTACT_ROW + 8, 1, GOOSETABLE_VERIFIED);
    }
    for (i = 0; i < TOMBSTONES; i++) {
        uint8_t *row = a->tombstones + i * GOOSETABLE_TOMBSTONE_ROW;
        put(row, 8, GOOSETABLE_MAX_ROWS + i);
        put_tag(row + 8, OF_TOMBSTONE, i);
        put_tag(row + 24, OF_TOMBSTONE, i);
        put(row + 40, 4, 1000);
    }
    for (i = 0; i < BAD_TAGS; i++) {
        put(a->bad_tags + i * GOOSETABLE_BAD_TAG_ROW, 8, PEER);
        put_tag(a->bad_tags + i * GOOSETABLE_BAD_TAG_ROW + 8, OF_WINDOW, i);
    }
}

static void fill_window(struct areas *a)
{
    uint64_t i;
    for (i = 0; i < WINDOW_ROWS; i++) {
        uint8_t *row = a->window + i * GOOSETABLE_WINDOW_ROW;
        put(row, 8, i / 500 + 1);
        row[8] = GOOSETABLE_DIRECTION_I;
        put(row + 9, 1, 0);
        put(row + 10, 4, i % 500);
        put_tag(row + 14, OF_WINDOW, i);
    }
    for (i = 0; i < GOOSETABLE_KEYS_SIZE / GOOSETABLE_KEY_ROW; i++) {
        a->skipped[i * GOOSETABLE_KEY_ROW] = GOOSETABLE_DIRECTION_I;
        put(a->skipped + i * GOOSETABLE_KEY_ROW + 1, 5, i);
    }
    a->chains[0] = a->chains[GOOSETABLE_CHAIN_ROW] = GOOSETABLE_DIRECTION_R;
}

/* Opened for the peer: prefixes of window rows and of tombstones are listed, and an offer of every own and carried row is out. */
static void fill_exchange(struct areas *a)
{
    uint8_t tag[GOOSETABLE_TAG_SIZE];
    uint64_t i;
    memset(a->exchange, 0, sizeof a->exchange);
    put(a->exchange, 1, 1);
    put(a->exchange + 2, 8, PEER);
    put(a->exchange + 10, 8, GOOSETABLE_MAX_LISTED);
    put(a->exchange + 18, 8, GOOSETABLE_MAX_LISTED);
    for (i = 0; i < GOOSETABLE_MAX_LISTED; i++) {
        put_tag(tag, i % 2 ? OF_WINDOW : OF_TOMBSTONE, i * 2);
        memcpy(a->prefixes + i * GOOSETABLE_PREFIX_SIZE, tag, GOOSETABLE_PREFIX_SIZE);
        put_tag(a->offers + i * GOOSETABLE_OFFER_ROW, i < GOOSETABLE_MAX_ROWS ? OF_OWN : OF_CARRIED, i % GOOSETABLE_MAX_ROWS);
        put(a->offers + i * GOOSETABLE_OFFER_ROW + 16, 1, 3);
    }
}

void fill(struct areas *a)
{
    fill_device(a);
    fill_own(a);
    fill_carried(a);
    fill_tables(a);
    fill_window(a);
    fill_exchange(a);
    put_tag(a->tag, OF_NOBODY, 0);
    put_tag(a->secret, OF_NOBODY, 0);
}
