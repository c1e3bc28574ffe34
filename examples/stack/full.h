/* Full areas: 256 contacts, own rows and carried rows, 1,024 tombstones, 512 listed prefixes and offers, a window of 5,000 rows. */
#ifndef FULL_H
#define FULL_H

#include "goosetable.h"

/* All rows are used: a tombstone is stored, and a carried row turns, only if one goes. */
#define TOMBSTONES 1024
#define R TOMBSTONES
#define WINDOW_ROWS 5000
#define BAD_TAGS 256

/* Contacts are 1 to 256. The exchange is with this one. */
#define PEER 1

struct areas {
    uint8_t device[GOOSETABLE_DEVICE_SIZE];
    uint8_t exchange[GOOSETABLE_EXCHANGE_SIZE];
    uint8_t contacts[GOOSETABLE_CONTACTS_SIZE];
    uint8_t own[GOOSETABLE_OWN_SIZE];
    uint8_t carried[GOOSETABLE_CARRIED_SIZE];
    uint8_t tombstones[GOOSETABLE_TOMBSTONES_SIZE(R)];
    uint8_t bad_tags[GOOSETABLE_BAD_TAGS_SIZE(BAD_TAGS)];
    uint8_t own_cells[GOOSETABLE_CELLS_SIZE(GOOSETABLE_MAX_ROWS)];
    uint8_t carried_cells[GOOSETABLE_CELLS_SIZE(GOOSETABLE_MAX_ROWS)];
    uint8_t window[GOOSETABLE_WINDOW_SIZE(WINDOW_ROWS)];
    uint8_t prefixes[GOOSETABLE_PREFIXES_SIZE];
    uint8_t offers[GOOSETABLE_OFFERS_SIZE];
    uint8_t replies[GOOSETABLE_REPLIES_SIZE];
    uint8_t actions[GOOSETABLE_ACTIONS_SIZE(R)];
    uint8_t file[GOOSETABLE_FILE_SIZE(GOOSETABLE_MAX_ROWS, R)];
    uint8_t blob[GOOSETABLE_BLOB_SIZE];
    uint8_t page[GOOSETABLE_PAGE_SIZE];
    uint8_t skipped[GOOSETABLE_KEYS_SIZE];
    uint8_t chains[2 * GOOSETABLE_CHAIN_ROW];
    uint8_t keys[GOOSETABLE_KEYS_SIZE];
    uint8_t row[GOOSETABLE_OWN_ROW];
    uint8_t key[GOOSETABLE_KEY_SIZE];
    uint8_t ct[GOOSETABLE_CELL_SIZE];
    uint8_t tag[GOOSETABLE_TAG_SIZE];
    uint8_t secret[GOOSETABLE_TAG_SIZE];
    size_t file_len;
};

/* Where a row's tag is from. */
enum origin { OF_OWN = 1, OF_CARRIED, OF_TOMBSTONE, OF_WINDOW, OF_NOBODY };

/* Counts in the device area. */
enum count { CONTACTS_AT = 12, OWN_AT = 20, CARRIED_AT = 28, TOMBSTONES_AT = 36, BAD_TAGS_AT = 44, NEXT_SLOT_AT = 52 };

void put(uint8_t *bytes, size_t width, uint64_t number);

/* The tag of row i of an origin. Its secret is the same bytes. */
void put_tag(uint8_t *bytes, enum origin origin, uint64_t i);

void fill(struct areas *a);

#endif
