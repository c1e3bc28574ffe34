/*
 * goosetable.h: the courier holdings of a wall post, as libgoosetable.a has them. CHANGELOG.md says what is new in each version.
 *
 * The library is for x86-64 with the System V calling convention. It allocates nothing, takes no lock, calls nothing but memcpy, memmove and
 * memset, and keeps nothing between calls: all that a post has lies in areas that the host lends, so that posts with areas of their own may run
 * in different threads at once.
 *
 * What is asked of a caller, and nothing else:
 *
 *   - no pointer is null, also where its length is 0: an empty area (no window row, no skipped key, an empty list) is a pointer to any byte
 *     with length 0, (const uint8_t *)"", 0 where it is only read; NULL, 0 is excluded;
 *   - an area that a call writes (a pointer without const) overlaps no other area of the same call;
 *   - an area with a size in brackets has at least that many bytes, and one with a length beside it has that many.
 *
 * Areas are bytes: any alignment, any length and any contents will do. What is wrong with them is answered by a refusal, and a row or a count
 * that no call left is read as what fits. A refused call (1 to 13) changes no byte of any area.
 *
 * docs/HOST.md says how a host runs a post with these calls: how much memory it lends, a meeting call by call, what it stores, how it starts again.
 * goosetable_post.h has the areas of a post as one struct, and each call with them.
 *
 * The device area is made by goosetable_fresh, an exchange by goosetable_fresh_exchange, over any bytes; zeros are an exchange that was opened
 * for nobody. The areas for its prefixes and offers go with it. The other areas may hold anything at first: the counts in the device and exchange
 * areas say how many rows of a table are there. R, the number of tombstone rows, and the numbers of cells and of bad-tag rows are the whole rows
 * that fit their area.
 *
 * Numbers in areas are big-endian, rows stand one after the other without gaps, and this is how they lie (bytes in all, then field by field):
 *
 *   device      60: enabled 1, copies 1, lifetime 2, clock 8, contacts 8, own rows 8, carried rows 8, tombstones 8, bad tags 8, next slot 8
 *   exchange    26: opened 1, complete 1, peer 8, listed prefixes 8, offers 8
 *   contact      9: id 8, verification 1
 *   own         54: contact 8, message number 4, tag 16, secret 16, expiry 4, copies 1, renewed 1, length 2, cell 2
 *   carried     57: slot 8, depositor 8, tag 16, commitment 16, expiry 4, copies 1, length 2, cell 2
 *   tombstone   44: slot 8, tag 16, secret 16, expiry 4
 *   bad tag     24: peer 8, tag 16
 *   window      30: contact 8, direction 1, generation 1, index 4, tag 16
 *   offer       17: tag 16, copies 1
 *   reply       40: kind 1, cell 2, body 37
 *   action      13: kind 1, slot or contact 8, message number 4
 *   chain       10: direction 1, generation 1, next 8
 *   key          6: direction 1, generation 1, index 4
 *
 * The body of a reply begins with the tag (16). Then an envelope has commitment 16, expiry 4, copies 1; a custody reply the code 1; a tomb the
 * secret 16; the rest is zeros. An expiry is in minutes; the minute is the clock's seconds / 60. A flag (enabled, opened, complete) is on unless
 * its byte is 0, and a call that leaves a flag on or off leaves its byte.
 *
 * The cell of a reply is 0 unless it is an envelope's. An envelope has the cell of its row: 0 to 255 is that cell of the own cells, 256 to 511 is
 * cell 0 to 255 of the carried cells. The first 256 cells of an area count: a row of another cell, which no call makes, has no ciphertext, and its
 * reply has cell 65,535 (GOOSETABLE_NO_CELL). The share of a contact (docs/PROMISES.md, demand 3) is promised for 256 carried cells
 * alone: with fewer, 4 comes where the code would be Accepted, and the peer gets no code.
 *
 * The functions at the end read all of this: fields of the device, of an exchange, of rows and bodies, the ciphertext of a reply's envelope, and
 * the names of what calls say; one writes a window row. Whatever the areas hold, they read nothing outside them.
 *
 * Each call's comment has what it does, what it writes, and the refusals in the order in which they are tested; the areas behind 1 are those
 * that 1 speaks of, each asked for whole. "Stack" is what the call takes below its caller's frame, its return address included:
 * examples/stack/run measures it on full areas, and compares it with the most that the library's code can take on any input.
 *
 * include/check holds this file against the source of the library.
 */
#ifndef GOOSETABLE_H
#define GOOSETABLE_H

#include <stddef.h>
#include <stdint.h>

#ifdef __cplusplus
extern "C" {
#endif

/* ---- sizes in bytes */

/* A tag, a commitment or a secret; the first bytes of a tag, which an inventory lists; a route key; the cell of a ciphertext. */
#define GOOSETABLE_TAG_SIZE 16
#define GOOSETABLE_PREFIX_SIZE 8
#define GOOSETABLE_KEY_SIZE 32
#define GOOSETABLE_CELL_SIZE 2064

/* One row of each table. */
#define GOOSETABLE_CONTACT_ROW 9
#define GOOSETABLE_OWN_ROW 54
#define GOOSETABLE_CARRIED_ROW 57
#define GOOSETABLE_TOMBSTONE_ROW 44
#define GOOSETABLE_BAD_TAG_ROW 24
#define GOOSETABLE_WINDOW_ROW 30
#define GOOSETABLE_OFFER_ROW 17
#define GOOSETABLE_REPLY_ROW 40
#define GOOSETABLE_ACTION_ROW 13
#define GOOSETABLE_CHAIN_ROW 10
#define GOOSETABLE_KEY_ROW 6

/* The body of a reply, and a carried row's blob before its ciphertext. */
#define GOOSETABLE_BODY_SIZE 37
#define GOOSETABLE_CARRIED_HEAD 46

/* A line of a screen page, its line end included; the most rows of a page, which stand below the line of its heading. */
#define GOOSETABLE_PAGE_LINE 81
#define GOOSETABLE_PAGE_ROWS 19

/* The most rows of each table of fixed size, and the most cells of an area that count. */
#define GOOSETABLE_MAX_ROWS 256
/* The cell in the reply of a row whose cell does not count: the envelope has no ciphertext here. */
#define GOOSETABLE_NO_CELL 65535
/* The most prefixes that an exchange lists, and the most offers that it has. */
#define GOOSETABLE_MAX_LISTED 512

/* Areas of fixed size. */
#define GOOSETABLE_DEVICE_SIZE 60
#define GOOSETABLE_EXCHANGE_SIZE 26
#define GOOSETABLE_CONTACTS_SIZE (GOOSETABLE_MAX_ROWS * GOOSETABLE_CONTACT_ROW)
#define GOOSETABLE_OWN_SIZE (GOOSETABLE_MAX_ROWS * GOOSETABLE_OWN_ROW)
#define GOOSETABLE_CARRIED_SIZE (GOOSETABLE_MAX_ROWS * GOOSETABLE_CARRIED_ROW)

/* Areas that 1 speaks of: what they need at least. */
#define GOOSETABLE_REPLIES_SIZE 61440
#define GOOSETABLE_PREFIXES_SIZE 4096
#define GOOSETABLE_OFFERS_SIZE 8704
#define GOOSETABLE_KEYS_SIZE 3000
#define GOOSETABLE_BLOB_SIZE 2110
#define GOOSETABLE_PAGE_SIZE 1620
#define GOOSETABLE_ACTIONS_SIZE(r) (13 * (512 + (size_t)(r)))
#define GOOSETABLE_FILE_SIZE(carried_cells, r) (10 + 2122 * (size_t)(carried_cells) + 49 * (size_t)(r))

/* Areas with as many cells or rows as the host likes. With 1,024 tombstone rows or more no call but goosetable_load is refused by 5. */
#define GOOSETABLE_CELLS_SIZE(cells) ((size_t)(cells) * GOOSETABLE_CELL_SIZE)
#define GOOSETABLE_TOMBSTONES_SIZE(r) ((size_t)(r) * GOOSETABLE_TOMBSTONE_ROW)
#define GOOSETABLE_BAD_TAGS_SIZE(rows) ((size_t)(rows) * GOOSETABLE_BAD_TAG_ROW)
#define GOOSETABLE_WINDOW_SIZE(rows) ((size_t)(rows) * GOOSETABLE_WINDOW_ROW)

/* ---- numbers by name */

/*
 * What a call says: done, why it is refused (1 to 13), or one of the last four.
 *
 * Document 01 has 13 as "(program only)", for a record of a log. The library says it too: of a contact for which no row is left (a 257th), and of a
 * byte that is no code, no verification or neither 0 nor 1 for enabled. No other number fits: 2 would claim an unknown contact.
 */
enum goosetable_said {
    GOOSETABLE_DONE = 0,
    GOOSETABLE_REFUSED_SHORT_AREA = 1,            /* the reply, exchange, action, answer, blob, file or page area is shorter than above */
    GOOSETABLE_REFUSED_UNKNOWN_CONTACT = 2,       /* the contact, or one in a window row, isn't known */
    GOOSETABLE_REFUSED_WRONG_EXCHANGE = 3,        /* the exchange was opened for another contact or for none */
    GOOSETABLE_REFUSED_NO_CELL = 4,               /* a row would be added and its cells are all used */
    GOOSETABLE_REFUSED_NO_TOMBSTONE_ROW = 5,      /* a tombstone would be added and, after any deletion, all R rows are used */
    GOOSETABLE_REFUSED_NO_SLOT = 6,               /* a new slot is needed and next slot is 2^64 - 1 */
    GOOSETABLE_REFUSED_CONFIGURATION = 7,         /* configuration outside its range */
    GOOSETABLE_REFUSED_SAVED_FILE = 8,            /* saved file: see goosetable_load */
    GOOSETABLE_REFUSED_NO_BAD_TAG_ROW = 9,        /* a new bad tag and no row left */
    GOOSETABLE_REFUSED_MESSAGE_NUMBER_TAKEN = 10, /* own row: message number already there */
    GOOSETABLE_REFUSED_OWN_LENGTH = 11,           /* own ciphertext less 16 isn't 32, 64, 128, 256, 512, 1024, 2048 or 4048 */
    GOOSETABLE_REFUSED_WINDOW_ROWS = 12,          /* not whole rows; a direction not I or R; keys not rising; over 500 skipped; a next above 2^32 */
    GOOSETABLE_REFUSED_LOG_RECORD = 13,           /* a code, verification or enabled that is none; a 257th contact */
    GOOSETABLE_MALFORMED = 128,                   /* what the peer sent is malformed */
    GOOSETABLE_OURS = 129,                        /* the envelope is in the window */
    GOOSETABLE_MISSING = 130,                     /* no such envelope, no such row */
    GOOSETABLE_NO_ENVELOPE = 131                  /* the message gets no own envelope */
};

enum goosetable_verification {
    GOOSETABLE_UNVERIFIED = 0,
    GOOSETABLE_VERIFIED = 1,
    GOOSETABLE_COMPROMISED = 2
};

/* The code that answers an envelope. */
enum goosetable_custody {
    GOOSETABLE_CUSTODY_ACCEPTED = 0,
    GOOSETABLE_CUSTODY_FULL = 1,
    GOOSETABLE_CUSTODY_DUPLICATE = 2,
    GOOSETABLE_CUSTODY_OFF = 3,
    GOOSETABLE_CUSTODY_INVALID = 4
};

/* What a reply tells the peer. */
enum goosetable_reply {
    GOOSETABLE_REPLY_FETCH = 0,    /* asks for the envelope of a tag */
    GOOSETABLE_REPLY_ENVELOPE = 1, /* an envelope; its ciphertext is in the reply's cell: own from 0, carried from 256, none in NO_CELL */
    GOOSETABLE_REPLY_CUSTODY = 2,  /* the code for an envelope */
    GOOSETABLE_REPLY_TOMB = 3      /* the secret that proves a delivery */
};

/* What the host writes to its storage. */
enum goosetable_action {
    GOOSETABLE_ACTION_PUT = 0,    /* the held row in a slot: goosetable_row_blob has its bytes */
    GOOSETABLE_ACTION_DELETE = 1, /* the held row in a slot goes */
    GOOSETABLE_ACTION_OWN_PUT = 2 /* the own row of a contact and message number; it has ended if the own rows no longer have it (a tomb, a drop) */
};

/* What a held row is. */
enum goosetable_kind {
    GOOSETABLE_KIND_NONE = 0,
    GOOSETABLE_KIND_CARRIED = 1,
    GOOSETABLE_KIND_TOMBSTONE = 2
};

/* The direction of a message chain, named after the sender's role. */
enum goosetable_direction {
    GOOSETABLE_DIRECTION_I = 'I',
    GOOSETABLE_DIRECTION_R = 'R'
};

/* ---- answers */

/* The answer of every call. What a call does not speak of is 0. */
typedef struct goosetable_answer {
    uint64_t contact;   /* whose envelope it is, where it is ours */
    size_t replies;     /* rows in front of the reply area */
    size_t actions;     /* rows in front of the action area */
    size_t length;      /* rows or bytes in front of another answer area; bytes of a fetched ciphertext; of an inventory's end, rows for which the
                           tombstones were searched */
    uint32_t idx;       /* index and generation of an envelope that is ours */
    uint8_t generation;
    uint8_t said;       /* enum goosetable_said */
} goosetable_answer;

/* A held row that was read. */
typedef struct goosetable_row {
    uint64_t depositor; /* 0 of a tombstone */
    uint32_t expiry_min;
    uint8_t tag[GOOSETABLE_TAG_SIZE];
    uint8_t second[GOOSETABLE_TAG_SIZE]; /* a commitment or, of a tombstone, a secret */
    uint8_t copies;     /* 0 of a tombstone */
    uint8_t kind;       /* enum goosetable_kind */
} goosetable_row;

/* ---- what the host sets */

/*
 * A post with no row, contact or bad tag, next slot and clock 0, and the default setting: enabled, 6 copies, 1,440 minutes.
 * Writes: device.
 * Refused by: nothing.
 * Stack: 8 bytes.
 */
void goosetable_fresh(uint8_t device[GOOSETABLE_DEVICE_SIZE]);

/*
 * Sets the clock, in seconds. Minute = seconds / 60, at most 2^32 - 1.
 * Writes: device.
 * Refused by: nothing.
 * Stack: 8 bytes.
 */
goosetable_answer goosetable_clock(uint8_t device[GOOSETABLE_DEVICE_SIZE], uint64_t seconds);

/*
 * Sets whether the post carries for others (0 or 1, else 13), for how many copies at most (1 to 16) and for how many minutes (60 to 10,080).
 * Writes: device.
 * Refused by: 13, 7.
 * Stack: 8 bytes.
 */
goosetable_answer goosetable_setting(uint8_t device[GOOSETABLE_DEVICE_SIZE], uint8_t enabled, uint8_t copies, uint16_t lifetime);

/*
 * Adds a contact, or alters one in its place. 13: a verification above 2, or a 257th contact.
 * Writes: device, contacts.
 * Refused by: 13.
 * Stack: 56 bytes.
 */
goosetable_answer goosetable_contact(
    uint8_t device[GOOSETABLE_DEVICE_SIZE],
    uint64_t id,
    uint8_t verification,
    uint8_t contacts[GOOSETABLE_CONTACTS_SIZE]);

/*
 * A fresh exchange with a peer: nothing listed, nothing offered. Where it is refused the exchange stays as it is.
 * Writes: exchange.
 * Refused by: 1 (prefixes, offers), 2.
 * Stack: 16 bytes.
 */
goosetable_answer goosetable_fresh_exchange(
    const uint8_t device[GOOSETABLE_DEVICE_SIZE],
    uint8_t exchange[GOOSETABLE_EXCHANGE_SIZE],
    uint64_t peer,
    const uint8_t contacts[GOOSETABLE_CONTACTS_SIZE],
    const uint8_t *prefixes,
    size_t prefixes_len,
    const uint8_t *offers,
    size_t offers_len);

/* ---- envelopes */

/*
 * An envelope from a peer: tag, commitment c, expiry, copies, ciphertext ct. If the tag is in a window row it says OURS with contact, generation
 * and index of the first such row, which also has the direction, and changes nothing; the host opens it and reports goosetable_opened or
 * goosetable_failed. Else there is one custody reply. The tests are Off, Invalid, Duplicate, Full, and the first that applies is the code. Accepted
 * gives one carried row, with copies and expiry the lesser of their own and the configured, its ciphertext in the first free cell, and one action,
 * a put of its slot. 4 and 6 come only where the code would be Accepted.
 * Writes: device, carried, carried_cells, replies, actions.
 * Refused by: 1 (replies, actions), 12, 2, 4, 6.
 * Stack: 565 bytes.
 */
goosetable_answer goosetable_envelope(
    uint8_t device[GOOSETABLE_DEVICE_SIZE],
    uint64_t peer,
    const uint8_t tag[GOOSETABLE_TAG_SIZE],
    const uint8_t c[GOOSETABLE_TAG_SIZE],
    uint32_t expiry,
    uint8_t copies,
    const uint8_t *ct,
    size_t ct_len,
    const uint8_t *window,
    size_t window_len,
    const uint8_t contacts[GOOSETABLE_CONTACTS_SIZE],
    const uint8_t own[GOOSETABLE_OWN_SIZE],
    uint8_t carried[GOOSETABLE_CARRIED_SIZE],
    const uint8_t *tombstones,
    size_t tombstones_len,
    uint8_t *carried_cells,
    size_t carried_cells_len,
    uint8_t *replies,
    size_t replies_len,
    uint8_t *actions,
    size_t actions_len);

/*
 * A peer asks for the envelope of a tag: own rows that are not for this peer come first, then carried rows. The one reply is the envelope, its
 * cell says where the ciphertext begins, and length is the ciphertext's, 0 where the cell is NO_CELL or outside its area; MISSING if there is no
 * envelope. It takes no copies off.
 * Writes: replies.
 * Refused by: 1 (replies), 2.
 * Stack: 4,248 bytes.
 */
goosetable_answer goosetable_fetch(
    const uint8_t device[GOOSETABLE_DEVICE_SIZE],
    uint64_t peer,
    const uint8_t tag[GOOSETABLE_TAG_SIZE],
    const uint8_t contacts[GOOSETABLE_CONTACTS_SIZE],
    const uint8_t own[GOOSETABLE_OWN_SIZE],
    const uint8_t carried[GOOSETABLE_CARRIED_SIZE],
    const uint8_t *own_cells,
    size_t own_cells_len,
    const uint8_t *carried_cells,
    size_t carried_cells_len,
    uint8_t *replies,
    size_t replies_len);

/*
 * The envelope of a message that the host has queued for a contact: its tag is the one of the route key, direction (I or R, else 12), generation
 * and index, its commitment that of the secret s, its copies and expiry the configured. The new own row also goes to row; it lists no action,
 * since the host writes its queued message itself. NO_ENVELOPE, after 11 and before 4, if the ciphertext less 16 is 4,048 or 256 own rows are
 * there.
 * Writes: device, own, own_cells, row.
 * Refused by: 12, 2, 10, 11, 4.
 * Stack: 5,800 bytes.
 */
goosetable_answer goosetable_own_envelope(
    uint8_t device[GOOSETABLE_DEVICE_SIZE],
    uint64_t contact,
    uint32_t msgno,
    const uint8_t route_key[GOOSETABLE_KEY_SIZE],
    uint8_t dir,
    uint8_t generation,
    uint32_t idx,
    const uint8_t s[GOOSETABLE_TAG_SIZE],
    const uint8_t *ct,
    size_t ct_len,
    const uint8_t contacts[GOOSETABLE_CONTACTS_SIZE],
    uint8_t own[GOOSETABLE_OWN_SIZE],
    uint8_t *own_cells,
    size_t own_cells_len,
    uint8_t row[GOOSETABLE_OWN_ROW]);

/* ---- exchanges */

/*
 * The prefixes of the rows held here for a peer's inventory, and in length how many: own rows that are not for this peer, then carried rows,
 * tombstoned too, copies of any number. The host sends them in lists of at most 500, and an empty one last.
 * Writes: prefixes.
 * Refused by: 1 (prefixes), 2.
 * Stack: 64 bytes.
 */
goosetable_answer goosetable_inventory_of_ours(
    const uint8_t device[GOOSETABLE_DEVICE_SIZE],
    uint64_t peer,
    const uint8_t contacts[GOOSETABLE_CONTACTS_SIZE],
    const uint8_t own[GOOSETABLE_OWN_SIZE],
    const uint8_t carried[GOOSETABLE_CARRIED_SIZE],
    uint8_t *prefixes,
    size_t prefixes_len);

/*
 * A list of prefixes from a peer, gathered in the exchange; the empty list is the terminator and is answered: fetches for listed prefixes in the
 * window, in listed order, unless the tag of the first such row is bad for this peer or a tombstone has it; then the tombs of listed prefixes;
 * then offers, which are envelopes with half of the copies, own rows before carried rows, but none with copies 1 or 0, of a tombstoned tag or a
 * listed prefix, nor own ones for this peer. The terminator has in length for how many rows the tombstones were searched: for each that would be
 * offered if no tag were tombstoned (copies above 1, prefix not listed, own ones not for this peer), 512 at most. length is 0 where a list is
 * gathered, malformed or refused. goosetable_ciphertext and goosetable_ciphertext_length have the ciphertext of an offer; a fetch would write its
 * own reply, with all of the copies, over the replies that are being read. Rows are looked up in the window for the terminator alone, but all of it
 * is tested (12, 2) with each list, which takes its time: lend an empty window until the terminator. MALFORMED: over 512 prefixes in all, or any
 * list after the terminator.
 * Writes: exchange, prefixes, offers, replies.
 * Refused by: 1 (replies, prefixes, offers), 12, 2, 3.
 * Stack: 4,968 bytes.
 */
goosetable_answer goosetable_inventory(
    const uint8_t device[GOOSETABLE_DEVICE_SIZE],
    uint8_t exchange[GOOSETABLE_EXCHANGE_SIZE],
    uint64_t peer,
    const uint8_t contacts[GOOSETABLE_CONTACTS_SIZE],
    const uint8_t own[GOOSETABLE_OWN_SIZE],
    const uint8_t carried[GOOSETABLE_CARRIED_SIZE],
    const uint8_t *tombstones,
    size_t tombstones_len,
    const uint8_t *bad_tags,
    size_t bad_tags_len,
    const uint8_t *window,
    size_t window_len,
    const uint8_t *listed,
    size_t listed_len,
    uint8_t *prefixes,
    size_t prefixes_len,
    uint8_t *offers,
    size_t offers_len,
    uint8_t *replies,
    size_t replies_len);

/*
 * The custody code (0 to 4, else 13) that a peer answers an offer with. It clears the offer whatever the code; only Accepted takes the handed
 * copies off, stopping at 0, of the carried row with the tag or else of the own row, and lists its put or own put.
 * Writes: device, exchange, own, carried, offers, actions.
 * Refused by: 13, 1 (prefixes, offers, actions), 2, 3.
 * Stack: 264 bytes.
 */
goosetable_answer goosetable_custody_code(
    uint8_t device[GOOSETABLE_DEVICE_SIZE],
    uint8_t exchange[GOOSETABLE_EXCHANGE_SIZE],
    uint64_t peer,
    const uint8_t tag[GOOSETABLE_TAG_SIZE],
    uint8_t code,
    const uint8_t contacts[GOOSETABLE_CONTACTS_SIZE],
    uint8_t own[GOOSETABLE_OWN_SIZE],
    uint8_t carried[GOOSETABLE_CARRIED_SIZE],
    const uint8_t *tombstones,
    size_t tombstones_len,
    const uint8_t *prefixes,
    size_t prefixes_len,
    uint8_t *offers,
    size_t offers_len,
    uint8_t *actions,
    size_t actions_len);

/* ---- tombstones */

/*
 * A tombstone to be stored, in a new slot. Nothing is stored if the tag has a tombstone. At 1,024 or more one of least expiry is deleted first,
 * lowest slot among equals. Actions: that delete, and the put.
 * Writes: device, tombstones, actions.
 * Refused by: 1 (actions), 5, 6.
 * Stack: 184 bytes.
 */
goosetable_answer goosetable_stored_tombstone(
    uint8_t device[GOOSETABLE_DEVICE_SIZE],
    const uint8_t tag[GOOSETABLE_TAG_SIZE],
    const uint8_t s[GOOSETABLE_TAG_SIZE],
    uint32_t expiry,
    uint8_t *tombstones,
    size_t tombstones_len,
    uint8_t *actions,
    size_t actions_len);

/*
 * A tomb from a peer: a tag, and the secret s that its commitment is of. A carried row with the tag is looked for first; it turns into a
 * tombstone that retains its slot and expiry. At 1,024 or more one of the tombstones that were there is deleted first, as by
 * goosetable_stored_tombstone, never the row that turns: actions are that delete, then the put of the row's slot. 5 for it is tested after the
 * deletion, and 6 does not come. Else an own row is ended: an own put, and its tombstone is stored as by goosetable_stored_tombstone. A wrong
 * secret is MALFORMED; an unknown tag changes nothing, and is DONE.
 * Writes: device, own, carried, tombstones, actions.
 * Refused by: 1 (actions), 2, 5, 6.
 * Stack: 4,360 bytes.
 */
goosetable_answer goosetable_tomb(
    uint8_t device[GOOSETABLE_DEVICE_SIZE],
    uint64_t peer,
    const uint8_t tag[GOOSETABLE_TAG_SIZE],
    const uint8_t s[GOOSETABLE_TAG_SIZE],
    const uint8_t contacts[GOOSETABLE_CONTACTS_SIZE],
    uint8_t own[GOOSETABLE_OWN_SIZE],
    uint8_t carried[GOOSETABLE_CARRIED_SIZE],
    uint8_t *tombstones,
    size_t tombstones_len,
    uint8_t *actions,
    size_t actions_len);

/*
 * The host opened an envelope that was ours: peer, tag, secret s, the envelope's expiry. The one reply is the tomb; its tombstone is stored as by
 * goosetable_stored_tombstone, with the expiry at most the lifetime's end, and the actions are that call's.
 * Writes: device, tombstones, replies, actions.
 * Refused by: 1 (replies, actions), 2, 5, 6.
 * Stack: 232 bytes.
 */
goosetable_answer goosetable_opened(
    uint8_t device[GOOSETABLE_DEVICE_SIZE],
    uint64_t peer,
    const uint8_t tag[GOOSETABLE_TAG_SIZE],
    const uint8_t s[GOOSETABLE_TAG_SIZE],
    uint32_t expiry,
    const uint8_t contacts[GOOSETABLE_CONTACTS_SIZE],
    uint8_t *tombstones,
    size_t tombstones_len,
    uint8_t *replies,
    size_t replies_len,
    uint8_t *actions,
    size_t actions_len);

/*
 * The host could not open an envelope that was ours. It says MALFORMED and adds the tag to those bad for this peer, once. A bad tag stops the
 * fetches of goosetable_inventory and nothing else.
 * Writes: device, bad_tags.
 * Refused by: 2, 9.
 * Stack: 83 bytes.
 */
goosetable_answer goosetable_failed(
    uint8_t device[GOOSETABLE_DEVICE_SIZE],
    uint64_t peer,
    const uint8_t tag[GOOSETABLE_TAG_SIZE],
    const uint8_t contacts[GOOSETABLE_CONTACTS_SIZE],
    uint8_t *bad_tags,
    size_t bad_tags_len);

/* ---- maintenance */

/*
 * Own rows expired once are renewed, the second time dropped, each with an own put; then held rows with expiry at or before the minute go, each
 * with a delete, by slot.
 * Writes: device, own, carried, tombstones, actions.
 * Refused by: 1 (actions).
 * Stack: 180 bytes.
 */
goosetable_answer goosetable_maintenance(
    uint8_t device[GOOSETABLE_DEVICE_SIZE],
    uint8_t own[GOOSETABLE_OWN_SIZE],
    uint8_t carried[GOOSETABLE_CARRIED_SIZE],
    uint8_t *tombstones,
    size_t tombstones_len,
    uint8_t *actions,
    size_t actions_len);

/* ---- held rows as blobs, and the saved file */

/*
 * The blob of the held row in a slot, and in length its bytes; MISSING if no row has the slot. This is what the host stores for a put.
 * Writes: blob.
 * Refused by: 1 (blob).
 * Stack: 112 bytes.
 */
goosetable_answer goosetable_row_blob(
    const uint8_t device[GOOSETABLE_DEVICE_SIZE],
    uint64_t slot,
    const uint8_t carried[GOOSETABLE_CARRIED_SIZE],
    const uint8_t *tombstones,
    size_t tombstones_len,
    const uint8_t *carried_cells,
    size_t carried_cells_len,
    uint8_t *blob,
    size_t blob_len);

/*
 * The saved file, and in length its bytes: HN and the 8-byte next slot; then for each held row HC (carried) or HT (tombstone), 8-byte slot,
 * 2-byte length, row blob. The area needs 10 + 2,122 per carried cell + 49 R bytes. In areas that no call left, as where fewer cells are lent than
 * before, there may be more carried rows than cells that count: the first so many are saved, and the others are not.
 * Writes: file.
 * Refused by: 1 (file).
 * Stack: 2,312 bytes.
 */
goosetable_answer goosetable_save(
    const uint8_t device[GOOSETABLE_DEVICE_SIZE],
    const uint8_t carried[GOOSETABLE_CARRIED_SIZE],
    const uint8_t *tombstones,
    size_t tombstones_len,
    const uint8_t *carried_cells,
    size_t carried_cells_len,
    uint8_t *file,
    size_t file_len);

/* ---- the screen page */

/*
 * A page for a technicians' screen, counted from 0, and in length its bytes: a line HELD, then a line for each of up to 19 held rows, carried rows
 * and tombstones by rising slot, expired ones too; own rows are not in it. Each row stands on one page, 19 on every page but the last; a page past
 * the last is the line HELD alone, whatever its number. A line has 80 bytes, blanks behind what it says, and a line end (0x0a), the last one too.
 * Its columns, from 1: slot 1 to 20; C (carried) or T (tombstone) 22; the first 8 bytes of the tag in lower-case hex 24 to 39; the minutes to the
 * expiry, or past where the minute has come to it, 41 to 50; copies 52 to 54; depositor 56 to 75. Numbers and past stand to the right; a tombstone
 * has no copies and no depositor. In areas that no call left each row still stands once, in the order in which goosetable_save writes rows.
 * The area needs 1,620 bytes for the shortest page too, and what is behind the page stays. goosetable_device_pages says how many pages have rows.
 * Writes: area.
 * Refused by: 1 (area).
 * Stack: 216 bytes.
 */
goosetable_answer goosetable_page(
    const uint8_t device[GOOSETABLE_DEVICE_SIZE],
    uint64_t page,
    const uint8_t carried[GOOSETABLE_CARRIED_SIZE],
    const uint8_t *tombstones,
    size_t tombstones_len,
    uint8_t *area,
    size_t area_len);

/* ---- a saved file is loaded */

/*
 * Replaces the held rows and the next slot by those of a saved file, nothing else. 8: mark (its kind too), length or place of HN wrong, blob
 * refused (one of which goosetable_row_read says kind 0), slot twice or not below next slot, carried tag twice, unknown depositor, over 256 carried
 * or 32 for one. Rows may stand in any order, but where slots do not rise along the file the time grows with the square of the number of rows
 * (1,024 tombstones: about a hundred times as long). Of areas that calls left, goosetable_save writes no file whose slots do not rise.
 * Writes: device, carried, tombstones, carried_cells.
 * Refused by: 8, 4, 5.
 * Stack: 6,584 bytes.
 */
goosetable_answer goosetable_load(
    uint8_t device[GOOSETABLE_DEVICE_SIZE],
    const uint8_t contacts[GOOSETABLE_CONTACTS_SIZE],
    uint8_t carried[GOOSETABLE_CARRIED_SIZE],
    uint8_t *tombstones,
    size_t tombstones_len,
    uint8_t *carried_cells,
    size_t carried_cells_len,
    const uint8_t *file,
    size_t file_len);

/* ---- functions of their inputs alone */

/*
 * The message keys of one contact that a receiver could still derive, as key rows, and in length how many: the skipped keys (key rows) first, then
 * the chains (chain rows) last to first, each from its next on, 500 at most. In this order the keys need not rise, and rows of it that are lent as
 * they stand meet 12. For a window the host makes of each key row (6 bytes) a window row (30): the contact, the key row as it stands, the key's
 * tag, which goosetable_route_tag gives; goosetable_window_row_put writes it. It puts the window rows of all contacts together, sorts them by
 * their first 14 bytes (contact, direction, generation, index) as memcmp compares them, and keeps one of each key.
 * Writes: answer.
 * Refused by: 1 (answer), 12.
 * Stack: 104 bytes.
 */
goosetable_answer goosetable_window(
    const uint8_t *skipped,
    size_t skipped_len,
    const uint8_t *chains,
    size_t chains_len,
    uint8_t *answer,
    size_t answer_len);

/*
 * The tag of a message key: what envelopes are known by, on the way and in the window. The route key is the contact's: 32 bytes that both ends
 * have from their pairing, the same for all their messages. Direction, generation and index name one message key of theirs: they are the fields of
 * a key row of goosetable_window, and what goosetable_own_envelope is told, which makes its row's tag in the same way. A generation is one chain
 * of keys, the index counts along it.
 * Writes: tag.
 * Refused by: 12.
 * Stack: 5,288 bytes.
 */
goosetable_answer goosetable_route_tag(
    const uint8_t route_key[GOOSETABLE_KEY_SIZE],
    uint8_t dir,
    uint8_t generation,
    uint32_t idx,
    uint8_t tag[GOOSETABLE_TAG_SIZE]);

/*
 * The secret s of a message, from the message key that seals and opens it (not the route key). The sender hands it to goosetable_own_envelope, and
 * whoever opened the message to goosetable_opened: to know it proves that the message arrived.
 * Writes: s.
 * Refused by: nothing.
 * Stack: 6,776 bytes.
 */
void goosetable_delivered(const uint8_t message_key[GOOSETABLE_KEY_SIZE], uint8_t s[GOOSETABLE_TAG_SIZE]);

/*
 * The commitment c that a secret opens. Envelopes have it, those in replies too: a host makes it only to test a secret against an envelope itself.
 * Writes: c.
 * Refused by: nothing.
 * Stack: 4,168 bytes.
 */
void goosetable_commitment(const uint8_t s[GOOSETABLE_TAG_SIZE], uint8_t c[GOOSETABLE_TAG_SIZE]);

/*
 * The held row that a blob is of; kind 0 if it is of none. The blob of a carried row: 0 (1 byte), depositor 8, tag 16, commitment 16, expiry 4,
 * copies 1, and from GOOSETABLE_CARRIED_HEAD on the ciphertext; of a tombstone: 1 (1 byte), tag 16, secret 16, expiry 4. A carried row's ciphertext
 * has 48, 80, 144, 272, 528, 1,040 or 2,064 bytes, and its expiry is above 0: where the lifetime at the start was, as that of goosetable_fresh is,
 * every row that calls left is so, and reads back. Its copies are any number, 0 where all were handed on. A tombstone's expiry is any number, 0 too.
 * Writes: nothing.
 * Refused by: nothing.
 * Stack: 152 bytes.
 */
goosetable_row goosetable_row_read(const uint8_t *blob, size_t blob_len);

/* ---- the version */

/* Of header and library alike. The first two numbers change whenever a struct, a size, what a number means or a function's parameters do. */
#define GOOSETABLE_VERSION "0.2.7"
#define GOOSETABLE_VERSION_MAJOR 0
#define GOOSETABLE_VERSION_MINOR 2
#define GOOSETABLE_VERSION_PATCH 7

/*
 * The version of the library: major * 10,000 + minor * 100 + patch. Its name has the first two numbers.
 * Writes: nothing.
 * Refused by: nothing.
 * Stack: 8 bytes.
 */
uint32_t goosetable_version_0_2(void);

/*
 * Every file that includes this header refers to that function, by a pointer that nothing reads: what was compiled with a header of other first two
 * numbers does not link with the library ("undefined reference to goosetable_version_..."), where it would else lend areas that the library reads
 * in another way. The attributes hold the pointer against a compiler and a linker (--gc-sections) that leave out what is not used.
 */
#if defined __has_attribute
#if __has_attribute(retain)
#define GOOSETABLE_KEPT __attribute__((used, retain))
#endif
#endif
#ifndef GOOSETABLE_KEPT
#define GOOSETABLE_KEPT __attribute__((used))
#endif
static uint32_t (*const goosetable_version_linked)(void) GOOSETABLE_KEPT = goosetable_version_0_2;

/* ---- reading answers, the device, an exchange and rows */

/* The name of what a call says, as above in lower case ("short area", "ours"); "unknown" of a number that none says. */
static inline const char *goosetable_said_name(uint8_t said)
{
    switch (said) {
    case GOOSETABLE_DONE: return "done";
    case GOOSETABLE_REFUSED_SHORT_AREA: return "short area";
    case GOOSETABLE_REFUSED_UNKNOWN_CONTACT: return "unknown contact";
    case GOOSETABLE_REFUSED_WRONG_EXCHANGE: return "wrong exchange";
    case GOOSETABLE_REFUSED_NO_CELL: return "no cell";
    case GOOSETABLE_REFUSED_NO_TOMBSTONE_ROW: return "no tombstone row";
    case GOOSETABLE_REFUSED_NO_SLOT: return "no slot";
    case GOOSETABLE_REFUSED_CONFIGURATION: return "configuration";
    case GOOSETABLE_REFUSED_SAVED_FILE: return "saved file";
    case GOOSETABLE_REFUSED_NO_BAD_TAG_ROW: return "no bad tag row";
    case GOOSETABLE_REFUSED_MESSAGE_NUMBER_TAKEN: return "message number taken";
    case GOOSETABLE_REFUSED_OWN_LENGTH: return "own length";
    case GOOSETABLE_REFUSED_WINDOW_ROWS: return "window rows";
    case GOOSETABLE_REFUSED_LOG_RECORD: return "log record";
    case GOOSETABLE_MALFORMED: return "malformed";
    case GOOSETABLE_OURS: return "ours";
    case GOOSETABLE_MISSING: return "missing";
    case GOOSETABLE_NO_ENVELOPE: return "no envelope";
    default: return "unknown";
    }
}

/* The number in the first width bytes, at most 8. */
static inline uint64_t goosetable_number(const uint8_t *bytes, size_t width)
{
    uint64_t number = 0;
    size_t i;
    for (i = 0; i < width; i++)
        number = number << 8 | bytes[i];
    return number;
}

/* A count of rows: the number in 8 bytes, or what fits if it is above. */
static inline size_t goosetable_count(const uint8_t *bytes, size_t fit)
{
    uint64_t count = goosetable_number(bytes, 8);
    return count < fit ? (size_t)count : fit;
}

/* The device. How many tombstones and bad tags there are depends on what fits their areas. */
static inline int goosetable_device_enabled(const uint8_t *device) { return device[0] != 0; }
static inline uint8_t goosetable_device_copies(const uint8_t *device) { return device[1]; }
static inline uint16_t goosetable_device_lifetime(const uint8_t *device) { return (uint16_t)goosetable_number(device + 2, 2); }
static inline uint64_t goosetable_device_clock(const uint8_t *device) { return goosetable_number(device + 4, 8); }
static inline size_t goosetable_device_contacts(const uint8_t *device) { return goosetable_count(device + 12, GOOSETABLE_MAX_ROWS); }
static inline size_t goosetable_device_own(const uint8_t *device) { return goosetable_count(device + 20, GOOSETABLE_MAX_ROWS); }
static inline size_t goosetable_device_carried(const uint8_t *device) { return goosetable_count(device + 28, GOOSETABLE_MAX_ROWS); }
static inline size_t goosetable_device_tombstones(const uint8_t *device, size_t tombstones_len)
{
    return goosetable_count(device + 36, tombstones_len / GOOSETABLE_TOMBSTONE_ROW);
}
static inline size_t goosetable_device_bad_tags(const uint8_t *device, size_t bad_tags_len)
{
    return goosetable_count(device + 44, bad_tags_len / GOOSETABLE_BAD_TAG_ROW);
}
static inline uint64_t goosetable_device_next_slot(const uint8_t *device) { return goosetable_number(device + 52, 8); }

/* How many screen pages have rows: 0 where no row is held. */
static inline uint64_t goosetable_device_pages(const uint8_t *device, size_t tombstones_len)
{
    uint64_t rows = (uint64_t)goosetable_device_carried(device) + goosetable_device_tombstones(device, tombstones_len);
    return (rows + GOOSETABLE_PAGE_ROWS - 1) / GOOSETABLE_PAGE_ROWS;
}

/* An exchange: its peer counts if it was opened. */
static inline int goosetable_exchange_opened(const uint8_t *exchange) { return exchange[0] != 0; }
static inline int goosetable_exchange_complete(const uint8_t *exchange) { return exchange[1] != 0; }
static inline uint64_t goosetable_exchange_peer(const uint8_t *exchange) { return goosetable_number(exchange + 2, 8); }
static inline size_t goosetable_exchange_listed(const uint8_t *exchange) { return goosetable_count(exchange + 10, GOOSETABLE_MAX_LISTED); }
static inline size_t goosetable_exchange_offers(const uint8_t *exchange) { return goosetable_count(exchange + 18, GOOSETABLE_MAX_LISTED); }

/* One row of a table, which begins at its area + i * GOOSETABLE_..._ROW; an own row also where goosetable_own_envelope wrote it. */
static inline uint64_t goosetable_contact_id(const uint8_t *row) { return goosetable_number(row, 8); }
static inline uint8_t goosetable_contact_verification(const uint8_t *row) { return row[8]; }

static inline uint64_t goosetable_own_contact(const uint8_t *row) { return goosetable_number(row, 8); }
static inline uint32_t goosetable_own_msgno(const uint8_t *row) { return (uint32_t)goosetable_number(row + 8, 4); }
static inline const uint8_t *goosetable_own_tag(const uint8_t *row) { return row + 12; }
static inline const uint8_t *goosetable_own_secret(const uint8_t *row) { return row + 28; }
static inline uint32_t goosetable_own_expiry(const uint8_t *row) { return (uint32_t)goosetable_number(row + 44, 4); }
static inline uint8_t goosetable_own_copies(const uint8_t *row) { return row[48]; }
static inline int goosetable_own_renewed(const uint8_t *row) { return row[49] != 0; }
static inline uint16_t goosetable_own_length(const uint8_t *row) { return (uint16_t)goosetable_number(row + 50, 2); }
static inline uint16_t goosetable_own_cell(const uint8_t *row) { return (uint16_t)goosetable_number(row + 52, 2); }

static inline uint64_t goosetable_carried_slot(const uint8_t *row) { return goosetable_number(row, 8); }
static inline uint64_t goosetable_carried_depositor(const uint8_t *row) { return goosetable_number(row + 8, 8); }
static inline const uint8_t *goosetable_carried_tag(const uint8_t *row) { return row + 16; }
static inline const uint8_t *goosetable_carried_commitment(const uint8_t *row) { return row + 32; }
static inline uint32_t goosetable_carried_expiry(const uint8_t *row) { return (uint32_t)goosetable_number(row + 48, 4); }
static inline uint8_t goosetable_carried_copies(const uint8_t *row) { return row[52]; }
static inline uint16_t goosetable_carried_length(const uint8_t *row) { return (uint16_t)goosetable_number(row + 53, 2); }
static inline uint16_t goosetable_carried_cell(const uint8_t *row) { return (uint16_t)goosetable_number(row + 55, 2); }

static inline uint64_t goosetable_tombstone_slot(const uint8_t *row) { return goosetable_number(row, 8); }
static inline const uint8_t *goosetable_tombstone_tag(const uint8_t *row) { return row + 8; }
static inline const uint8_t *goosetable_tombstone_secret(const uint8_t *row) { return row + 24; }
static inline uint32_t goosetable_tombstone_expiry(const uint8_t *row) { return (uint32_t)goosetable_number(row + 40, 4); }

static inline uint64_t goosetable_bad_tag_peer(const uint8_t *row) { return goosetable_number(row, 8); }
static inline const uint8_t *goosetable_bad_tag_tag(const uint8_t *row) { return row + 8; }

static inline const uint8_t *goosetable_offer_tag(const uint8_t *row) { return row; }
static inline uint8_t goosetable_offer_copies(const uint8_t *row) { return row[16]; }

/* A key row of goosetable_window: what goosetable_route_tag needs beside the contact's route key. */
static inline uint8_t goosetable_key_direction(const uint8_t *row) { return row[0]; }
static inline uint8_t goosetable_key_generation(const uint8_t *row) { return row[1]; }
static inline uint32_t goosetable_key_index(const uint8_t *row) { return (uint32_t)goosetable_number(row + 2, 4); }

/* A window row. Its key row is the 6 bytes from byte 8 on. */
static inline uint64_t goosetable_window_contact(const uint8_t *row) { return goosetable_number(row, 8); }
static inline uint8_t goosetable_window_direction(const uint8_t *row) { return row[8]; }
static inline uint8_t goosetable_window_generation(const uint8_t *row) { return row[9]; }
static inline uint32_t goosetable_window_index(const uint8_t *row) { return (uint32_t)goosetable_number(row + 10, 4); }
static inline const uint8_t *goosetable_window_tag(const uint8_t *row) { return row + 14; }

/* Writes a window row: the contact, a key row of goosetable_window as it stands, the tag that goosetable_route_tag gives for it. */
static inline void goosetable_window_row_put(uint8_t *row, uint64_t contact, const uint8_t *key, const uint8_t *tag)
{
    size_t i;
    for (i = 0; i < 8; i++)
        row[i] = (uint8_t)(contact >> (56 - 8 * i));
    for (i = 0; i < GOOSETABLE_KEY_ROW; i++)
        row[8 + i] = key[i];
    for (i = 0; i < GOOSETABLE_TAG_SIZE; i++)
        row[14 + i] = tag[i];
}

/* Reply row i of an area: its kind, its cell, its body of GOOSETABLE_BODY_SIZE bytes. */
static inline uint8_t goosetable_reply_kind(const uint8_t *replies, size_t i)
{
    return replies[i * GOOSETABLE_REPLY_ROW];
}

static inline uint16_t goosetable_reply_cell(const uint8_t *replies, size_t i)
{
    return (uint16_t)goosetable_number(replies + i * GOOSETABLE_REPLY_ROW + 1, 2);
}

static inline const uint8_t *goosetable_reply_body(const uint8_t *replies, size_t i)
{
    return replies + i * GOOSETABLE_REPLY_ROW + 3;
}

/* A body: the tag of any; the code of a custody reply; the secret of a tomb; and of an envelope, where it is the header that is sent, the rest. */
static inline const uint8_t *goosetable_body_tag(const uint8_t *body) { return body; }
static inline uint8_t goosetable_body_code(const uint8_t *body) { return body[16]; }
static inline const uint8_t *goosetable_body_secret(const uint8_t *body) { return body + 16; }
static inline const uint8_t *goosetable_body_commitment(const uint8_t *body) { return body + 16; }
static inline uint32_t goosetable_body_expiry(const uint8_t *body) { return (uint32_t)goosetable_number(body + 32, 4); }
static inline uint8_t goosetable_body_copies(const uint8_t *body) { return body[36]; }

/* Action row i of an area: its kind, its slot or contact, its message number. */
static inline uint8_t goosetable_action_kind(const uint8_t *actions, size_t i)
{
    return actions[i * GOOSETABLE_ACTION_ROW];
}

static inline uint64_t goosetable_action_number(const uint8_t *actions, size_t i)
{
    return goosetable_number(actions + i * GOOSETABLE_ACTION_ROW + 1, 8);
}

static inline uint32_t goosetable_action_msgno(const uint8_t *actions, size_t i)
{
    return (uint32_t)goosetable_number(actions + i * GOOSETABLE_ACTION_ROW + 9, 4);
}

/* ---- the ciphertext of a reply's envelope */

/*
 * Where the cell of a reply begins in its area, which is the carried cells' from GOOSETABLE_MAX_ROWS on, else the own cells'. Nothing lies in a
 * cell that is neither, as GOOSETABLE_NO_CELL is, and it begins at 0.
 */
static inline size_t goosetable_cell_start(uint16_t cell)
{
    if (cell >= 2 * GOOSETABLE_MAX_ROWS)
        return 0;
    return GOOSETABLE_CELLS_SIZE(cell < GOOSETABLE_MAX_ROWS ? cell : cell - GOOSETABLE_MAX_ROWS);
}

/* Where the ciphertext of reply row i begins, if it has any: goosetable_ciphertext_length says how long it is. */
static inline const uint8_t *goosetable_ciphertext(
    const uint8_t *own_cells, const uint8_t *carried_cells, const uint8_t *replies, size_t i)
{
    uint16_t cell = goosetable_reply_cell(replies, i);
    return (cell < GOOSETABLE_MAX_ROWS ? own_cells : carried_cells) + goosetable_cell_start(cell);
}

/* Are two tags the same? */
static inline int goosetable_same_tag(const uint8_t *a, const uint8_t *b)
{
    return goosetable_number(a, 8) == goosetable_number(b, 8) && goosetable_number(a + 8, 8) == goosetable_number(b + 8, 8);
}

/* The length that the first own row, or the first carried row, of a tag and a cell has; 0 if there is none. */
static inline size_t goosetable_own_length_of(const uint8_t *device, const uint8_t *own, const uint8_t *tag, uint16_t cell)
{
    const uint8_t *row, *end = own + goosetable_device_own(device) * GOOSETABLE_OWN_ROW;
    for (row = own; row < end; row += GOOSETABLE_OWN_ROW)
        if (goosetable_own_cell(row) == cell && goosetable_same_tag(goosetable_own_tag(row), tag))
            return goosetable_own_length(row);
    return 0;
}

static inline size_t goosetable_carried_length_of(const uint8_t *device, const uint8_t *carried, const uint8_t *tag, uint16_t cell)
{
    const uint8_t *row, *end = carried + goosetable_device_carried(device) * GOOSETABLE_CARRIED_ROW;
    for (row = carried; row < end; row += GOOSETABLE_CARRIED_ROW)
        if (goosetable_carried_cell(row) == cell && goosetable_same_tag(goosetable_carried_tag(row), tag))
            return goosetable_carried_length(row);
    return 0;
}

/*
 * How long the ciphertext of reply row i is, by the row with its tag that names its cell: 0 if it is no envelope's, or of GOOSETABLE_NO_CELL, or
 * if the row has gone since the call that replied (its cell may then have another ciphertext). Never more than lies in the cell and the area.
 */
static inline size_t goosetable_ciphertext_length(
    const uint8_t *device,
    const uint8_t *own,
    const uint8_t *carried,
    size_t own_cells_len,
    size_t carried_cells_len,
    const uint8_t *replies,
    size_t i)
{
    const uint8_t *tag = goosetable_body_tag(goosetable_reply_body(replies, i));
    uint16_t cell = goosetable_reply_cell(replies, i);
    size_t start = goosetable_cell_start(cell), length, room;
    if (goosetable_reply_kind(replies, i) != GOOSETABLE_REPLY_ENVELOPE || cell >= 2 * GOOSETABLE_MAX_ROWS)
        return 0;
    if (cell < GOOSETABLE_MAX_ROWS) {
        length = goosetable_own_length_of(device, own, tag, cell);
        room = own_cells_len;
    } else {
        length = goosetable_carried_length_of(device, carried, tag, (uint16_t)(cell - GOOSETABLE_MAX_ROWS));
        room = carried_cells_len;
    }
    room = room < start ? 0 : room - start;
    if (room > GOOSETABLE_CELL_SIZE)
        room = GOOSETABLE_CELL_SIZE;
    return length < room ? length : room;
}

#ifdef __cplusplus
}
#endif

#endif
