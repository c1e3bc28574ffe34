/*
 * Tests of the header's readers on what calls left: each value beside the one that the calls were given, or that the call itself says; of tags,
 * secrets and commitments; of screen pages; of how a window is made; of how many rows an inventory's end searches the tombstones for; of which
 * tombstone goes for another; of a row whose copies were all handed on, which is saved and read back; and of a post in static memory. It prints how
 * many were compared, or the first that differs.
 *
 * Where the host itself sets or reports something the calls are those of goosetable.h, which name each area; the others are those of
 * goosetable_post.h.
 */
#include "post.h"

#include <inttypes.h>
#include <stdio.h>
#include <stdlib.h>
#include <string.h>

#define PEER 0x0102030405060708u
#define OTHER 0xf1f2f3f4f5f6f7f8u
#define MINUTE 10
#define LIFETIME 300
#define TOMBSTONES_LEN GOOSETABLE_TOMBSTONES_SIZE(TOMBSTONES)
#define BAD_TAGS_LEN GOOSETABLE_BAD_TAGS_SIZE(BAD_TAGS)

static const uint8_t key[GOOSETABLE_KEY_SIZE] = "the key of this pair of phones";
static const uint8_t secret[GOOSETABLE_TAG_SIZE] = "it was delivered";
static const uint8_t commitment[GOOSETABLE_TAG_SIZE] = "of some secret..";
static const uint8_t tags[][GOOSETABLE_TAG_SIZE] = {"the first tag...", "the second tag..", "the third tag...", "the fourth tag.."};
static uint8_t own_ct[80], carried_ct[144];
static struct post host;
static goosetable_post *const post = &host.areas;
static goosetable_session *exchange;
static int compared;

static void differs(const char *what)
{
    printf("examples/c/readers: %s\n", what);
    exit(1);
}

static void is(const char *what, uint64_t read, uint64_t expected)
{
    compared++;
    if (read != expected) {
        fprintf(stderr, "read %" PRIu64 ", expected %" PRIu64 "\n", read, expected);
        differs(what);
    }
}

static void are(const char *what, const uint8_t *read, const uint8_t *expected, size_t len)
{
    compared++;
    if (memcmp(read, expected, len))
        differs(what);
}

static void said(const char *what, goosetable_answer a, uint8_t expected)
{
    compared++;
    if (a.said != expected) {
        fprintf(stderr, "said %d (%s), expected %d (%s)\n", a.said, goosetable_said_name(a.said), expected, goosetable_said_name(expected));
        differs(what);
    }
}

/* ---- functions of their inputs alone */

/* Two tags of the key above, its secret and that one's commitment, as Python's hmac and hashlib compute them by the formulas of docs/HOST.md. */
static const uint8_t tag_of_7[] = {0x6f, 0xdd, 0x68, 0x75, 0xff, 0xc7, 0xc3, 0xad, 0x3d, 0xca, 0x87, 0x7e, 0xdc, 0x77, 0x13, 0x31};
static const uint8_t tag_of_last[] = {0xe2, 0xc9, 0x9c, 0xbc, 0xff, 0x9f, 0xe8, 0x3b, 0x3a, 0x7a, 0xea, 0x28, 0x2e, 0xff, 0x48, 0xf7};
static const uint8_t secret_of_key[] = {0x90, 0x56, 0xec, 0xbc, 0x42, 0xfb, 0x9a, 0x6c, 0x07, 0x57, 0xe2, 0x52, 0xdb, 0x8a, 0xbf, 0xc4};
static const uint8_t commitment_of_secret[] = {0xdc, 0xc9, 0x29, 0xaf, 0x93, 0xb3, 0xb0, 0x77, 0xcf, 0xf1, 0x96, 0x23, 0xb2, 0xd1, 0x34, 0x4e};

static void compute(void)
{
    uint8_t *made = area(GOOSETABLE_TAG_SIZE);
    said("a tag", goosetable_route_tag(key, GOOSETABLE_DIRECTION_I, 0, 7, made), GOOSETABLE_DONE);
    are("it is", made, tag_of_7, GOOSETABLE_TAG_SIZE);
    said("the last tag", goosetable_route_tag(key, GOOSETABLE_DIRECTION_R, 255, 0xffffffff, made), GOOSETABLE_DONE);
    are("it is", made, tag_of_last, GOOSETABLE_TAG_SIZE);
    said("a direction that is none", goosetable_route_tag(key, 'i', 0, 7, made), GOOSETABLE_REFUSED_WINDOW_ROWS);
    are("the area stays", made, tag_of_last, GOOSETABLE_TAG_SIZE);
    goosetable_delivered(key, made);
    are("a secret", made, secret_of_key, GOOSETABLE_TAG_SIZE);
    goosetable_commitment(secret_of_key, made);
    are("its commitment", made, commitment_of_secret, GOOSETABLE_TAG_SIZE);
    is("the version", goosetable_version_linked(),
       GOOSETABLE_VERSION_MAJOR * 10000 + GOOSETABLE_VERSION_MINOR * 100 + GOOSETABLE_VERSION_PATCH);
    free(made);
}

/* ---- the device and its tables */

static void read_counts(size_t contacts, size_t own, size_t carried, size_t tombstones, size_t bad_tags)
{
    is("contacts", goosetable_device_contacts(post->device), contacts);
    is("own rows", goosetable_device_own(post->device), own);
    is("carried rows", goosetable_device_carried(post->device), carried);
    is("tombstones", goosetable_post_tombstones(post), tombstones);
    is("bad tags", goosetable_post_bad_tags(post), bad_tags);
}

static void read_device(int enabled, uint8_t copies, uint16_t lifetime, uint64_t clock, uint64_t next_slot)
{
    is("enabled", (uint64_t)goosetable_device_enabled(post->device), (uint64_t)enabled);
    is("copies", goosetable_device_copies(post->device), copies);
    is("lifetime", goosetable_device_lifetime(post->device), lifetime);
    is("clock", goosetable_device_clock(post->device), clock);
    is("next slot", goosetable_device_next_slot(post->device), next_slot);
}

static void set_up(void)
{
    read_device(1, 6, 1440, 0, 0);
    read_counts(0, 0, 0, 0, 0);
    said("copies 17", goosetable_setting(post->device, 1, 17, LIFETIME), GOOSETABLE_REFUSED_CONFIGURATION);
    said("a setting", goosetable_setting(post->device, 0, 9, LIFETIME), GOOSETABLE_DONE);
    said("the clock", goosetable_clock(post->device, 60 * MINUTE + 59), GOOSETABLE_DONE);
    read_device(0, 9, LIFETIME, 60 * MINUTE + 59, 0);
    said("enabled", goosetable_setting(post->device, 1, 9, LIFETIME), GOOSETABLE_DONE);
    said("a contact", goosetable_contact(post->device, PEER, GOOSETABLE_VERIFIED, post->contacts), GOOSETABLE_DONE);
    said("another", goosetable_contact(post->device, OTHER, GOOSETABLE_COMPROMISED, post->contacts), GOOSETABLE_DONE);
    read_counts(2, 0, 0, 0, 0);
    is("contact 0", goosetable_contact_id(post->contacts), PEER);
    is("its verification", goosetable_contact_verification(post->contacts), GOOSETABLE_VERIFIED);
    is("contact 1", goosetable_contact_id(post->contacts + GOOSETABLE_CONTACT_ROW), OTHER);
    is("its verification", goosetable_contact_verification(post->contacts + GOOSETABLE_CONTACT_ROW), GOOSETABLE_COMPROMISED);
}

/* An own row for the other contact, read where it was written and where it is held. */
static void read_own(const uint8_t *row, uint32_t msgno, uint16_t length, uint16_t cell, int renewed)
{
    is("own contact", goosetable_own_contact(row), OTHER);
    is("own message number", goosetable_own_msgno(row), msgno);
    are("own secret", goosetable_own_secret(row), secret, sizeof secret);
    is("own expiry", goosetable_own_expiry(row), (renewed ? MINUTE + LIFETIME : MINUTE) + LIFETIME);
    is("own copies", goosetable_own_copies(row), 9);
    is("own renewed", (uint64_t)goosetable_own_renewed(row), (uint64_t)renewed);
    is("own length", goosetable_own_length(row), length);
    is("own cell", goosetable_own_cell(row), cell);
}

static void own_envelope(uint32_t msgno, uint16_t length, uint8_t *row)
{
    said("own envelope", goosetable_own_envelope(post->device, OTHER, msgno, key, GOOSETABLE_DIRECTION_R, 3, msgno, secret, own_ct, length,
                                                 post->contacts, post->own, post->own_cells, GOOSETABLE_CELLS_SIZE(CELLS), row), GOOSETABLE_DONE);
}

static void add_own(uint32_t msgno, uint16_t length, uint16_t cell)
{
    uint8_t *row = area(GOOSETABLE_OWN_ROW), made[GOOSETABLE_TAG_SIZE];
    const uint8_t *held = post->own + goosetable_device_own(post->device) * GOOSETABLE_OWN_ROW;
    own_envelope(msgno, length, row);
    said("its tag", goosetable_route_tag(key, GOOSETABLE_DIRECTION_R, 3, msgno, made), GOOSETABLE_DONE);
    are("own tag", goosetable_own_tag(row), made, GOOSETABLE_TAG_SIZE);
    read_own(row, msgno, length, cell, 0);
    read_own(held, msgno, length, cell, 0);
    are("own tag", goosetable_own_tag(held), goosetable_own_tag(row), GOOSETABLE_TAG_SIZE);
    free(row);
}

/* ---- envelopes */

static size_t ciphertext_length(const uint8_t *replies, size_t i)
{
    return goosetable_post_ciphertext_length(post, replies, i);
}

static struct envelope envelope(const uint8_t *tag, uint16_t length)
{
    struct envelope e;
    memcpy(e.header, tag, GOOSETABLE_TAG_SIZE);
    memcpy(e.header + 16, commitment, sizeof commitment);
    memset(e.header + 32, 1, 4);
    e.header[36] = 7;
    e.ct = carried_ct;
    e.ct_len = length;
    return e;
}

/* A peer's envelope, which is accepted: its code, its put, and its row. */
static void add_carried(const uint8_t *tag, uint16_t length, uint64_t slot, uint16_t cell)
{
    struct envelope e = envelope(tag, length);
    goosetable_answer a = goosetable_post_envelope(post, OTHER, e.header, e.ct, e.ct_len);
    const uint8_t *row = post->carried + (goosetable_device_carried(post->device) - 1) * GOOSETABLE_CARRIED_ROW;
    said("envelope", a, GOOSETABLE_DONE);
    is("a code", goosetable_reply_kind(post->replies, 0), GOOSETABLE_REPLY_CUSTODY);
    are("its tag", goosetable_body_tag(goosetable_reply_body(post->replies, 0)), tag, GOOSETABLE_TAG_SIZE);
    is("it is", goosetable_body_code(goosetable_reply_body(post->replies, 0)), GOOSETABLE_CUSTODY_ACCEPTED);
    is("no ciphertext", ciphertext_length(post->replies, 0), 0);
    is("a put", goosetable_action_kind(post->actions, 0), GOOSETABLE_ACTION_PUT);
    is("of the slot", goosetable_action_number(post->actions, 0), slot);
    is("next slot", goosetable_device_next_slot(post->device), slot + 1);
    is("carried slot", goosetable_carried_slot(row), slot);
    is("carried depositor", goosetable_carried_depositor(row), OTHER);
    are("carried tag", goosetable_carried_tag(row), tag, GOOSETABLE_TAG_SIZE);
    are("carried commitment", goosetable_carried_commitment(row), commitment, sizeof commitment);
    is("carried expiry", goosetable_carried_expiry(row), MINUTE + LIFETIME);
    is("carried copies", goosetable_carried_copies(row), 7);
    is("carried length", goosetable_carried_length(row), length);
    is("carried cell", goosetable_carried_cell(row), cell);
    said("once more", goosetable_post_envelope(post, OTHER, e.header, e.ct, e.ct_len), GOOSETABLE_DONE);
    is("it is", goosetable_body_code(goosetable_reply_body(post->replies, 0)), GOOSETABLE_CUSTODY_DUPLICATE);
}

/* An envelope in reply row i: its header and its ciphertext. */
static void read_envelope(size_t i, uint16_t cell, const uint8_t *ct, size_t length, uint32_t expiry, uint8_t copies)
{
    const uint8_t *body = goosetable_reply_body(post->replies, i);
    is("an envelope", goosetable_reply_kind(post->replies, i), GOOSETABLE_REPLY_ENVELOPE);
    is("its cell", goosetable_reply_cell(post->replies, i), cell);
    is("its expiry", goosetable_body_expiry(body), expiry);
    is("its copies", goosetable_body_copies(body), copies);
    is("its length", ciphertext_length(post->replies, i), length);
    are("its ciphertext", goosetable_post_ciphertext(post, post->replies, i), ct, length);
}

/* A fetch: the reader has the length that the call says. */
static void fetch(const uint8_t *tag, uint16_t cell, const uint8_t *ct, size_t length, uint8_t copies)
{
    goosetable_answer a = goosetable_post_fetch(post, PEER, tag);
    said("fetch", a, GOOSETABLE_DONE);
    is("the fetch's length", a.length, length);
    read_envelope(0, cell, ct, length, MINUTE + LIFETIME, copies);
    are("its tag", goosetable_body_tag(goosetable_reply_body(post->replies, 0)), tag, GOOSETABLE_TAG_SIZE);
}

/* ---- an exchange */

static void read_exchange(int opened, int complete, uint64_t peer, size_t listed, size_t offers)
{
    is("opened", (uint64_t)goosetable_exchange_opened(exchange->exchange), (uint64_t)opened);
    is("complete", (uint64_t)goosetable_exchange_complete(exchange->exchange), (uint64_t)complete);
    is("peer", goosetable_exchange_peer(exchange->exchange), peer);
    is("listed", goosetable_exchange_listed(exchange->exchange), listed);
    is("offers", goosetable_exchange_offers(exchange->exchange), offers);
}

/* A list of the prefix of a tag, or the terminator: what it says, how many replies it has, and for how many rows the tombstones were searched. */
static void list(uint64_t peer, const uint8_t *tag, uint8_t expected, size_t replies, size_t searched)
{
    goosetable_answer a = goosetable_post_inventory(post, exchange, peer, tag ? tag : tags[0], tag ? GOOSETABLE_PREFIX_SIZE : 0);
    said(tag ? "a list" : "the terminator", a, expected);
    is("its replies", a.replies, replies);
    is("rows searched for", a.length, searched);
}

/* The offers of two own and two carried rows, all read while the replies stand. One is accepted, and one's row goes. */
static void exchange_all(void)
{
    goosetable_answer a;
    read_exchange(0, 0, 0, 0, 0);
    said("fresh exchange", goosetable_post_fresh_exchange(post, exchange, PEER), GOOSETABLE_DONE);
    list(PEER, tags[3], GOOSETABLE_DONE, 0, 0);
    read_exchange(1, 0, PEER, 1, 0);
    list(PEER, NULL, GOOSETABLE_DONE, 4, 4);
    read_exchange(1, 1, PEER, 0, 4);
    read_envelope(0, 0, own_ct, 48, MINUTE + LIFETIME, 4);
    read_envelope(1, 1, own_ct, 80, MINUTE + LIFETIME, 4);
    read_envelope(2, GOOSETABLE_MAX_ROWS, carried_ct, 48, MINUTE + LIFETIME, 3);
    read_envelope(3, GOOSETABLE_MAX_ROWS + 1, carried_ct, 144, MINUTE + LIFETIME, 3);
    are("a commitment", goosetable_body_commitment(goosetable_reply_body(post->replies, 2)), commitment, sizeof commitment);
    are("an offer's tag", goosetable_offer_tag(exchange->offers + 3 * GOOSETABLE_OFFER_ROW), tags[1], GOOSETABLE_TAG_SIZE);
    is("an offer's copies", goosetable_offer_copies(exchange->offers + 3 * GOOSETABLE_OFFER_ROW), 3);

    a = goosetable_post_custody_code(post, exchange, PEER, goosetable_own_tag(post->own), GOOSETABLE_CUSTODY_ACCEPTED);
    said("a code", a, GOOSETABLE_DONE);
    is("an own put", goosetable_action_kind(post->actions, 0), GOOSETABLE_ACTION_OWN_PUT);
    is("of its contact", goosetable_action_number(post->actions, 0), OTHER);
    is("and message", goosetable_action_msgno(post->actions, 0), 7);
    read_exchange(1, 1, PEER, 0, 3);
    is("copies left", goosetable_own_copies(post->own), 5);
}

/* ---- deliveries */

static void read_tombstone(size_t i, uint64_t slot, const uint8_t *tag)
{
    const uint8_t *row = post->tombstones + i * GOOSETABLE_TOMBSTONE_ROW;
    is("tombstone slot", goosetable_tombstone_slot(row), slot);
    are("tombstone tag", goosetable_tombstone_tag(row), tag, GOOSETABLE_TAG_SIZE);
    are("tombstone secret", goosetable_tombstone_secret(row), secret, sizeof secret);
    is("tombstone expiry", goosetable_tombstone_expiry(row), MINUTE + LIFETIME);
}

static void deliver(void)
{
    goosetable_answer a = goosetable_post_opened(post, PEER, tags[2], secret, 100000);
    said("opened", a, GOOSETABLE_DONE);
    is("a tomb", goosetable_reply_kind(post->replies, 0), GOOSETABLE_REPLY_TOMB);
    are("of the tag", goosetable_body_tag(goosetable_reply_body(post->replies, 0)), tags[2], GOOSETABLE_TAG_SIZE);
    are("and secret", goosetable_body_secret(goosetable_reply_body(post->replies, 0)), secret, sizeof secret);
    read_tombstone(0, 2, tags[2]);
    a = goosetable_failed(post->device, PEER, tags[3], post->contacts, post->bad_tags, BAD_TAGS_LEN);
    said("failed", a, GOOSETABLE_MALFORMED);
    is("bad for", goosetable_bad_tag_peer(post->bad_tags), PEER);
    are("bad tag", goosetable_bad_tag_tag(post->bad_tags), tags[3], GOOSETABLE_TAG_SIZE);
    read_counts(2, 2, 2, 1, 1);
}

/* ---- the screen page */

/* A page with so many rows: its bytes, where its lines end, and that what is behind it stays. */
static void read_page(uint64_t page, size_t rows)
{
    uint8_t *screen = memset(area(GOOSETABLE_PAGE_SIZE), 255, GOOSETABLE_PAGE_SIZE);
    uint8_t *before = memset(area(GOOSETABLE_PAGE_SIZE), 255, GOOSETABLE_PAGE_SIZE);
    goosetable_answer a = goosetable_post_page(post, page, screen);
    size_t line;
    said("a page", a, GOOSETABLE_DONE);
    is("its bytes", a.length, GOOSETABLE_PAGE_LINE * (1 + rows));
    are("its heading", screen, (const uint8_t *)"HELD ", 5);
    for (line = 0; line <= rows; line++)
        is("the end of a line", screen[line * GOOSETABLE_PAGE_LINE + GOOSETABLE_PAGE_LINE - 1], '\n');
    are("what is behind it", screen + a.length, before + a.length, GOOSETABLE_PAGE_SIZE - a.length);
    said("a short area", goosetable_page(post->device, page, post->carried, post->tombstones, TOMBSTONES_LEN, before, GOOSETABLE_PAGE_SIZE - 1),
         GOOSETABLE_REFUSED_SHORT_AREA);
    is("it stays", before[0], 255);
    free(before);
    free(screen);
}

/* Pages of some held rows: all of them, and past the last. */
static void read_pages(size_t rows)
{
    uint64_t page, pages = goosetable_post_pages(post);
    is("pages", pages, (rows + 18) / 19);
    for (page = 0; page < pages; page++)
        read_page(page, page + 1 < pages ? GOOSETABLE_PAGE_ROWS : rows - page * GOOSETABLE_PAGE_ROWS);
    read_page(pages, 0);
    read_page(UINT64_MAX, 0);
}

/* ---- a window */

static int by_key(const void *a, const void *b)
{
    return memcmp(a, b, 14);
}

static void put_window_row(uint8_t *row, const uint8_t *key_row)
{
    uint8_t made[GOOSETABLE_TAG_SIZE];
    said("a key's tag", goosetable_route_tag(key, goosetable_key_direction(key_row), goosetable_key_generation(key_row),
                                             goosetable_key_index(key_row), made), GOOSETABLE_DONE);
    goosetable_window_row_put(row, PEER, key_row, made);
    is("window contact", goosetable_window_contact(row), PEER);
    is("window direction", goosetable_window_direction(row), goosetable_key_direction(key_row));
    is("window generation", goosetable_window_generation(row), goosetable_key_generation(key_row));
    is("window index", goosetable_window_index(row), goosetable_key_index(key_row));
    are("window tag", goosetable_window_tag(row), made, GOOSETABLE_TAG_SIZE);
}

/* The keys of two chains as window rows: refused as the window call lists them, and taken when they are sorted. */
static void sort_window(void)
{
    static const uint8_t chains[2 * GOOSETABLE_CHAIN_ROW] = {'I', 0, 0, 0, 0, 0, 0, 0, 0, 7, 'I', 1, 0, 0, 0, 0, 0xff, 0xff, 0xff, 0xfe};
    struct envelope e;
    uint8_t *keys = area(GOOSETABLE_KEYS_SIZE), of_first[GOOSETABLE_TAG_SIZE], *window;
    goosetable_answer a = goosetable_window((const uint8_t *)"", 0, chains, sizeof chains, keys, GOOSETABLE_KEYS_SIZE);
    size_t i;
    is("keys", a.length, 500);
    is("direction of the first", goosetable_key_direction(keys), GOOSETABLE_DIRECTION_I);
    is("its generation", goosetable_key_generation(keys), 1);
    is("its index", goosetable_key_index(keys), 0xfffffffe);
    is("index of the last", goosetable_key_index(keys + 499 * GOOSETABLE_KEY_ROW), 7 + 497);
    window = post_window(&host, a.length);
    for (i = 0; i < a.length; i++)
        put_window_row(window + i * GOOSETABLE_WINDOW_ROW, keys + i * GOOSETABLE_KEY_ROW);
    memcpy(of_first, goosetable_window_tag(window), GOOSETABLE_TAG_SIZE);
    e = envelope(of_first, 48);
    said("as listed", goosetable_post_envelope(post, PEER, e.header, e.ct, e.ct_len), GOOSETABLE_REFUSED_WINDOW_ROWS);
    qsort(window, a.length, GOOSETABLE_WINDOW_ROW, by_key);
    a = goosetable_post_envelope(post, PEER, e.header, e.ct, e.ct_len);
    said("sorted", a, GOOSETABLE_OURS);
    is("by the key of the last chain", a.idx, 0xfffffffe);
    post->window_len = 0;
    free(keys);
}

/* ---- rows that have gone, and areas that no call left */

/* A reply outlives its row: by then its cell is another's, and there is no ciphertext to the reply. */
static void replace_row(void)
{
    uint8_t *tag = memcpy(area(GOOSETABLE_TAG_SIZE), goosetable_own_tag(post->own), GOOSETABLE_TAG_SIZE);
    uint8_t *row = area(GOOSETABLE_OWN_ROW);
    fetch(tag, 0, own_ct, 48, 5);
    said("a tomb", goosetable_post_tomb(post, PEER, tag, secret), GOOSETABLE_DONE);
    is("the row has gone", ciphertext_length(post->replies, 0), 0);
    own_envelope(9, 80, row);
    is("its cell is used again", goosetable_own_cell(row), 0);
    is("by another row", ciphertext_length(post->replies, 0), 0);
    read_tombstone(1, 3, tag);
    free(row);
    free(tag);
}

/*
 * The rows for which the tombstones are searched. Own row 7 comes again, with the tag that has a tombstone by now, and own row 10 with one copy;
 * own rows 8 and 9 and both carried rows are as before. The own rows are for the other contact.
 */
static void search(void)
{
    uint8_t *row = area(GOOSETABLE_OWN_ROW);
    own_envelope(7, 48, row);
    said("one copy", goosetable_setting(post->device, 1, 1, LIFETIME), GOOSETABLE_DONE);
    own_envelope(10, 48, row);
    said("nine copies", goosetable_setting(post->device, 1, 9, LIFETIME), GOOSETABLE_DONE);
    said("fresh exchange", goosetable_post_fresh_exchange(post, exchange, PEER), GOOSETABLE_DONE);
    list(PEER, NULL, GOOSETABLE_DONE, 4, 5);
    said("fresh exchange", goosetable_post_fresh_exchange(post, exchange, PEER), GOOSETABLE_DONE);
    list(PEER, tags[1], GOOSETABLE_DONE, 0, 0);
    list(PEER, NULL, GOOSETABLE_DONE, 3, 4);
    list(PEER, NULL, GOOSETABLE_MALFORMED, 0, 0);
    list(OTHER, NULL, GOOSETABLE_REFUSED_WRONG_EXCHANGE, 0, 0);
    said("fresh exchange", goosetable_post_fresh_exchange(post, exchange, OTHER), GOOSETABLE_DONE);
    list(OTHER, NULL, GOOSETABLE_DONE, 2, 2);
    free(row);
}

/* Own rows expire, and are renewed. */
static void renew(void)
{
    said("the clock", goosetable_clock(post->device, 60 * (MINUTE + LIFETIME)), GOOSETABLE_DONE);
    said("maintenance", goosetable_post_maintenance(post), GOOSETABLE_DONE);
    read_own(post->own + GOOSETABLE_OWN_ROW, 8, 80, 1, 1);
    read_counts(2, 4, 0, 0, 1);
}

/* As many tombstones as there are rows for them, from a slot on. The third expires before the others. */
static void fill_tombstones(uint64_t slot)
{
    uint8_t *tag = memcpy(area(GOOSETABLE_TAG_SIZE), tags[0], GOOSETABLE_TAG_SIZE);
    size_t i;
    for (i = 0; i < TOMBSTONES; i++) {
        tag[0] = (uint8_t)(i >> 8);
        tag[1] = (uint8_t)i;
        said("stored", goosetable_stored_tombstone(post->device, tag, secret, i == 2 ? 4000 : 5000, post->tombstones, TOMBSTONES_LEN, post->actions,
                                                   GOOSETABLE_ACTIONS_SIZE(TOMBSTONES)), GOOSETABLE_DONE);
        is("in its slot", goosetable_action_number(post->actions, 0), slot + i);
    }
    free(tag);
}

static void is_action(size_t i, enum goosetable_action kind, uint64_t slot)
{
    is("an action", goosetable_action_kind(post->actions, i), kind);
    is("its slot", goosetable_action_number(post->actions, i), slot);
}

/* A carried row turns where all tombstone rows are used: one goes first, not the row itself, though it expires before them all. */
static void turn(void)
{
    uint64_t first = goosetable_device_next_slot(post->device), slot = first + TOMBSTONES;
    struct envelope e = {.ct = carried_ct, .ct_len = 48};
    goosetable_answer a;
    fill_tombstones(first);
    memcpy(e.header, tags[1], GOOSETABLE_TAG_SIZE);
    goosetable_commitment(secret, e.header + 16);
    /* One copy; the expiry lies beyond the lifetime's end, which the row gets. */
    memset(e.header + 32, 1, 5);
    said("an envelope", goosetable_post_envelope(post, PEER, e.header, e.ct, e.ct_len), GOOSETABLE_DONE);
    is_action(0, GOOSETABLE_ACTION_PUT, slot);
    said("a wrong secret", goosetable_post_tomb(post, PEER, tags[1], commitment), GOOSETABLE_MALFORMED);
    read_counts(2, 4, 1, TOMBSTONES, 1);
    a = goosetable_post_tomb(post, PEER, tags[1], secret);
    said("its tomb", a, GOOSETABLE_DONE);
    is("actions", a.actions, 2);
    is_action(0, GOOSETABLE_ACTION_DELETE, first + 2);
    is_action(1, GOOSETABLE_ACTION_PUT, slot);
    read_counts(2, 4, 0, TOMBSTONES, 1);
    is("the last tombstone", goosetable_tombstone_slot(post->tombstones + TOMBSTONES_LEN - GOOSETABLE_TOMBSTONE_ROW), slot);
}

/* Both contacts are offered one of a row's 2 copies before the first of them answers: none is left. */
static void hand_on(const uint8_t *tag)
{
    goosetable_session *other = &post->sessions[1];
    said("fresh exchange", goosetable_post_fresh_exchange(post, exchange, PEER), GOOSETABLE_DONE);
    said("another", goosetable_post_fresh_exchange(post, other, OTHER), GOOSETABLE_DONE);
    said("the terminator", goosetable_post_inventory(post, exchange, PEER, tag, 0), GOOSETABLE_DONE);
    said("the other's", goosetable_post_inventory(post, other, OTHER, tag, 0), GOOSETABLE_DONE);
    said("a code", goosetable_post_custody_code(post, exchange, PEER, tag, GOOSETABLE_CUSTODY_ACCEPTED), GOOSETABLE_DONE);
    is("a copy left", goosetable_carried_copies(post->carried), 1);
    said("another", goosetable_post_custody_code(post, other, OTHER, tag, GOOSETABLE_CUSTODY_ACCEPTED), GOOSETABLE_DONE);
    is("none left", goosetable_carried_copies(post->carried), 0);
}

/* The row's blob is read; with an expiry of 0 it would not be. */
static void read_blob(uint64_t slot)
{
    uint8_t *blob = area(GOOSETABLE_BLOB_SIZE);
    goosetable_answer a = goosetable_post_row_blob(post, slot, blob);
    goosetable_row row = goosetable_row_read(blob, a.length);
    is("a carried row", row.kind, GOOSETABLE_KIND_CARRIED);
    is("of no copies", row.copies, 0);
    are("of the tag", row.tag, tags[2], GOOSETABLE_TAG_SIZE);
    are("its ciphertext", blob + GOOSETABLE_CARRIED_HEAD, carried_ct, 144);
    memset(blob + GOOSETABLE_CARRIED_HEAD - 5, 0, 4);
    is("no row", goosetable_row_read(blob, a.length).kind, GOOSETABLE_KIND_NONE);
    free(blob);
}

/* A post that is started with the contacts and the saved file holds what was saved: its own file is the same. */
static void start_again(const uint8_t *file, size_t length)
{
    uint8_t *again = area(GOOSETABLE_FILE_SIZE(CELLS, TOMBSTONES));
    struct post started;
    goosetable_answer a;
    post_open(&started, "started", 0);
    said("a contact", goosetable_contact(started.areas.device, PEER, GOOSETABLE_VERIFIED, started.areas.contacts), GOOSETABLE_DONE);
    said("load", goosetable_post_load(&started.areas, file, length), GOOSETABLE_DONE);
    is("next slot", goosetable_device_next_slot(started.areas.device), goosetable_device_next_slot(post->device));
    is("tombstones", goosetable_post_tombstones(&started.areas), TOMBSTONES);
    is("carried rows", goosetable_device_carried(started.areas.device), 1);
    are("the row", started.areas.carried, post->carried, GOOSETABLE_CARRIED_ROW);
    are("its ciphertext", started.areas.carried_cells, carried_ct, 144);
    a = goosetable_post_save(&started.areas, again, GOOSETABLE_FILE_SIZE(CELLS, TOMBSTONES));
    said("save", a, GOOSETABLE_DONE);
    is("bytes", a.length, length);
    are("the file", again, file, length);
    post_close(&started);
    free(again);
}

/* A row hands on all of its copies, is saved, and is read back. An envelope of 0 copies that comes in is Invalid all the same. */
static void restart(void)
{
    uint64_t slot = goosetable_device_next_slot(post->device);
    uint8_t *file = area(GOOSETABLE_FILE_SIZE(CELLS, TOMBSTONES));
    struct envelope e = envelope(tags[2], 144);
    goosetable_answer a;
    e.header[36] = 0;
    said("no copies", goosetable_post_envelope(post, PEER, e.header, e.ct, e.ct_len), GOOSETABLE_DONE);
    is("it is", goosetable_body_code(goosetable_reply_body(post->replies, 0)), GOOSETABLE_CUSTODY_INVALID);
    e.header[36] = 2;
    said("two copies", goosetable_post_envelope(post, PEER, e.header, e.ct, e.ct_len), GOOSETABLE_DONE);
    is("it is", goosetable_body_code(goosetable_reply_body(post->replies, 0)), GOOSETABLE_CUSTODY_ACCEPTED);
    hand_on(tags[2]);
    read_blob(slot);
    a = goosetable_post_save(post, file, GOOSETABLE_FILE_SIZE(CELLS, TOMBSTONES));
    said("save", a, GOOSETABLE_DONE);
    start_again(file, a.length);
    free(file);
}

/* Counts and cells that no call left: what fits is read. */
static void spoil(void)
{
    uint8_t *reply = memset(area(GOOSETABLE_REPLY_ROW), 255, GOOSETABLE_REPLY_ROW);
    is("no cell", goosetable_reply_cell(reply, 0), GOOSETABLE_NO_CELL);
    reply[0] = GOOSETABLE_REPLY_ENVELOPE;
    is("no ciphertext in it", ciphertext_length(reply, 0), 0);
    is("nor a place", (uint64_t)(goosetable_post_ciphertext(post, reply, 0) - post->carried_cells), 0);
    memset(post->device, 255, GOOSETABLE_DEVICE_SIZE);
    memset(post->own, 255, GOOSETABLE_OWN_SIZE);
    memset(post->carried, 255, GOOSETABLE_CARRIED_SIZE);
    memset(post->tombstones, 255, TOMBSTONES_LEN);
    memset(exchange->exchange, 255, GOOSETABLE_EXCHANGE_SIZE);
    read_counts(GOOSETABLE_MAX_ROWS, GOOSETABLE_MAX_ROWS, GOOSETABLE_MAX_ROWS, TOMBSTONES, BAD_TAGS);
    read_exchange(1, 1, UINT64_MAX, GOOSETABLE_MAX_LISTED, GOOSETABLE_MAX_LISTED);
    is("enabled", (uint64_t)goosetable_device_enabled(post->device), 1);
    is("renewed", (uint64_t)goosetable_own_renewed(post->own), 1);
    is("nothing behind the last row", ciphertext_length(reply, 0), 0);
    reply[1] = 0;
    is("of an own cell", ciphertext_length(reply, 0), 0);
    reply[1] = 1;
    is("or a carried one", ciphertext_length(reply, 0), 0);
    /* The last own row names cell 255, and more bytes than a cell has. */
    memset(post->own + GOOSETABLE_OWN_SIZE - 2, 0, 1);
    reply[1] = 0;
    is("a length past the cell", ciphertext_length(reply, 0), GOOSETABLE_CELL_SIZE);
    is("the last cell", (uint64_t)(goosetable_post_ciphertext(post, reply, 0) - post->own_cells),
       GOOSETABLE_CELLS_SIZE(GOOSETABLE_MAX_ROWS - 1));
    free(reply);
}

/* ---- a post in static memory */

/* With room for one envelope, no own one, four tombstones and no bad tag. */
GOOSETABLE_POST_STATIC(small, 1, 0, 4, 0, 1);

static void lend_static(void)
{
    struct envelope first = envelope(tags[0], 48), second = envelope(tags[1], 48);
    goosetable_post_fresh(&small);
    said("a setting", goosetable_post_setting(&small, 1, 5, LIFETIME), GOOSETABLE_DONE);
    said("a contact", goosetable_post_contact(&small, OTHER, GOOSETABLE_VERIFIED), GOOSETABLE_DONE);
    said("an envelope", goosetable_post_envelope(&small, OTHER, first.header, first.ct, first.ct_len), GOOSETABLE_DONE);
    is("its copies", goosetable_carried_copies(small_carried), 5);
    are("its ciphertext", small_carried_cells, carried_ct, 48);
    said("another", goosetable_post_envelope(&small, OTHER, second.header, second.ct, second.ct_len), GOOSETABLE_REFUSED_NO_CELL);
    said("a tombstone", goosetable_post_stored_tombstone(&small, tags[2], secret, 5000), GOOSETABLE_DONE);
    are("its tag", goosetable_tombstone_tag(small_tombstones), tags[2], GOOSETABLE_TAG_SIZE);
    is("tombstones", goosetable_post_tombstones(&small), 1);
    said("a bad tag", goosetable_post_failed(&small, OTHER, tags[3]), GOOSETABLE_REFUSED_NO_BAD_TAG_ROW);
    is("bad tags", goosetable_post_bad_tags(&small), 0);
    is("pages", goosetable_post_pages(&small), 1);
    said("an exchange", goosetable_post_fresh_exchange(&small, &small.sessions[0], OTHER), GOOSETABLE_DONE);
    is("its peer", goosetable_exchange_peer(small_sessions[0].exchange), OTHER);
}

int main(void)
{
    size_t i;
    for (i = 0; i < sizeof carried_ct; i++)
        carried_ct[i] = (uint8_t)(i + 1);
    for (i = 0; i < sizeof own_ct; i++)
        own_ct[i] = (uint8_t)(255 - i);
    post_open(&host, "post", 0);
    exchange = &post->sessions[0];
    compute();
    set_up();
    add_own(7, 48, 0);
    add_own(8, 80, 1);
    add_carried(tags[0], 48, 0, 0);
    add_carried(tags[1], 144, 1, 1);
    fetch(goosetable_own_tag(post->own + GOOSETABLE_OWN_ROW), 1, own_ct, 80, 9);
    fetch(tags[1], GOOSETABLE_MAX_ROWS + 1, carried_ct, 144, 7);
    exchange_all();
    deliver();
    read_pages(3);
    sort_window();
    replace_row();
    search();
    renew();
    read_pages(0);
    turn();
    restart();
    spoil();
    read_pages(GOOSETABLE_MAX_ROWS + TOMBSTONES);
    lend_static();
    post_close(&host);
    printf("examples/c/readers: %d values, each as expected\n", compared);
    return 0;
}
