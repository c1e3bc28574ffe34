/*
 * goosetable_post.h: the areas of a post in one struct, and each call of goosetable.h with them. It is a header alone, beside goosetable.h; the
 * library is the same. A host that uses it names no area in a call, so that two areas of the post can't change places; one that does not
 * use it loses nothing.
 *
 *     GOOSETABLE_POST_STATIC(post, 256, 0, 1024, 0, 8);
 *
 *     goosetable_post_fresh(&post);
 *     goosetable_post_contact(&post, 5, GOOSETABLE_VERIFIED);
 *     goosetable_post_clock(&post, seconds);
 *     ...
 *     a = goosetable_post_tomb(&post, peer, tag, s);
 *
 * goosetable_post_NAME is goosetable_NAME with the areas of the post: what it does, writes and is refused by is said there. What has no device
 * (goosetable_window, goosetable_route_tag, goosetable_delivered, goosetable_commitment, goosetable_row_read) is called as it is.
 *
 * include/check holds this file against goosetable.h: every call with a device is here, and each area goes where its name stands.
 */
#ifndef GOOSETABLE_POST_H
#define GOOSETABLE_POST_H

#include "goosetable.h"

#ifdef __cplusplus
extern "C" {
#endif

/* ---- the areas */

/* The areas of one link: its exchange, and what goes with it. A post has as many as links may be up at once. */
typedef struct goosetable_session {
    uint8_t exchange[GOOSETABLE_EXCHANGE_SIZE];
    uint8_t prefixes[GOOSETABLE_PREFIXES_SIZE];
    uint8_t offers[GOOSETABLE_OFFERS_SIZE];
} goosetable_session;

/*
 * The areas of a post, by the names that goosetable.h has for them. A host sets them once, by GOOSETABLE_POST_STATIC or field by field, each area
 * in memory of its own: fixed ones have the size that goosetable.h gives, the others the length beside them. No pointer is null, also where the
 * length is 0. The window is the host's to set whenever its keys change; its rows are read alone.
 */
typedef struct goosetable_post {
    uint8_t *device;   /* GOOSETABLE_DEVICE_SIZE */
    uint8_t *contacts; /* GOOSETABLE_CONTACTS_SIZE */
    uint8_t *own;      /* GOOSETABLE_OWN_SIZE */
    uint8_t *carried;  /* GOOSETABLE_CARRIED_SIZE */
    uint8_t *tombstones;
    size_t tombstones_len;
    uint8_t *bad_tags;
    size_t bad_tags_len;
    uint8_t *own_cells;
    size_t own_cells_len;
    uint8_t *carried_cells;
    size_t carried_cells_len;
    uint8_t *replies;
    size_t replies_len;
    uint8_t *actions;
    size_t actions_len;
    const uint8_t *window;
    size_t window_len;
    goosetable_session *sessions;
    size_t session_count;
} goosetable_post;

/* An array has one element at least, also where none is lent. */
#define GOOSETABLE_POST_ROOM(size) ((size) > 0 ? (size) : 1)

/*
 * A post of this name in static memory, with so many carried cells, own cells, tombstone rows R, bad-tag rows and sessions; docs/HOST.md says how
 * many to take. goosetable_post_fresh comes before any other call. Each area is an array of its own, as NAME_carried_cells. The window is empty.
 */
#define GOOSETABLE_POST_STATIC(name, carried_cells, own_cells, r, bad_tags, sessions)                 \
    static uint8_t name##_device[GOOSETABLE_DEVICE_SIZE];                                             \
    static uint8_t name##_contacts[GOOSETABLE_CONTACTS_SIZE];                                         \
    static uint8_t name##_own[GOOSETABLE_OWN_SIZE];                                                   \
    static uint8_t name##_carried[GOOSETABLE_CARRIED_SIZE];                                           \
    static uint8_t name##_tombstones[GOOSETABLE_POST_ROOM(GOOSETABLE_TOMBSTONES_SIZE(r))];            \
    static uint8_t name##_bad_tags[GOOSETABLE_POST_ROOM(GOOSETABLE_BAD_TAGS_SIZE(bad_tags))];         \
    static uint8_t name##_own_cells[GOOSETABLE_POST_ROOM(GOOSETABLE_CELLS_SIZE(own_cells))];          \
    static uint8_t name##_carried_cells[GOOSETABLE_POST_ROOM(GOOSETABLE_CELLS_SIZE(carried_cells))];  \
    static uint8_t name##_replies[GOOSETABLE_REPLIES_SIZE];                                           \
    static uint8_t name##_actions[GOOSETABLE_ACTIONS_SIZE(r)];                                        \
    static goosetable_session name##_sessions[GOOSETABLE_POST_ROOM(sessions)];                        \
    static goosetable_post name = {                                                                   \
        name##_device,                                                                                \
        name##_contacts,                                                                              \
        name##_own,                                                                                   \
        name##_carried,                                                                               \
        name##_tombstones,                                                                            \
        GOOSETABLE_TOMBSTONES_SIZE(r),                                                                \
        name##_bad_tags,                                                                              \
        GOOSETABLE_BAD_TAGS_SIZE(bad_tags),                                                           \
        name##_own_cells,                                                                             \
        GOOSETABLE_CELLS_SIZE(own_cells),                                                             \
        name##_carried_cells,                                                                         \
        GOOSETABLE_CELLS_SIZE(carried_cells),                                                         \
        name##_replies,                                                                               \
        GOOSETABLE_REPLIES_SIZE,                                                                      \
        name##_actions,                                                                               \
        GOOSETABLE_ACTIONS_SIZE(r),                                                                   \
        (const uint8_t *)"",                                                                          \
        0,                                                                                            \
        name##_sessions,                                                                              \
        (sessions),                                                                                   \
    }

/* ---- what the host sets */

/* A fresh post: no row, contact or bad tag, the default setting; and each session opened for nobody. */
static inline void goosetable_post_fresh(goosetable_post *post)
{
    size_t i, at;
    for (i = 0; i < post->session_count; i++)
        for (at = 0; at < GOOSETABLE_EXCHANGE_SIZE; at++)
            post->sessions[i].exchange[at] = 0;
    goosetable_fresh(post->device);
}

/* Sets the clock, in seconds. */
static inline goosetable_answer goosetable_post_clock(goosetable_post *post, uint64_t seconds)
{
    return goosetable_clock(post->device, seconds);
}

/* Sets whether the post carries for others, for how many copies at most, and for how many minutes. */
static inline goosetable_answer goosetable_post_setting(goosetable_post *post, uint8_t enabled, uint8_t copies, uint16_t lifetime)
{
    return goosetable_setting(post->device, enabled, copies, lifetime);
}

/* Adds a contact, or alters one in its place. */
static inline goosetable_answer goosetable_post_contact(goosetable_post *post, uint64_t id, uint8_t verification)
{
    return goosetable_contact(post->device, id, verification, post->contacts);
}

/* A fresh exchange with a peer, in the session of its link. */
static inline goosetable_answer goosetable_post_fresh_exchange(const goosetable_post *post, goosetable_session *session, uint64_t peer)
{
    return goosetable_fresh_exchange(
        post->device, session->exchange, peer, post->contacts, session->prefixes, GOOSETABLE_PREFIXES_SIZE, session->offers, GOOSETABLE_OFFERS_SIZE);
}

/* ---- envelopes */

/* An envelope from a peer: the 37 bytes of its header as they came over the link (tag, commitment, expiry, copies), and its ciphertext. */
static inline goosetable_answer goosetable_post_envelope(
    goosetable_post *post, uint64_t peer, const uint8_t header[GOOSETABLE_BODY_SIZE], const uint8_t *ct, size_t ct_len)
{
    return goosetable_envelope(
        post->device, peer, goosetable_body_tag(header), goosetable_body_commitment(header), goosetable_body_expiry(header),
        goosetable_body_copies(header), ct, ct_len, post->window, post->window_len, post->contacts, post->own, post->carried, post->tombstones,
        post->tombstones_len, post->carried_cells, post->carried_cells_len, post->replies, post->replies_len, post->actions, post->actions_len);
}

/* A peer asks for the envelope of a tag: the one reply has it. */
static inline goosetable_answer goosetable_post_fetch(goosetable_post *post, uint64_t peer, const uint8_t tag[GOOSETABLE_TAG_SIZE])
{
    return goosetable_fetch(
        post->device, peer, tag, post->contacts, post->own, post->carried, post->own_cells, post->own_cells_len, post->carried_cells,
        post->carried_cells_len, post->replies, post->replies_len);
}

/* The envelope of a message that the host has queued for a contact. The new own row also goes to row. */
static inline goosetable_answer goosetable_post_own_envelope(
    goosetable_post *post,
    uint64_t contact,
    uint32_t msgno,
    const uint8_t route_key[GOOSETABLE_KEY_SIZE],
    uint8_t dir,
    uint8_t generation,
    uint32_t idx,
    const uint8_t s[GOOSETABLE_TAG_SIZE],
    const uint8_t *ct,
    size_t ct_len,
    uint8_t row[GOOSETABLE_OWN_ROW])
{
    return goosetable_own_envelope(
        post->device, contact, msgno, route_key, dir, generation, idx, s, ct, ct_len, post->contacts, post->own, post->own_cells, post->own_cells_len,
        row);
}

/* ---- exchanges */

/* The prefixes of the rows held here for a peer's inventory, and in length how many. */
static inline goosetable_answer goosetable_post_inventory_of_ours(
    const goosetable_post *post, uint64_t peer, uint8_t prefixes[GOOSETABLE_PREFIXES_SIZE])
{
    return goosetable_inventory_of_ours(post->device, peer, post->contacts, post->own, post->carried, prefixes, GOOSETABLE_PREFIXES_SIZE);
}

/* A list of prefixes from a peer; the empty list is the terminator, and is answered. The window is lent with the terminator alone, which needs it. */
static inline goosetable_answer goosetable_post_inventory(
    goosetable_post *post, goosetable_session *session, uint64_t peer, const uint8_t *listed, size_t listed_len)
{
    return goosetable_inventory(
        post->device, session->exchange, peer, post->contacts, post->own, post->carried, post->tombstones, post->tombstones_len, post->bad_tags,
        post->bad_tags_len, post->window, listed_len ? 0 : post->window_len, listed, listed_len, session->prefixes, GOOSETABLE_PREFIXES_SIZE,
        session->offers, GOOSETABLE_OFFERS_SIZE, post->replies, post->replies_len);
}

/* The custody code that a peer answers an offer with. */
static inline goosetable_answer goosetable_post_custody_code(
    goosetable_post *post, goosetable_session *session, uint64_t peer, const uint8_t tag[GOOSETABLE_TAG_SIZE], uint8_t code)
{
    return goosetable_custody_code(
        post->device, session->exchange, peer, tag, code, post->contacts, post->own, post->carried, post->tombstones, post->tombstones_len,
        session->prefixes, GOOSETABLE_PREFIXES_SIZE, session->offers, GOOSETABLE_OFFERS_SIZE, post->actions, post->actions_len);
}

/* ---- tombstones */

/* A tombstone to be stored, of a message that came directly. */
static inline goosetable_answer goosetable_post_stored_tombstone(
    goosetable_post *post, const uint8_t tag[GOOSETABLE_TAG_SIZE], const uint8_t s[GOOSETABLE_TAG_SIZE], uint32_t expiry)
{
    return goosetable_stored_tombstone(
        post->device, tag, s, expiry, post->tombstones, post->tombstones_len, post->actions, post->actions_len);
}

/* A tomb from a peer: a tag, and the secret that its commitment is of. */
static inline goosetable_answer goosetable_post_tomb(
    goosetable_post *post, uint64_t peer, const uint8_t tag[GOOSETABLE_TAG_SIZE], const uint8_t s[GOOSETABLE_TAG_SIZE])
{
    return goosetable_tomb(
        post->device, peer, tag, s, post->contacts, post->own, post->carried, post->tombstones, post->tombstones_len, post->actions,
        post->actions_len);
}

/* The host opened an envelope that was ours: the one reply is its tomb. */
static inline goosetable_answer goosetable_post_opened(
    goosetable_post *post, uint64_t peer, const uint8_t tag[GOOSETABLE_TAG_SIZE], const uint8_t s[GOOSETABLE_TAG_SIZE], uint32_t expiry)
{
    return goosetable_opened(
        post->device, peer, tag, s, expiry, post->contacts, post->tombstones, post->tombstones_len, post->replies, post->replies_len, post->actions,
        post->actions_len);
}

/* The host could not open an envelope that was ours: its tag is bad for this peer. */
static inline goosetable_answer goosetable_post_failed(goosetable_post *post, uint64_t peer, const uint8_t tag[GOOSETABLE_TAG_SIZE])
{
    return goosetable_failed(post->device, peer, tag, post->contacts, post->bad_tags, post->bad_tags_len);
}

/* ---- maintenance */

/* What expired is renewed, dropped or deleted. */
static inline goosetable_answer goosetable_post_maintenance(goosetable_post *post)
{
    return goosetable_maintenance(
        post->device, post->own, post->carried, post->tombstones, post->tombstones_len, post->actions, post->actions_len);
}

/* ---- held rows as blobs, the saved file, the screen page */

/* The blob of the held row in a slot: what the host stores for a put. */
static inline goosetable_answer goosetable_post_row_blob(const goosetable_post *post, uint64_t slot, uint8_t blob[GOOSETABLE_BLOB_SIZE])
{
    return goosetable_row_blob(
        post->device, slot, post->carried, post->tombstones, post->tombstones_len, post->carried_cells, post->carried_cells_len, blob,
        GOOSETABLE_BLOB_SIZE);
}

/* The saved file, in an area of GOOSETABLE_FILE_SIZE bytes of the post's carried cells and tombstone rows. */
static inline goosetable_answer goosetable_post_save(const goosetable_post *post, uint8_t *file, size_t file_len)
{
    return goosetable_save(
        post->device, post->carried, post->tombstones, post->tombstones_len, post->carried_cells, post->carried_cells_len, file, file_len);
}

/* A page for a technicians' screen, counted from 0. */
static inline goosetable_answer goosetable_post_page(const goosetable_post *post, uint64_t page, uint8_t area[GOOSETABLE_PAGE_SIZE])
{
    return goosetable_page(post->device, page, post->carried, post->tombstones, post->tombstones_len, area, GOOSETABLE_PAGE_SIZE);
}

/* Replaces the held rows and the next slot by those of a saved file. */
static inline goosetable_answer goosetable_post_load(goosetable_post *post, const uint8_t *file, size_t file_len)
{
    return goosetable_load(
        post->device, post->contacts, post->carried, post->tombstones, post->tombstones_len, post->carried_cells, post->carried_cells_len, file,
        file_len);
}

/* ---- reading */

/* How many tombstones there are. */
static inline size_t goosetable_post_tombstones(const goosetable_post *post)
{
    return goosetable_device_tombstones(post->device, post->tombstones_len);
}

/* How many bad tags there are. */
static inline size_t goosetable_post_bad_tags(const goosetable_post *post)
{
    return goosetable_device_bad_tags(post->device, post->bad_tags_len);
}

/* How many screen pages have rows. */
static inline uint64_t goosetable_post_pages(const goosetable_post *post)
{
    return goosetable_device_pages(post->device, post->tombstones_len);
}

/* Where the ciphertext of reply row i begins, of the post's replies or of rows that were copied from them. */
static inline const uint8_t *goosetable_post_ciphertext(const goosetable_post *post, const uint8_t *replies, size_t i)
{
    return goosetable_ciphertext(post->own_cells, post->carried_cells, replies, i);
}

/* How long the ciphertext of reply row i is; 0 if there is none, or if its row has gone since. */
static inline size_t goosetable_post_ciphertext_length(const goosetable_post *post, const uint8_t *replies, size_t i)
{
    return goosetable_ciphertext_length(post->device, post->own, post->carried, post->own_cells_len, post->carried_cells_len, replies, i);
}

#ifdef __cplusplus
}
#endif

#endif
