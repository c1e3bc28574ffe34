/*
 * A message from one phone to another over two wall posts, each with its own areas. At a meeting the one side lists what it has and the other
 * answers: it asks for what is meant for it, tells of deliveries that it knows of, and offers copies. What one side's call replies is handed to
 * the other side's call, as a radio link would.
 */
#include "account.h"

#include <inttypes.h>
#include <stdio.h>
#include <stdlib.h>
#include <string.h>

/* What both phones have: the route key of the pair, and the key that seals and opens the messages here; a host has one for each message. */
static const uint8_t route_key[GOOSETABLE_KEY_SIZE] = "the key of this pair of phones";
static const uint8_t message_key[GOOSETABLE_KEY_SIZE] = "the key that seals this message";
static const uint8_t ciphertext[48] = "sealed by the sender, opened by the recipient";

/* The most prefixes that are sent in one list. */
#define LIST 500

static struct post sender, recipient, post_a, post_b;

/* ---- a meeting */

/* An envelope that was ours was opened: the message key gives its secret, and the tomb goes back. */
static void open_envelope(struct post *from, struct post *to, const struct envelope *e)
{
    const uint8_t *tag = goosetable_body_tag(e->header);
    uint8_t secret[GOOSETABLE_TAG_SIZE], commitment[GOOSETABLE_TAG_SIZE];
    goosetable_delivered(message_key, secret);
    goosetable_commitment(secret, commitment);
    begin(to, "its secret");
    printf("%s\n", goosetable_same_tag(commitment, goosetable_body_commitment(e->header)) ? "opens the commitment" : "is another's");
    begin(to, "opened it");
    end(to, goosetable_post_opened(&to->areas, from->id, tag, secret, goosetable_body_expiry(e->header)));
    begin(from, "tomb of %s", to->name);
    end(from, goosetable_post_tomb(&from->areas, to->id, tag, goosetable_body_secret(goosetable_reply_body(to->areas.replies, 0))));
}

/* An envelope arrives: the code for one of the offers goes back, or the tomb of one that was ours. */
static void hand_envelope(struct post *from, struct post *to, goosetable_session *offers, const struct envelope *e)
{
    const uint8_t *tag = goosetable_body_tag(e->header), *reply = goosetable_reply_body(to->areas.replies, 0);
    goosetable_answer a = goosetable_post_envelope(&to->areas, from->id, e->header, e->ct, e->ct_len);
    begin(to, "envelope of %s, %zu bytes", from->name, e->ct_len);
    end(to, a);
    if (a.said == GOOSETABLE_OURS) {
        open_envelope(from, to, e);
    } else if (a.said == GOOSETABLE_DONE && offers) {
        a = goosetable_post_custody_code(&from->areas, offers, to->id, tag, goosetable_body_code(reply));
        begin(from, "custody code of %s", to->name);
        end(from, a);
    }
}

/* A peer asks for the envelope of a tag. */
static void hand_fetched(struct post *from, struct post *to, const uint8_t *tag)
{
    struct envelope e;
    goosetable_answer a = goosetable_post_fetch(&from->areas, to->id, tag);
    begin(from, "fetch of %s", to->name);
    end(from, a);
    if (a.said != GOOSETABLE_DONE)
        return;
    e = envelope_of(from, from->areas.replies, 0);
    hand_envelope(from, to, NULL, &e);
    free(e.ct);
}

/* An envelope is offered, unless its row has gone since. */
static void hand_offer(struct post *from, struct post *to, goosetable_session *offers, const uint8_t *replies, size_t i)
{
    struct envelope e = envelope_of(from, replies, i);
    if (e.ct_len)
        hand_envelope(from, to, offers, &e);
    free(e.ct);
}

static void hand_reply(struct post *from, struct post *to, goosetable_session *e, const uint8_t *replies, size_t i)
{
    const uint8_t *body = goosetable_reply_body(replies, i);
    switch (goosetable_reply_kind(replies, i)) {
    case GOOSETABLE_REPLY_FETCH:
        hand_fetched(to, from, goosetable_body_tag(body));
        break;
    case GOOSETABLE_REPLY_ENVELOPE:
        hand_offer(from, to, e, replies, i);
        break;
    case GOOSETABLE_REPLY_TOMB:
        begin(to, "tomb of %s", from->name);
        end(to, goosetable_post_tomb(&to->areas, from->id, goosetable_body_tag(body), goosetable_body_secret(body)));
        break;
    }
}

/* What one side has goes to the other in lists of at most 500, and then the empty one, which is answered and says for how many rows it searched. */
static goosetable_answer list(struct post *answers, struct post *lists, goosetable_session *e)
{
    uint8_t *prefixes = area(GOOSETABLE_PREFIXES_SIZE);
    goosetable_answer a = goosetable_post_inventory_of_ours(&lists->areas, answers->id, prefixes);
    size_t at, count = a.length;
    begin(lists, "inventory of ours for %s", answers->name);
    end_with(lists, a, "prefixes");
    for (at = 0; at < count; at += LIST) {
        size_t listed = count - at < LIST ? count - at : LIST;
        a = goosetable_post_inventory(&answers->areas, e, lists->id, prefixes + at * GOOSETABLE_PREFIX_SIZE, listed * GOOSETABLE_PREFIX_SIZE);
        begin(answers, "inventory of %s", lists->name);
        end(answers, a);
    }
    a = goosetable_post_inventory(&answers->areas, e, lists->id, prefixes, 0);
    begin(answers, "end of the inventory of %s", lists->name);
    end_with(answers, a, "searched");
    free(prefixes);
    return a;
}

/*
 * One side lists; the other answers, and its replies are handed over one by one. They are copied first: an envelope that was asked for comes in
 * between, and its call replies too.
 */
static void meet(struct post *answers, struct post *lists)
{
    goosetable_session *e = &answers->areas.sessions[0];
    goosetable_answer a;
    uint8_t *replies;
    size_t i;
    printf("\n%s meets %s\n", lists->name, answers->name);
    begin(answers, "exchange with %s", lists->name);
    end(answers, goosetable_post_fresh_exchange(&answers->areas, e, lists->id));
    a = list(answers, lists, e);
    replies = memcpy(area(a.replies * GOOSETABLE_REPLY_ROW), answers->areas.replies, a.replies * GOOSETABLE_REPLY_ROW);
    for (i = 0; i < a.replies; i++)
        hand_reply(answers, lists, e, replies, i);
    free(replies);
}

/* ---- the phones */

/* The sender queues a message for the recipient, under a key of the first chain. */
static void write_message(uint32_t message, uint32_t index)
{
    uint8_t secret[GOOSETABLE_TAG_SIZE], commitment[GOOSETABLE_TAG_SIZE], *row = area(GOOSETABLE_OWN_ROW);
    goosetable_answer a;
    goosetable_delivered(message_key, secret);
    a = goosetable_post_own_envelope(&sender.areas, recipient.id, message, route_key, GOOSETABLE_DIRECTION_I, 0, index, secret,
                                     ciphertext, sizeof ciphertext, row);
    begin(&sender, "own envelope for %s", recipient.name);
    end(&sender, a);
    begin(&sender, "its row");
    tag(goosetable_own_tag(row));
    printf(", copies %d, expiry %" PRIu32 "\n", goosetable_own_copies(row), goosetable_own_expiry(row));
    goosetable_commitment(secret, commitment);
    begin(&sender, "its commitment");
    tag(commitment);
    putchar('\n');
    free(row);
}

/* Window rows by their key: contact, direction, generation, index. */
static int by_key(const void *a, const void *b)
{
    return memcmp(a, b, 8 + GOOSETABLE_KEY_ROW);
}

/* A window row of each key row, in rising order. The keys are of one contact here. */
static void make_window(struct post *p, uint64_t contact, const uint8_t *keys, size_t count)
{
    uint8_t tag[GOOSETABLE_TAG_SIZE], *window = post_window(p, count);
    size_t i;
    for (i = 0; i < count; i++) {
        const uint8_t *key = keys + i * GOOSETABLE_KEY_ROW;
        goosetable_route_tag(route_key, goosetable_key_direction(key), goosetable_key_generation(key), goosetable_key_index(key), tag);
        goosetable_window_row_put(window + i * GOOSETABLE_WINDOW_ROW, contact, key, tag);
    }
    qsort(window, count, GOOSETABLE_WINDOW_ROW, by_key);
}

/* The recipient expects messages of the sender: key 3 of the chain was skipped, and 7 is its next. */
static void expect_messages(void)
{
    static const uint8_t skipped[GOOSETABLE_KEY_ROW] = {GOOSETABLE_DIRECTION_I, 0, 0, 0, 0, 3};
    static const uint8_t chain[GOOSETABLE_CHAIN_ROW] = {GOOSETABLE_DIRECTION_I, 0, 0, 0, 0, 0, 0, 0, 0, 7};
    uint8_t *keys = area(GOOSETABLE_KEYS_SIZE);
    goosetable_answer a = goosetable_window(skipped, sizeof skipped, chain, sizeof chain, keys, GOOSETABLE_KEYS_SIZE);
    begin(&recipient, "window of a skipped key and a chain");
    end_with(&recipient, a, "keys");
    make_window(&recipient, sender.id, keys, a.length);
    begin(&recipient, "its second row");
    tag(goosetable_window_tag(recipient.window + GOOSETABLE_WINDOW_ROW));
    printf(", contact %" PRIu64 ", index %" PRIu32 "\n", goosetable_window_contact(recipient.window + GOOSETABLE_WINDOW_ROW),
           goosetable_window_index(recipient.window + GOOSETABLE_WINDOW_ROW));
    free(keys);
}

/* ---- the posts */

/* A post at minute 10, with the default setting. */
static void set_up(struct post *p, const char *name, uint64_t id)
{
    post_open(p, name, id);
    goosetable_post_clock(&p->areas, 600);
}

/* A post restarts: its holdings go to a file, and from there to fresh areas. */
static void restart(struct post *p, const struct post *first, const struct post *second)
{
    uint8_t *file = area(GOOSETABLE_FILE_SIZE(CELLS, TOMBSTONES));
    goosetable_answer a = goosetable_post_save(&p->areas, file, GOOSETABLE_FILE_SIZE(CELLS, TOMBSTONES));
    printf("\n%s restarts\n", p->name);
    begin(p, "save");
    end_with(p, a, "bytes");
    post_close(p);
    set_up(p, p->name, p->id);
    begin(p, "load before its contacts are known");
    end(p, goosetable_post_load(&p->areas, file, a.length));
    goosetable_post_contact(&p->areas, first->id, GOOSETABLE_UNVERIFIED);
    goosetable_post_contact(&p->areas, second->id, GOOSETABLE_VERIFIED);
    begin(p, "load");
    end(p, goosetable_post_load(&p->areas, file, a.length));
    free(file);
}

/* A tomb whose secret is not the one that the commitment is of. */
static void forge_tomb(struct post *p, const struct post *peer)
{
    static const uint8_t wrong[GOOSETABLE_TAG_SIZE] = "was it delivered";
    printf("\na forged tomb\n");
    begin(p, "tomb of %s", peer->name);
    end(p, goosetable_post_tomb(&p->areas, peer->id, goosetable_own_tag(sender.areas.own), wrong));
}

static void at_minute(struct post *p, uint64_t minute)
{
    goosetable_post_clock(&p->areas, minute * 60);
    begin(p, "maintenance at minute %" PRIu64, minute);
    end(p, goosetable_post_maintenance(&p->areas));
}

/* What a technician sees at a post: every page that has rows, and page 0 if none has. */
static void show(const struct post *p)
{
    uint8_t *screen = area(GOOSETABLE_PAGE_SIZE);
    uint64_t page = 0, pages = goosetable_post_pages(&p->areas);
    do {
        goosetable_answer a = goosetable_post_page(&p->areas, page, screen);
        begin(p, "page %" PRIu64, page);
        end_with(p, a, "bytes");
        fwrite(screen, 1, a.length, stdout);
    } while (++page < pages);
    free(screen);
}

/* Post A holds a tombstone and a carried row that was left there at minute 500. At 1450 the tombstone is past, until maintenance takes it. */
static void a_day_later(void)
{
    printf("\na day later\n");
    at_minute(&post_a, 1449);
    show(&post_a);
    goosetable_post_clock(&post_a.areas, 1450 * 60);
    show(&post_a);
    at_minute(&post_a, 1450);
    at_minute(&post_b, 1450);
    at_minute(&sender, 1450);
}

int main(void)
{
    set_up(&sender, "sender", 1);
    set_up(&recipient, "recipient", 2);
    set_up(&post_a, "post A", 10);
    set_up(&post_b, "post B", 11);
    goosetable_post_contact(&sender.areas, recipient.id, GOOSETABLE_VERIFIED);
    goosetable_post_contact(&sender.areas, post_a.id, GOOSETABLE_UNVERIFIED);
    goosetable_post_contact(&recipient.areas, sender.id, GOOSETABLE_VERIFIED);
    goosetable_post_contact(&recipient.areas, post_b.id, GOOSETABLE_UNVERIFIED);
    goosetable_post_contact(&post_a.areas, sender.id, GOOSETABLE_UNVERIFIED);
    goosetable_post_contact(&post_a.areas, post_b.id, GOOSETABLE_VERIFIED);
    goosetable_post_contact(&post_b.areas, post_a.id, GOOSETABLE_VERIFIED);
    goosetable_post_contact(&post_b.areas, recipient.id, GOOSETABLE_UNVERIFIED);

    write_message(1, 7);
    expect_messages();
    meet(&sender, &post_a);
    meet(&post_a, &post_b);
    restart(&post_a, &sender, &post_b);
    forge_tomb(&post_b, &recipient);
    meet(&recipient, &post_b);
    meet(&post_b, &post_a);
    meet(&post_a, &sender);

    printf("\na second message\n");
    at_minute(&sender, 500);
    at_minute(&post_a, 500);
    write_message(2, 8);
    meet(&sender, &post_a);

    a_day_later();
    post_close(&sender);
    post_close(&recipient);
    post_close(&post_a);
    post_close(&post_b);
    return 0;
}
