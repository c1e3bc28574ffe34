/*
 * How much stack each call takes on full areas. A call runs on a stack of its own that was painted before; what it takes is how far below its
 * caller's frame the paint is gone, less that of a function in its place that only returns. The return address counts, arguments do not.
 */
#define _DEFAULT_SOURCE
#include "full.h"

#include <stdio.h>
#include <stdlib.h>
#include <string.h>
#include <sys/mman.h>

#define STACK_SIZE (1 << 20)
#define GUARD_SIZE 4096

static struct areas full;
static goosetable_answer answer;
static goosetable_row held;

/* ---- the call or its stand-in */

typedef void (*any)(void);

void only_returns(void);
__asm__(".text\n.globl only_returns\nonly_returns:\n\tret\n");

static any stand_in;

#define CALL(name) ((__typeof__(goosetable_##name) *)(stand_in ? stand_in : (any)goosetable_##name))
#define LENT(area) full.area, sizeof full.area

static void call_fresh(void)
{
    CALL(fresh)(full.device);
}

static void call_clock(void)
{
    answer = CALL(clock)(full.device, 60);
}

static void call_setting(void)
{
    answer = CALL(setting)(full.device, 1, 16, 10080);
}

static void call_contact(void)
{
    answer = CALL(contact)(full.device, GOOSETABLE_MAX_ROWS, GOOSETABLE_VERIFIED, full.contacts);
}

static void call_fresh_exchange(void)
{
    answer = CALL(fresh_exchange)(full.device, full.exchange, GOOSETABLE_MAX_ROWS, full.contacts, LENT(prefixes), LENT(offers));
}

static void call_envelope(void)
{
    answer = CALL(envelope)(full.device, GOOSETABLE_MAX_ROWS, full.tag, full.secret, 1000, 6, LENT(ct), LENT(window), full.contacts,
                            full.own, full.carried, LENT(tombstones), LENT(carried_cells), LENT(replies), LENT(actions));
}

static void call_fetch(void)
{
    answer = CALL(fetch)(full.device, PEER, full.tag, full.contacts, full.own, full.carried, LENT(own_cells), LENT(carried_cells),
                         LENT(replies));
}

static void call_own_envelope(void)
{
    answer = CALL(own_envelope)(full.device, GOOSETABLE_MAX_ROWS, 2, full.key, GOOSETABLE_DIRECTION_I, 0, 0xffffffff, full.secret,
                                LENT(ct), full.contacts, full.own, LENT(own_cells), full.row);
}

static void call_inventory_of_ours(void)
{
    answer = CALL(inventory_of_ours)(full.device, PEER, full.contacts, full.own, full.carried, LENT(prefixes));
}

/* The terminator. */
static void call_inventory(void)
{
    answer = CALL(inventory)(full.device, full.exchange, PEER, full.contacts, full.own, full.carried, LENT(tombstones), LENT(bad_tags),
                             LENT(window), full.key, 0, LENT(prefixes), LENT(offers), LENT(replies));
}

/* 500 prefixes for an exchange that has none. */
static void call_inventory_list(void)
{
    answer = CALL(inventory)(full.device, full.exchange, PEER, full.contacts, full.own, full.carried, LENT(tombstones), LENT(bad_tags),
                             LENT(window), full.file, 4000, LENT(prefixes), LENT(offers), LENT(replies));
}

static void call_custody_code(void)
{
    answer = CALL(custody_code)(full.device, full.exchange, PEER, full.tag, GOOSETABLE_CUSTODY_ACCEPTED, full.contacts, full.own,
                                full.carried, LENT(tombstones), LENT(prefixes), LENT(offers), LENT(actions));
}

static void call_stored_tombstone(void)
{
    answer = CALL(stored_tombstone)(full.device, full.tag, full.secret, 1000, LENT(tombstones), LENT(actions));
}

static void call_tomb(void)
{
    answer = CALL(tomb)(full.device, PEER, full.tag, full.secret, full.contacts, full.own, full.carried, LENT(tombstones), LENT(actions));
}

static void call_opened(void)
{
    answer = CALL(opened)(full.device, PEER, full.tag, full.secret, 1000, full.contacts, LENT(tombstones), LENT(replies), LENT(actions));
}

static void call_failed(void)
{
    answer = CALL(failed)(full.device, PEER, full.tag, full.contacts, LENT(bad_tags));
}

static void call_maintenance(void)
{
    answer = CALL(maintenance)(full.device, full.own, full.carried, LENT(tombstones), LENT(actions));
}

static void call_row_blob(void)
{
    answer = CALL(row_blob)(full.device, GOOSETABLE_MAX_ROWS - 1, full.carried, LENT(tombstones), LENT(carried_cells), LENT(blob));
}

static void call_row_blob_tombstone(void)
{
    answer = CALL(row_blob)(full.device, GOOSETABLE_MAX_ROWS, full.carried, LENT(tombstones), LENT(carried_cells), LENT(blob));
}

static void call_save(void)
{
    answer = CALL(save)(full.device, full.carried, LENT(tombstones), LENT(carried_cells), LENT(file));
}

static void call_load(void)
{
    answer = CALL(load)(full.device, full.contacts, full.carried, LENT(tombstones), LENT(carried_cells), full.file, full.file_len);
}

/* The last page that is full, and the page with both kinds of rows: 256 carried rows are 13 pages and 9 rows more. */
static void call_page(void)
{
    answer = CALL(page)(full.device, (GOOSETABLE_MAX_ROWS + TOMBSTONES) / GOOSETABLE_PAGE_ROWS - 1, full.carried, LENT(tombstones), LENT(page));
}

static void call_page_of_both(void)
{
    answer = CALL(page)(full.device, GOOSETABLE_MAX_ROWS / GOOSETABLE_PAGE_ROWS, full.carried, LENT(tombstones), LENT(page));
}

static void call_window(void)
{
    answer = CALL(window)(full.skipped, GOOSETABLE_KEY_ROW * 100, LENT(chains), LENT(keys));
}

static void call_route_tag(void)
{
    answer = CALL(route_tag)(full.key, GOOSETABLE_DIRECTION_R, 255, 0xffffffff, full.tag);
}

static void call_delivered(void)
{
    CALL(delivered)(full.key, full.secret);
    answer.said = GOOSETABLE_DONE;
}

static void call_commitment(void)
{
    CALL(commitment)(full.secret, full.tag);
    answer.said = GOOSETABLE_DONE;
}

static void call_version_0_2(void)
{
    answer.said = CALL(version_0_2)() == 0;
}

static void call_row_read(void)
{
    held = CALL(row_read)(full.blob, full.file_len);
    answer.said = GOOSETABLE_DONE;
}

/* ---- what is altered in the full areas before a call, so that it goes far */

/* The last row of a table leaves room for a new one. */
static void one_own_less(void)
{
    put(full.device + OWN_AT, 8, GOOSETABLE_MAX_ROWS - 1);
}

static void one_carried_less(void)
{
    put(full.device + CARRIED_AT, 8, GOOSETABLE_MAX_ROWS - 1);
}

static void one_contact_less(void)
{
    put(full.device + CONTACTS_AT, 8, GOOSETABLE_MAX_ROWS - 1);
}

static void tag_of_window(void)
{
    put_tag(full.tag, OF_WINDOW, WINDOW_ROWS - 1);
}

static void tag_of_carried(void)
{
    put_tag(full.tag, OF_CARRIED, GOOSETABLE_MAX_ROWS - 1);
}

static void tag_of_own(void)
{
    put_tag(full.tag, OF_OWN, GOOSETABLE_MAX_ROWS - 1);
    put_tag(full.secret, OF_OWN, GOOSETABLE_MAX_ROWS - 1);
}

/* The last carried row gets the commitment that a fetch of the last own row shows, so that the own row's secret opens it. It turns, and one goes. */
static void tomb_of_carried(void)
{
    tag_of_own();
    call_fetch();
    memcpy(full.carried + (GOOSETABLE_MAX_ROWS - 1) * GOOSETABLE_CARRIED_ROW + 32, full.replies + 3 + 16, GOOSETABLE_TAG_SIZE);
    tag_of_carried();
}

/* The same with a row left for it, so that none goes. */
static void tomb_below_limit(void)
{
    tomb_of_carried();
    put(full.device + TOMBSTONES_AT, 8, TOMBSTONES - 1);
}

/* The exchange has listed nothing. */
static void nothing_listed(void)
{
    put(full.exchange + 10, 8, 0);
}

static void all_expired(void)
{
    goosetable_clock(full.device, 60000);
}

static void saved_file(void)
{
    call_save();
    full.file_len = answer.length;
}

static void blob_of_carried(void)
{
    call_row_blob();
    full.file_len = answer.length;
}

static void blob_of_tombstone(void)
{
    call_row_blob_tombstone();
    full.file_len = answer.length;
}

/* ---- measuring */

struct run {
    const char *call;
    void (*alter)(void);
    void (*perform)(void);
    int said;
};

static const struct run runs[] = {
    {"fresh", NULL, call_fresh, GOOSETABLE_DONE},
    {"clock", NULL, call_clock, GOOSETABLE_DONE},
    {"setting", NULL, call_setting, GOOSETABLE_DONE},
    {"contact", NULL, call_contact, GOOSETABLE_DONE},
    {"contact", one_contact_less, call_contact, GOOSETABLE_DONE},
    {"fresh_exchange", NULL, call_fresh_exchange, GOOSETABLE_DONE},
    {"envelope", NULL, call_envelope, GOOSETABLE_DONE},
    {"envelope", one_carried_less, call_envelope, GOOSETABLE_DONE},
    {"envelope", tag_of_window, call_envelope, GOOSETABLE_OURS},
    {"envelope", tag_of_carried, call_envelope, GOOSETABLE_DONE},
    {"fetch", NULL, call_fetch, GOOSETABLE_MISSING},
    {"fetch", tag_of_own, call_fetch, GOOSETABLE_DONE},
    {"fetch", tag_of_carried, call_fetch, GOOSETABLE_DONE},
    {"own_envelope", NULL, call_own_envelope, GOOSETABLE_NO_ENVELOPE},
    {"own_envelope", one_own_less, call_own_envelope, GOOSETABLE_DONE},
    {"inventory_of_ours", NULL, call_inventory_of_ours, GOOSETABLE_DONE},
    {"inventory", NULL, call_inventory, GOOSETABLE_DONE},
    {"inventory", nothing_listed, call_inventory_list, GOOSETABLE_DONE},
    {"custody_code", tag_of_own, call_custody_code, GOOSETABLE_DONE},
    {"custody_code", tag_of_carried, call_custody_code, GOOSETABLE_DONE},
    {"stored_tombstone", NULL, call_stored_tombstone, GOOSETABLE_DONE},
    {"tomb", tag_of_own, call_tomb, GOOSETABLE_DONE},
    {"tomb", tag_of_carried, call_tomb, GOOSETABLE_MALFORMED},
    {"tomb", tomb_of_carried, call_tomb, GOOSETABLE_DONE},
    {"tomb", tomb_below_limit, call_tomb, GOOSETABLE_DONE},
    {"opened", NULL, call_opened, GOOSETABLE_DONE},
    {"failed", NULL, call_failed, GOOSETABLE_MALFORMED},
    {"maintenance", NULL, call_maintenance, GOOSETABLE_DONE},
    {"maintenance", all_expired, call_maintenance, GOOSETABLE_DONE},
    {"row_blob", NULL, call_row_blob, GOOSETABLE_DONE},
    {"row_blob", NULL, call_row_blob_tombstone, GOOSETABLE_DONE},
    {"save", NULL, call_save, GOOSETABLE_DONE},
    {"load", saved_file, call_load, GOOSETABLE_DONE},
    {"page", NULL, call_page, GOOSETABLE_DONE},
    {"page", NULL, call_page_of_both, GOOSETABLE_DONE},
    {"page", all_expired, call_page_of_both, GOOSETABLE_DONE},
    {"window", NULL, call_window, GOOSETABLE_DONE},
    {"route_tag", NULL, call_route_tag, GOOSETABLE_DONE},
    {"delivered", NULL, call_delivered, GOOSETABLE_DONE},
    {"commitment", NULL, call_commitment, GOOSETABLE_DONE},
    {"row_read", blob_of_carried, call_row_read, GOOSETABLE_DONE},
    {"row_read", blob_of_tombstone, call_row_read, GOOSETABLE_DONE},
    {"version_0_2", NULL, call_version_0_2, GOOSETABLE_DONE},
};

static uint8_t *stack;

/* Runs a function on the stack whose end this is. */
static void on_stack(uint8_t *end, void (*perform)(void))
{
    __asm__ volatile("movq %%rsp, %%rbx\n\tmovq %0, %%rsp\n\tcall *%1\n\tmovq %%rbx, %%rsp"
                     :
                     : "r"(end), "r"(perform)
                     : "rax", "rbx", "rcx", "rdx", "rsi", "rdi", "r8", "r9", "r10", "r11", "cc", "memory",
                       "xmm0", "xmm1", "xmm2", "xmm3", "xmm4", "xmm5", "xmm6", "xmm7",
                       "xmm8", "xmm9", "xmm10", "xmm11", "xmm12", "xmm13", "xmm14", "xmm15");
}

/* How many bytes are no longer painted after a run, from the lowest on. */
static size_t touched(const struct run *r, any in_its_place, uint8_t paint)
{
    size_t i = 0;
    stand_in = NULL;
    fill(&full);
    if (r->alter)
        r->alter();
    stand_in = in_its_place;
    memset(stack, paint, STACK_SIZE);
    on_stack(stack + STACK_SIZE, r->perform);
    while (i < STACK_SIZE && stack[i] == paint)
        i++;
    if (!in_its_place && r->perform != call_fresh && answer.said != r->said) {
        fprintf(stderr, "goosetable_%s says %d on full areas, not %d\n", r->call, answer.said, r->said);
        exit(1);
    }
    return STACK_SIZE - i;
}

/* The stack of a run, with a paint of either kind: a byte may happen to be written as it was painted. */
static size_t taken(const struct run *r)
{
    size_t dark = touched(r, NULL, 0xa5) - touched(r, only_returns, 0xa5);
    size_t light = touched(r, NULL, 0x5a) - touched(r, only_returns, 0x5a);
    return sizeof(void *) + (dark > light ? dark : light);
}

int main(void)
{
    size_t i, most = 0, count = sizeof runs / sizeof runs[0];
    uint8_t *guarded = mmap(NULL, GUARD_SIZE + STACK_SIZE, PROT_READ | PROT_WRITE, MAP_PRIVATE | MAP_ANONYMOUS, -1, 0);
    if (guarded == MAP_FAILED || mprotect(guarded, GUARD_SIZE, PROT_NONE)) {
        fprintf(stderr, "no memory for a stack of %d bytes\n", STACK_SIZE);
        return 1;
    }
    stack = guarded + GUARD_SIZE;
    for (i = 0; i < count; i++) {
        size_t bytes = taken(&runs[i]);
        most = bytes > most ? bytes : most;
        if (i + 1 == count || strcmp(runs[i].call, runs[i + 1].call)) {
            printf("goosetable_%s %zu\n", runs[i].call, most);
            most = 0;
        }
    }
    return 0;
}
