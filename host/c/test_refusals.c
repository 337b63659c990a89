/*
 * Every refusal of the store's calls, alone and together with every choice of
 * the others of the same call: the number returned is the first in 01's
 * order, and for a conversion in 02's before it, and all lent memory is kept.
 */

#include <string.h>

#include "lent.h"

/* The slots used here, and their sheets. */
enum { ASKED_SLOT = 1, OTHER_SLOT = 2, FREE_SLOT = 3, SLOTS = 4 };
enum { ASKED = 305, OTHER = 306, ABSENT = 307, FILLING = 308 };

enum { LADDER = 8, VARIANTS = 8 };

/* 01, "Order", and 02, order 3, of each call, up to the first 0. */
static const uint32_t ladders[CALLS][LADDER + 1] = {
    { 4 },                       /* check */
    { 1, 4, 5, 7, 12, 13 },      /* read; 14 does not occur */
    { 1, 4, 5, 6, 11, 10 },      /* add */
    { 1, 4, 5, 6, 7, 12, 8, 9 }, /* revise */
    { 4, 5, 7 },                 /* remove */
    { 1, 4 },                    /* step */
    { 1, 4 },                    /* job_step */
    { 15, 16, 1, 4, 5, 6, 11, 10 } /* add_xts */
};

static int adds(enum call_name name)
{
    return name == ADD || name == ADD_XTS;
}

/* A store and a call that is not refused. */
static struct call good_call(enum call_name name)
{
    struct sheet asked = { ASKED, 17, LAGUNEDO_MARK_OLD_KEY, 40, 201 };
    struct sheet other = { OTHER, 18, LAGUNEDO_MARK_CLEAR, 30, 202 };
    struct call call;

    lend(48, 64, SLOTS);
    hold_sheet(ASKED_SLOT, asked);
    hold_sheet(OTHER_SLOT, other);
    now.job[JOB].place = wanted.job[JOB].place = ASKED_SLOT;
    call = call_of(name);
    call.sheet = adds(name) ? ABSENT : ASKED;
    call.seen = 17;
    call.text = 40;
    return call;
}

static void spoil_keys(struct call *call, size_t variant)
{
    static const size_t lengths[VARIANTS][2] = {
        { 47, 64 }, { 48, 63 }, { 0, 64 }, { 48, 0 },
        { 49, 64 }, { 48, 65 }, { 0, 0 },  { 16, 32 }
    };

    call->old_key = lengths[variant][0];
    call->new_key = lengths[variant][1];
}

static void spoil_store(struct call *call, size_t variant)
{
    static const size_t lengths[VARIANTS] = {
        SLOTS * 2112 - 1, SLOTS * 2112 + 1, 1, 2111, 2113, 16, 2096, 4223
    };

    call->store = lengths[variant];
}

/* A unit that is too long for a text is long enough for a unit. */
static void spoil_text(struct call *call, size_t variant)
{
    static const size_t lengths[VARIANTS] = { 15, 2097, 0, 1, 15, 2097, 0, 8 };
    static const size_t units[VARIANTS] = { 2097, 2098, 2112,  4096,
                                            9999, 2097, 65535, 65536 };

    call->text = call->name == ADD_XTS ? units[variant] : lengths[variant];
}

static void spoil_xts_key(struct call *call, size_t variant)
{
    static const size_t lengths[VARIANTS] = { 0, 31, 33, 48, 63, 65, 16, 1 };

    call->xts_key = lengths[variant];
}

static void spoil_unit(struct call *call, size_t variant)
{
    static const size_t lengths[VARIANTS] = { 0, 15, 65537, 1,
                                              8, 14, 65537, 15 };

    call->text = lengths[variant];
}

/* A number that no slot has; all but the first are a slot's but for a bit. */
static void spoil_sheet(struct call *call, size_t variant)
{
    call->sheet = variant == 0 ? ABSENT : ASKED ^ (1u << (4 * variant + 3));
}

/* The sheet asked for is at the last revision, and it is named. */
static void spoil_last(struct call *call)
{
    struct sheet last = { ASKED, 0xffffffffu, LAGUNEDO_MARK_OLD_KEY, 40, 201 };

    hold_sheet(ASKED_SLOT, last);
    call->seen = 0xffffffffu;
}

/* Every slot is used. */
static void spoil_free(void)
{
    struct sheet filling = { FILLING, 1, LAGUNEDO_MARK_CLEAR, 16, 203 };

    hold_sheet(0, filling);
    filling.number = FILLING + 1;
    hold_sheet(FREE_SLOT, filling);
}

/* Changes what is lent such that the number applies. */
static void spoil(struct call *call, uint32_t number, size_t variant)
{
    switch (number) {
    case LAGUNEDO_KEY_LENGTH:
        spoil_keys(call, variant);
        break;
    case LAGUNEDO_STORE_LENGTH:
        spoil_store(call, variant);
        break;
    case LAGUNEDO_SHEET_ZERO:
        call->sheet = 0;
        break;
    case LAGUNEDO_TEXT_LENGTH:
        spoil_text(call, variant);
        break;
    case LAGUNEDO_NO_SHEET:
        spoil_sheet(call, variant);
        break;
    case LAGUNEDO_OTHER_REVISION:
        call->seen += variant % 2 == 0 ? 1u : 65536u;
        break;
    case LAGUNEDO_LAST_REVISION:
        spoil_last(call);
        break;
    case LAGUNEDO_NO_FREE_SLOT:
        spoil_free();
        break;
    case LAGUNEDO_SHEET_PRESENT:
        call->sheet = variant % 2 == 0 ? ASKED : OTHER;
        break;
    case LAGUNEDO_XTS_KEY_LENGTH:
        spoil_xts_key(call, variant);
        break;
    case LAGUNEDO_UNIT_LENGTH:
        spoil_unit(call, variant);
        break;
    case LAGUNEDO_SLOT_UNSOUND:
        flaw(ASKED_SLOT, (2 * variant + 1) % FLAWS);
        break;
    default:
        call->text = variant == 0 ? 39 : variant;
        break;
    }
}

/*
 * The refusals of the choice, one bit each. They are brought about from the
 * last to the first, since an earlier one may undo a later: a sheet that no
 * slot has cannot be in an unsound one.
 */
static void refused(enum call_name name, unsigned choice, size_t variant,
                    int by_address)
{
    struct call call = good_call(name);
    uint32_t first = LAGUNEDO_DONE;
    size_t i;

    for (i = LADDER; i-- > 0;)
        if (choice & (1u << i)) {
            first = ladders[name][i];
            spoil(&call, first, variant);
        }
    call.by_address = by_address;
    expect(&call, first, "refused");
}

static void refusals_of(enum call_name name)
{
    size_t length = 0, variant;
    unsigned choice;

    while (ladders[name][length] != 0)
        length++;
    for (choice = 1; choice < 1u << length; choice++)
        for (variant = 0; variant < VARIANTS; variant++) {
            refused(name, choice, variant, 0);
            refused(name, choice, variant, 1);
        }
}

/* Without a refusal the same call does its work. */
static void not_refused(enum call_name name)
{
    struct call call = good_call(name);

    call_check(made(&call) == LAGUNEDO_DONE, "not refused", &call);
}

/* A store of 1,025 slots is refused, and so is one byte above 1,024. */
static void too_large(enum call_name name)
{
    struct sheet asked = { ASKED, 17, LAGUNEDO_MARK_CLEAR, 40, 201 };
    struct call call;

    lend(64, 64, 1025);
    hold_sheet(ASKED_SLOT, asked);
    now.job[JOB].place = wanted.job[JOB].place = ASKED_SLOT;
    call = call_of(name);
    call.sheet = adds(name) ? ABSENT : ASKED;
    call.seen = 17;
    call.text = 40;
    expect(&call, LAGUNEDO_STORE_LENGTH, "1,025 slots");
    call.store = 1024 * 2112 + 1;
    expect(&call, LAGUNEDO_STORE_LENGTH, "1,024 slots and a byte");
    call.store = 1024 * 2112 - 1;
    expect(&call, LAGUNEDO_STORE_LENGTH, "1,024 slots less a byte");
    call.store = 1024 * 2112;
    call_check(made(&call) == LAGUNEDO_DONE, "1,024 slots", &call);
}

/* Each byte string in turn lent as NULL with length 0. */
static void nulls(enum call_name name)
{
    struct call call;
    int keyed = name != CHECK && name != REMOVE;
    int by_number = name != CHECK && name != STEP && name != JOB_STEP;

    if (keyed) {
        call = good_call(name);
        call.old_key = 0;
        expect(&call, LAGUNEDO_KEY_LENGTH, "no old key");
        call = good_call(name);
        call.new_key = 0;
        expect(&call, LAGUNEDO_KEY_LENGTH, "no new key");
        call.old_key = call.store = call.text = 0;
        expect(&call,
               name == ADD_XTS ? LAGUNEDO_UNIT_LENGTH : LAGUNEDO_KEY_LENGTH,
               "nothing lent");
    }
    if (name == ADD_XTS) {
        call.xts_key = 0;
        expect(&call, LAGUNEDO_XTS_KEY_LENGTH, "no XTS key either");
    }
    if (by_number) {
        call = good_call(name);
        call.store = 0;
        expect(&call,
               adds(name) ? LAGUNEDO_NO_FREE_SLOT : LAGUNEDO_NO_SHEET,
               "no store");
    }
    if (by_number && name != REMOVE) {
        call = good_call(name);
        call.text = 0;
        expect(&call,
               name == READ      ? LAGUNEDO_BUFFER_LENGTH
               : name == ADD_XTS ? LAGUNEDO_UNIT_LENGTH
                                 : LAGUNEDO_TEXT_LENGTH,
               "no text");
    }
}

void test_refusals(void)
{
    int name;

    for (name = CHECK; name < CALLS; name++) {
        refusals_of((enum call_name)name);
        not_refused((enum call_name)name);
        too_large((enum call_name)name);
        nulls((enum call_name)name);
    }
}
