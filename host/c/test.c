/* Calls each function of gettext_c.h once and more, on document 01's files F and G. Says how many checks passed. */
#include "gettext_c.h"

#include <stdio.h>
#include <stdlib.h>

static unsigned failed, checks;

static void check(int ok, const char *what, int line)
{
    checks++;
    if (!ok) {
        failed++;
        printf("test.c:%d: %s\n", line, what);
    }
}

#define CHECK(e) check((e) != 0, #e, __LINE__)

/* Options with a forced rule, or null, and a reading. */
static const gr_options *with(const char *rule, enum gr_reading reading)
{
    static gr_options o;
    o.rule = rule;
    o.reading = reading;
    o.utf8 = 0;
    o.fit = 0;
    return &o;
}

static int is(gr_text t, uint32_t number, const char *text)
{
    return t.number == number && t.len == strlen(text) && memcmp(t.text, text, t.len) == 0;
}

/* Document 01's file G: F with the forms "b" and "c". Its first 48 bytes with byte 36 made 1 are F. */
static const uint8_t g_bytes[50] = {
    0xde, 0x12, 0x04, 0x95, 0, 0, 0, 0, 1, 0, 0, 0, 0x1c, 0, 0, 0, 0x24, 0, 0, 0, 0, 0, 0, 0, 0x2c, 0, 0, 0,
    1, 0, 0, 0, 0x2c, 0, 0, 0, 3, 0, 0, 0, 0x2e, 0, 0, 0, 0x61, 0, 0x62, 0, 0x63, 0,
};

/* A copy of G's first bytes in memory of just that size, so that valgrind sees a read past its end. */
static uint8_t *copy(size_t len)
{
    uint8_t *p = malloc(len);
    if (p == NULL) {
        exit(2);
    }
    memcpy(p, g_bytes, len);
    return p;
}

static void loads_and_refusals(void)
{
    gr_record r;
    uint8_t *f = copy(48);
    f[36] = 1;
    CHECK(gr_load(f, 48, NULL, &r) == GR_OK);
    CHECK(r.head.length == 48 && r.head.count == 1 && r.head.originals == 28 && r.head.translations == 36);
    CHECK(r.head.big == 0 && r.head.nodes == 1 && r.head.root == 0);
    CHECK(gr_load(f, 47, NULL, &r) == GR_EOF);
    CHECK(r.head.length == 0 && r.head.count == 0 && r.head.nodes == 1 && r.head.root == 0);
    CHECK(gr_load(NULL, 0, NULL, &r) == GR_EOF);
    CHECK(gr_load(f, 48, with("", GR_STANDARD), &r) == GR_PLURAL_PARSING);
    CHECK(gr_load(f, 48, with("+7", GR_STANDARD), &r) == GR_PLURAL_PARSING);
    CHECK(gr_load(f, 48, with("+7", GR_SHIPPED), &r) == GR_OK);
    f[46] = 0xff;
    CHECK(gr_load(f, 48, NULL, &r) == GR_DECODING_ERROR);
    f[0] = 0;
    CHECK(gr_load(f, 48, NULL, &r) == GR_BAD_MAGIC);
    free(f);
    f = copy(47);
    CHECK(gr_load(f, 47, NULL, &r) == GR_EOF);
    free(f);
}

/* Why a load of these bytes is refused, and where. */
static int at(const uint8_t *f, size_t len, const gr_options *o, uint32_t number, uint32_t side, uint32_t entered, size_t entry)
{
    gr_record r;
    gr_loaded l = gr_load_located(f, len, o, &r);
    return l.number == number && l.side == side && l.entered == entered && l.entry == entry && gr_load(f, len, o, &r) == number;
}

static void places(void)
{
    uint8_t *f = copy(48);
    f[36] = 1;
    CHECK(at(f, 48, NULL, GR_OK, GR_NO_SIDE, 0, 0));
    CHECK(at(f, 27, NULL, GR_EOF, GR_NO_SIDE, 0, 0));
    CHECK(at(NULL, 0, NULL, GR_EOF, GR_NO_SIDE, 0, 0));
    CHECK(at(f, 47, NULL, GR_EOF, GR_TRANSLATION, 1, 0));
    CHECK(at(f, 48, with("(", GR_STANDARD), GR_PLURAL_PARSING, GR_RULE, 0, 0));
    f[8] = 2;
    CHECK(at(f, 48, NULL, GR_EOF, GR_TRANSLATION, 1, 1));
    f[8] = 1;
    f[12] = 49;
    CHECK(at(f, 48, NULL, GR_EOF, GR_NO_SIDE, 0, 0));
    f[12] = 28;
    f[44] = 4;
    CHECK(at(f, 48, NULL, GR_MALFORMED_METADATA, GR_HEADER, 1, 0));
    f[44] = 0xff;
    CHECK(at(f, 48, NULL, GR_DECODING_ERROR, GR_ORIGINAL, 1, 0));
    f[44] = 0x61;
    f[46] = 0xff;
    CHECK(at(f, 48, NULL, GR_DECODING_ERROR, GR_TRANSLATION, 1, 0));
    f[0] = 0;
    CHECK(at(f, 48, NULL, GR_BAD_MAGIC, GR_NO_SIDE, 0, 0));
    free(f);
    CHECK(strcmp(gr_side_name(GR_NO_SIDE), "none") == 0);
    CHECK(strcmp(gr_side_name(GR_ORIGINAL), "original") == 0);
    CHECK(strcmp(gr_side_name(GR_TRANSLATION), "translation") == 0);
    CHECK(strcmp(gr_side_name(GR_HEADER), "header") == 0);
    CHECK(strcmp(gr_side_name(GR_RULE), "rule") == 0);
    CHECK(strcmp(gr_side_name(5), "no such side") == 0);
}

/* A catalog of one entry, the header with that Plural-Forms, in memory of just its size. */
static uint8_t *headed(const char *forms, size_t *size)
{
    static const char name[] = "Plural-Forms:";
    size_t len = strlen(name) + strlen(forms);
    *size = 45 + len + 1;
    uint8_t *p = malloc(*size);
    if (p == NULL || len > 255) {
        exit(2);
    }
    memcpy(p, g_bytes, 44);
    p[28] = 0;
    p[36] = (uint8_t)len;
    p[40] = 45;
    p[44] = 0;
    memcpy(p + 45, name, strlen(name));
    memcpy(p + 45 + strlen(name), forms, strlen(forms));
    p[45 + len] = 0;
    return p;
}

/* A header's count: whether it is given and which, and the number of a load that demands a fit, whose record keeps the count or has none. */
static int counts(const char *forms, const char *rule, uint32_t counted, uint64_t count, uint32_t number)
{
    size_t size;
    uint8_t *f = headed(forms, &size);
    gr_options o = {rule, GR_STANDARD, 0, 0};
    gr_record r;
    gr_loaded l = gr_load_located(f, size, &o, &r);
    int ok = l.number == GR_OK && l.counted == counted && l.forms == count && r.counted == counted && r.forms == count;
    o.fit = 1;
    l = gr_load_located(f, size, &o, &r);
    ok = ok && l.number == number && l.side == GR_NO_SIDE && l.entered == 0 && l.entry == 0 && r.counted == l.counted && r.forms == l.forms;
    ok = ok && (number == GR_OK ? r.counted == counted && r.forms == count : r.counted == 0 && r.forms == 0 && r.head.length == 0);
    free(f);
    return ok;
}

static void counts_of_forms(void)
{
    CHECK(counts("nplurals=2; plural=n != 1;", NULL, 1, 2, GR_OK));
    CHECK(counts("n_plurals=3; plural=n%3", NULL, 1, 3, GR_OK));
    CHECK(counts("nplurals=2; plural=n%3", NULL, 1, 2, GR_NOT_FIT));
    CHECK(counts("plural=n != 1", NULL, 0, 0, GR_NOT_FIT));
    CHECK(counts("nplurals=+2; plural=0", NULL, 0, 0, GR_NOT_FIT));
    CHECK(counts("nplurals=18446744073709551616", NULL, 0, 0, GR_NOT_FIT));
    CHECK(counts("nplurals=18446744073709551615; plural=n-n%2", NULL, 1, UINT64_MAX, GR_NOT_FIT));
    CHECK(counts("nplurals=0; plural=0", NULL, 1, 0, GR_NOT_FIT));
    CHECK(counts("nplurals=00000000000000000000000002", NULL, 1, 2, GR_OK));
    CHECK(counts("nplurals=1;nplurals=2;nplurals=x", NULL, 1, 2, GR_OK));
    CHECK(counts("nplurals=2;plural=(", "n>1", 1, 2, GR_OK));
    CHECK(counts("nplurals=1;plural=0", "n>1", 1, 1, GR_NOT_FIT));
    /* no header, and a refusal of another test first */
    uint8_t *g = copy(50);
    gr_options o = {NULL, GR_SHIPPED, 0, 1};
    CHECK(at(g, 50, &o, GR_NOT_FIT, GR_NO_SIDE, 0, 0));
    CHECK(at(g, 49, &o, GR_EOF, GR_TRANSLATION, 1, 0));
    free(g);
    gr_record r;
    memset(&r, 255, sizeof r);
    gr_empty(&r);
    CHECK(r.counted == 0 && r.forms == 0);
    CHECK(strcmp(gr_error_name(GR_NOT_FIT), "the plural expression does not fit the number of forms in the header") == 0);
}

static void lookups(void)
{
    uint8_t *g = copy(50);
    gr_record r;
    CHECK(gr_load(g, 50, with(NULL, GR_STANDARD), &r) == GR_OK);
    CHECK(is(gr_gettext(g, 50, &r, "a"), 0, "b"));
    CHECK(gr_gettext(g, 50, &r, "a").text == (const char *)g + 46);
    CHECK(is(gr_gettext(g, 50, &r, "c"), 0, "c"));
    CHECK(is(gr_pgettext(g, 50, &r, "x", "a"), 0, "a"));
    CHECK(is(gr_ngettext(g, 50, &r, "a", "as", 1), 0, "b"));
    CHECK(is(gr_ngettext(g, 50, &r, "a", "as", 2), 0, "c"));
    CHECK(is(gr_ngettext(g, 50, &r, "z", "zs", 1), 0, "z"));
    CHECK(is(gr_ngettext(g, 50, &r, "z", "zs", 2), 0, "zs"));
    CHECK(is(gr_npgettext(g, 50, &r, "x", "a", "as", 2), 0, "as"));
    gr_answer a =
        gettext_c_ngettext(g, 50, &r.head, r.codes, r.places, r.values, 0, (const uint8_t *)"", 0, (const uint8_t *)"a", 1, 7);
    CHECK(a.number == 0 && a.which == GR_SEGMENT && a.entry == 0 && a.form == 1 && a.start == 48 && a.len == 1);
    CHECK(gr_load(g, 50, with("1%n", GR_STANDARD), &r) == GR_OK);
    CHECK(is(gr_ngettext(g, 50, &r, "a", "as", 0), GR_ZERO_MODULUS, "as"));
    CHECK(is(gr_ngettext(g, 50, &r, "a", "as", 1), 0, "b"));
    free(g);
}

/* A record that does not belong, and a rule that is no tree. */
static void altered_records(void)
{
    uint8_t *g = copy(50);
    gr_record r;
    CHECK(gr_load(g, 50, with(NULL, GR_STANDARD), &r) == GR_OK);
    CHECK(is(gr_gettext(g, 49, &r, "a"), GR_BAD_RECORD, "a"));
    CHECK(is(gr_ngettext(g, 49, &r, "a", "as", 2), GR_BAD_RECORD, "as"));
    r.head.root = 512;
    CHECK(is(gr_ngettext(g, 50, &r, "a", "as", 1), GR_BAD_RECORD, "a"));
    CHECK(is(gr_npgettext(g, 50, &r, "x", "a", "as", 2), GR_BAD_RECORD, "as"));
    CHECK(is(gr_gettext(g, 50, &r, "a"), 0, "b"));
    CHECK(gr_rating(&r).number == GR_BAD_RECORD && gr_rating(&r).rated == 0);
    CHECK(gr_fits(&r, 9).number == GR_BAD_RECORD && gr_fits(&r, 9).fits == 0);
    CHECK(gr_resolve(&r, 9).number == GR_BAD_RECORD && gr_resolve(&r, 9).form == 0);
    memset(&r, 0xff, sizeof r);
    r.head.length = 50;
    CHECK(is(gr_gettext(g, 50, &r, "a"), 0, "a"));
    CHECK(is(gr_ngettext(g, 50, &r, "a", "as", 2), GR_BAD_RECORD, "as"));
    /* a count that no file has: what lies outside the file is no entry */
    CHECK(gr_load(g, 50, with(NULL, GR_STANDARD), &r) == GR_OK);
    r.head.count = SIZE_MAX;
    CHECK(is(gr_ngettext(g, 50, &r, "a", "as", 2), 0, "c"));
    r.head.translations = SIZE_MAX;
    CHECK(is(gr_ngettext(g, 50, &r, "a", "as", 2), 0, "as"));
    r.head.originals = SIZE_MAX - 7;
    CHECK(is(gr_gettext(g, 50, &r, "a"), 0, "a"));
    /* any number but 0 is yes: the words read the other way round name nothing in this file */
    CHECK(gr_load(g, 50, with(NULL, GR_STANDARD), &r) == GR_OK);
    r.head.big = 256;
    CHECK(is(gr_gettext(g, 50, &r, "a"), 0, "a"));
    free(g);
}

/* The index: built, too few slots, lookups as by the scan, and slots that were altered. */
static void indexes(void)
{
    uint8_t *g = copy(50);
    gr_record r;
    CHECK(gr_load(g, 50, with(NULL, GR_STANDARD), &r) == GR_OK);
    CHECK(gr_slots(&r) == 2);
    uint32_t *slots = malloc(3 * sizeof *slots);
    if (slots == NULL) {
        exit(2);
    }
    slots[0] = slots[1] = slots[2] = 7;
    CHECK(gr_index(g, 50, &r, slots, 1) == GR_INDEX_ROOM && slots[0] == 7);
    CHECK(gr_index(g, 49, &r, slots, 1) == GR_BAD_RECORD && slots[0] == 7);
    CHECK(gr_index(g, 50, &r, NULL, 3) == GR_INDEX_ROOM);
    CHECK(gr_index(g, 50, &r, slots, 3) == GR_OK);
    /* 5381 * 33 + 'a' is even */
    CHECK(slots[0] == 1 && slots[1] == 0 && slots[2] == 7);
    for (size_t n = 2; n <= 3; n++) {
        CHECK(is(gr_gettext_indexed(g, 50, &r, slots, n, "a"), 0, "b"));
        CHECK(gr_gettext_indexed(g, 50, &r, slots, n, "a").text == (const char *)g + 46);
        CHECK(is(gr_gettext_indexed(g, 50, &r, slots, n, "c"), 0, "c"));
        CHECK(is(gr_pgettext_indexed(g, 50, &r, slots, n, "x", "a"), 0, "a"));
        CHECK(is(gr_ngettext_indexed(g, 50, &r, slots, n, "a", "as", 1), 0, "b"));
        CHECK(is(gr_ngettext_indexed(g, 50, &r, slots, n, "a", "as", 2), 0, "c"));
        CHECK(is(gr_ngettext_indexed(g, 50, &r, slots, n, "z", "zs", 2), 0, "zs"));
        CHECK(is(gr_npgettext_indexed(g, 50, &r, slots, n, "x", "a", "as", 2), 0, "as"));
    }
    /* 11 before 12, 12 before 10 */
    CHECK(is(gr_gettext_indexed(g, 50, &r, slots, 1, "a"), GR_INDEX_ROOM, "a"));
    CHECK(is(gr_gettext_indexed(g, 49, &r, slots, 1, "a"), GR_BAD_RECORD, "a"));
    CHECK(is(gr_gettext_indexed(g, 50, &r, NULL, 2, "a"), GR_INDEX_ROOM, "a"));
    gr_record zero;
    CHECK(gr_load(g, 50, with("1%n", GR_STANDARD), &zero) == GR_OK);
    CHECK(is(gr_ngettext_indexed(g, 50, &zero, slots, 2, "a", "as", 0), GR_ZERO_MODULUS, "as"));
    CHECK(is(gr_ngettext_indexed(g, 50, &zero, slots, 1, "a", "as", 0), GR_INDEX_ROOM, "as"));
    zero.head.root = 512;
    CHECK(is(gr_ngettext_indexed(g, 50, &zero, slots, 1, "a", "as", 0), GR_BAD_RECORD, "as"));
    CHECK(gr_index(g, 50, &zero, slots, 2) == GR_OK);
    /* altered slots: a number above the count is passed by, and full slots end a search */
    slots[0] = UINT32_MAX;
    slots[1] = 1;
    CHECK(is(gr_gettext_indexed(g, 50, &r, slots, 2, "a"), 0, "b"));
    CHECK(is(gr_gettext_indexed(g, 50, &r, slots, 2, "c"), 0, "c"));
    slots[0] = 0;
    CHECK(is(gr_gettext_indexed(g, 50, &r, slots, 2, "a"), 0, "a"));
    /* the empty catalog uses one slot; of a count over 32 bits the low 32 count */
    gr_empty(&zero);
    CHECK(gr_slots(&zero) == 1);
    CHECK(gr_index(NULL, 0, &zero, slots, 0) == GR_INDEX_ROOM);
    CHECK(gr_index(NULL, 0, &zero, slots, 1) == GR_OK && slots[0] == 0);
    zero.head.count = SIZE_MAX;
    CHECK(gr_slots(&zero) == (size_t)1 << 33);
    CHECK(gr_index(NULL, 0, &zero, slots, 3) == GR_INDEX_ROOM);
    free(slots);
    free(g);
}

static void rules(void)
{
    uint8_t *g = copy(50);
    gr_record r;
    CHECK(gr_load(g, 50, with("n%10", GR_STANDARD), &r) == GR_OK);
    CHECK(gr_rating(&r).number == 0 && gr_rating(&r).rated == 1 && gr_rating(&r).lowest == 0 && gr_rating(&r).highest == 9);
    CHECK(gr_fits(&r, 10).number == 0 && gr_fits(&r, 10).fits == 1 && gr_fits(&r, 9).fits == 0);
    CHECK(gr_resolve(&r, 27).number == 0 && gr_resolve(&r, 27).form == 7);
    CHECK(gr_load(g, 50, with("n", GR_STANDARD), &r) == GR_OK);
    CHECK(gr_rating(&r).highest == UINT64_MAX && gr_resolve(&r, UINT64_MAX).form == UINT64_MAX);
    CHECK(gr_load(g, 50, with("5%n", GR_STANDARD), &r) == GR_OK);
    CHECK(gr_rating(&r).number == 0 && gr_rating(&r).rated == 0 && gr_rating(&r).highest == 0);
    CHECK(gr_resolve(&r, 0).number == GR_ZERO_MODULUS && gr_resolve(&r, 0).form == 0);
    free(g);
}

static void rest(void)
{
    uint8_t *g = copy(50);
    gr_record r;
    gr_empty(&r);
    CHECK(r.head.count == 0 && r.head.length == 0 && r.head.nodes == 1);
    CHECK(is(gr_gettext(NULL, 0, &r, "a"), 0, "a"));
    CHECK(is(gr_ngettext(NULL, 0, &r, "a", "as", 2), 0, "as"));
    CHECK(is(gr_gettext(g, 50, &r, "a"), GR_BAD_RECORD, "a"));
    CHECK(gr_rating(&r).rated == 1 && gr_rating(&r).highest == 1);
    CHECK(gr_is_utf8("\xc3\xa4", 2));
    CHECK(!gr_is_utf8("\xc3\xa4", 1));
    CHECK(gr_is_utf8("", 0));

    CHECK(gr_cost(g, 50) == 4);
    CHECK(gr_cost(g, 27) == 0);
    free(g);
}

/* A null text is the empty one, in every place that takes a text; a null file has no bytes, whatever its length is said to be. */
static void nulls(void)
{
    uint8_t *g = copy(50);
    gr_record r;
    CHECK(gr_load(NULL, 50, NULL, &r) == GR_EOF);
    CHECK(gr_load(g, 50, with(NULL, GR_STANDARD), &r) == GR_OK);
    CHECK(is(gr_gettext(g, 50, &r, NULL), 0, ""));
    CHECK(is(gr_pgettext(g, 50, &r, NULL, "a"), 0, "a"));
    CHECK(is(gr_pgettext(g, 50, &r, "x", NULL), 0, ""));
    CHECK(is(gr_ngettext(g, 50, &r, NULL, "as", 1), 0, ""));
    CHECK(is(gr_ngettext(g, 50, &r, "z", NULL, 2), 0, ""));
    CHECK(is(gr_npgettext(g, 50, &r, NULL, NULL, NULL, 2), 0, ""));
    CHECK(is(gr_gettext(NULL, 50, &r, "a"), GR_BAD_RECORD, "a"));
    CHECK(is(gr_ngettext(NULL, 50, &r, "a", "as", 2), GR_BAD_RECORD, "as"));
    CHECK(gr_is_utf8(NULL, 7));
    CHECK(gr_cost(NULL, 7) == 0);
    free(g);
}

/* The charset label is passed over where UTF-8 is forced; a number has a name. */
static void options_and_names(void)
{
    static const char header[] = "Content-Type: text/plain; charset=latin1\n";
    uint8_t file[28 + 16 + 1 + sizeof header];
    gr_record r;
    gr_options o = {NULL, GR_SHIPPED, 0, 0};
    memcpy(file, g_bytes, 44);
    file[28] = 0;                          /* the id of entry 0 is empty .. */
    file[36] = (uint8_t)(sizeof header - 1); /* .. so its translation is the header */
    file[40] = 45;
    file[44] = 0;
    memcpy(file + 45, header, sizeof header);
    CHECK(gr_load(file, sizeof file, &o, &r) == GR_UNKNOWN_ENCODING);
    o.utf8 = 1;
    CHECK(gr_load(file, sizeof file, &o, &r) == GR_OK);
    CHECK(strcmp(gr_error_name(GR_UNKNOWN_ENCODING), "unknown encoding specified") == 0);
    CHECK(strcmp(gr_error_name(9), "no such number") == 0);
}

/* A rule of 512 bytes has at most 512 nodes; one of 513 is too long. */
static void longest_rules(void)
{
    uint8_t *g = copy(50);
    gr_record r;
    char rule[514];
    memset(rule, '!', 512);
    rule[511] = 'n';
    rule[512] = 0;
    CHECK(gr_load(g, 50, with(rule, GR_SHIPPED), &r) == GR_OK && r.head.nodes == 512 && gr_resolve(&r, 7).form == 0);
    CHECK(gr_load(g, 50, with(rule, GR_STANDARD), &r) == GR_OK && r.head.nodes == 512 && gr_resolve(&r, 0).form == 1);
    memset(rule, '!', 513);
    rule[512] = 'n';
    rule[513] = 0;
    CHECK(gr_load(g, 50, with(rule, GR_SHIPPED), &r) == GR_RULE_TOO_LONG);
    CHECK(gr_load(g, 50, with(rule, GR_STANDARD), &r) == GR_RULE_TOO_LONG);
    free(g);
}

/* The text of a rule, with its brackets. */
static void texts(void)
{
    size_t size = 50;
    uint8_t *g = copy(size);
    gr_record r;
    char buffer[513];
    memset(buffer, '~', sizeof buffer);
    CHECK(gr_load(g, size, with("n%10==1 ? 0 : !n", GR_STANDARD), &r) == GR_OK);
    gr_written w = gr_rule_text(&r, buffer, 512);
    CHECK(w.number == GR_OK && w.len == 20 && memcmp(buffer, "(((n%10)==1)?0:(!n))~", 21) == 0);
    CHECK(gr_load(g, size, with("(((n%10)==1)?0:(!n))", GR_SHIPPED), &r) == GR_OK && gr_resolve(&r, 11).form == 0 && gr_resolve(&r, 0).form == 1);
    memset(buffer, '~', sizeof buffer);
    w = gr_rule_text(&r, buffer, 19);
    CHECK(w.number == GR_RULE_TOO_LONG && w.len == 0 && buffer[0] == '~');
    r.head.root = 512;
    CHECK(gr_rule_text(&r, buffer, 512).number == GR_BAD_RECORD && buffer[0] == '~');
    free(g);
}

/* Which forms a rule names over a span of counts. */
static void spans(void)
{
    size_t size = 50;
    uint8_t *g = copy(size);
    gr_record r;
    uint64_t figures[GR_FIGURES];
    CHECK(gr_load(g, size, with("n%3", GR_STANDARD), &r) == GR_OK);
    CHECK(gr_span(&r, 0, 9, figures) == GR_OK && figures[0] == 4 && figures[1] == 3 && figures[2] == 3 && figures[3] == 0);
    CHECK(gr_span(&r, UINT64_MAX, UINT64_MAX, figures) == GR_OK && figures[0] == 1 && figures[1] == 0);
    CHECK(gr_span(&r, 1, 0, figures) == GR_BAD_SPAN && figures[0] == 0 && figures[1] == 0);
    CHECK(gr_span(&r, 0, 999999, figures) == GR_OK && figures[0] == 333334);
    CHECK(gr_span(&r, 0, 1000000, figures) == GR_BAD_SPAN && figures[0] == 0);
    CHECK(gr_load(g, size, with("40/(n%2)", GR_STANDARD), &r) == GR_OK);
    CHECK(gr_span(&r, 0, 4, figures) == GR_OK && figures[GR_ABOVE] == 2 && figures[GR_ZERO] == 3);
    r.head.root = 512;
    CHECK(gr_span(&r, 1, 0, figures) == GR_BAD_RECORD && figures[GR_ZERO] == 0);
    free(g);
}

/* A case for each reason, and the text that it leads to. */
static void reasons(void)
{
    uint8_t *g = copy(50);
    gr_record r;
    gr_explained w;
    CHECK(gr_load(g, 50, with("n!=1", GR_STANDARD), &r) == GR_OK);
    w = gr_why_ngettext(g, 50, &r, "a", 2);
    CHECK(w.kind == GR_ANSWERED && w.number == GR_OK && w.entry == 0 && w.form == 1 && w.start == 48 && w.len == 1 && w.stored == 0);
    CHECK(is(gr_text_why(w, g, "a", "as"), GR_OK, "c") && is(gr_ngettext(g, 50, &r, "a", "as", 2), GR_OK, "c"));
    w = gr_why_ngettext(g, 50, &r, "z", 1);
    CHECK(w.kind == GR_NO_ENTRY && w.number == GR_OK && is(gr_text_why(w, g, "z", "zs"), GR_OK, "z"));
    w = gr_why_npgettext(g, 50, &r, "x", "a", 2);
    CHECK(w.kind == GR_NO_ENTRY && w.number == GR_OK && is(gr_text_why(w, g, "a", "as"), GR_OK, "as"));
    w = gr_why_ngettext(g, 49, &r, "a", 2);
    CHECK(w.kind == GR_STALE_LENGTH && w.number == GR_BAD_RECORD && is(gr_text_why(w, g, "a", "as"), GR_BAD_RECORD, "as"));
    CHECK(gr_load(g, 50, with("n+1", GR_STANDARD), &r) == GR_OK);
    w = gr_why_ngettext(g, 50, &r, "a", 1);
    CHECK(w.kind == GR_TOO_FEW_SEGMENTS && w.number == GR_OK && w.entry == 0 && w.stored == 2 && w.form == 2 && w.start == 0);
    CHECK(is(gr_text_why(w, g, "a", "as"), GR_OK, "a"));
    /* nodes: 0 is 5, 1 is n, 2 is the / between them, 3 the ! above */
    CHECK(gr_load(g, 50, with("!(5/n)", GR_STANDARD), &r) == GR_OK && r.head.nodes == 4);
    w = gr_why_ngettext(g, 50, &r, "a", 0);
    CHECK(w.kind == GR_ZERO_DIVISOR && w.number == GR_ZERO_MODULUS && w.node == 2 && w.entry == 0);
    CHECK(is(gr_text_why(w, g, "a", "as"), GR_ZERO_MODULUS, "as"));
    r.head.root = 512;
    w = gr_why_ngettext(g, 50, &r, "a", 0);
    CHECK(w.kind == GR_NO_TREE && w.number == GR_BAD_RECORD && w.which == GR_PLURAL_ID);
    CHECK(gr_why_ngettext(NULL, 50, &r, "a", 0).kind == GR_STALE_LENGTH);
    CHECK(strcmp(gr_reason_name(GR_ZERO_DIVISOR), "the rule divides by zero") == 0 && strcmp(gr_reason_name(0), "no such reason") == 0);
    free(g);
}

int main(void)
{
    reasons();
    nulls();
    spans();
    texts();
    options_and_names();
    longest_rules();
    loads_and_refusals();
    places();
    counts_of_forms();
    lookups();
    altered_records();
    indexes();
    rules();
    rest();
    if (failed != 0) {
        printf("%u of %u checks failed\n", failed, checks);
        return 1;
    }
    printf("%u checks passed\n", checks);
    return 0;
}
