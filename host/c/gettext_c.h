/*
 * MO catalogs where they lie: the proved port of gettext 0.4.0 for a host in C. Link with libgettext_c.a, which host/library builds.
 * C99 or later, and C++11 or later.
 *
 * Ownership. The caller owns everything. The file's bytes are lent for the time of a call; a load writes the record that it is given,
 * building an index writes the slots that it is given, and no other call writes anything. The library keeps no pointer and allocates nothing. The record is a plain value: it may be copied,
 * stored, sent to another process. A lookup answers with a part of the file or one of the caller's own texts; a text lives as long as
 * what it is a part of.
 *
 * Threads. The library has no state. Any calls may run at the same time.
 *
 * Stack. 256 KiB are enough for any load, 32 KiB for every other call and for a load with the rule n, whatever the file, the rule and the record; of
 * these, 122,696 and 22,448 bytes were taken at most (x86-64). stack.c makes the calls on stacks of just that size.
 *
 * Input. Every value has an answer: any bytes as file, any record and any slots (altered, or of another file), any rule, any key and any
 * count. In the
 * gr_ functions a null text is the empty text, and a null file is one of no bytes. A record that is given by pointer is not null.
 *
 * The contract of each function is in crates/gettext_c/src/lib.rt.
 */
#ifndef GETTEXT_C_H
#define GETTEXT_C_H

#include <stddef.h>
#include <stdint.h>
#include <string.h>

#ifdef __cplusplus
extern "C" {
#endif

#define GR_VERSION "0.3.0"
#define GR_VERSION_NUMBER 300 /* 10000 * major + 100 * minor + patch */

/* 1 to 8 and 13 come from a load and refuse the file; 10 to 12 come from a lookup, whose answer is then the caller's own text, 11 and 12 also from
 * building an index. 9 is not given. */
enum gr_number {
    GR_OK = 0,
    GR_EOF = 1,                /* the file ends before something that it names */
    GR_BAD_MAGIC = 2,          /* the first four bytes are not those of an MO file */
    GR_DECODING_ERROR = 3,     /* a context, an id or a translation is not UTF-8 */
    GR_MALFORMED_METADATA = 4, /* a line of the header has no colon */
    GR_MISPLACED_METADATA = 5, /* an empty id at another entry than the first */
    GR_PLURAL_PARSING = 6,     /* the plural rule has no reading */
    GR_UNKNOWN_ENCODING = 7,   /* the header's charset is not UTF-8 */
    GR_RULE_TOO_LONG = 8,      /* the plural rule has over 512 bytes */
    GR_ZERO_MODULUS = 10,      /* the plural rule takes a remainder by zero at this count */
    GR_BAD_RECORD = 11,        /* the file has another length than the record says, or its rule is no tree */
    GR_INDEX_ROOM = 12,        /* fewer slots are lent than the index uses */
    GR_NOT_FIT = 13,           /* the load demands that the rule fit the header's count of forms: there is none, or it does not */
    GR_BAD_SPAN = 17           /* a span of counts that ends before it begins, or of over 1,000,000 */
};

/* Where a refused load failed: the side of an entry. A refusal of the whole file names none. */
enum gr_side {
    GR_NO_SIDE = 0,
    GR_ORIGINAL = 1,    /* a context or an id */
    GR_TRANSLATION = 2, /* a translation, that of the header too */
    GR_HEADER = 3,      /* the header's lines, or its charset label */
    GR_RULE = 4         /* the plural rule, the header's or a forced one */
};

/* Which text answers a lookup. */
enum gr_which {
    GR_SEGMENT = 0,  /* the part of the file at start, of len bytes */
    GR_ID = 1,       /* the caller's id */
    GR_PLURAL_ID = 2 /* the caller's plural id */
};

/* How plural rules are read, the header's and a forced one alike. */
enum gr_reading {
    GR_SHIPPED = 0, /* as gettext 0.4.0 reads them: it cuts at && before it looks for ?: */
    GR_STANDARD = 1 /* by C's grammar, as the GNU gettext manual asks */
};

/* The head of a record: the file's length, how many entries it has, where its tables lie, whether (not 0) the highest byte of a word
 * comes first, how many nodes the rule has, and which is its root. */
typedef struct gr_head {
    size_t length;
    size_t count;
    size_t originals;
    size_t translations;
    size_t big;
    size_t nodes;
    size_t root;
} gr_head;

/* What lookups need beside the file, and the header's count of forms, which they do not look at: 6,728 bytes. The rule is nodes: codes, two
 * fields each, and values. Where counted is 1 forms is the count, else both are 0. */
typedef struct gr_record {
    gr_head head;
    uint64_t values[512];
    uint16_t places[1024];
    uint8_t codes[512];
    uint64_t forms;
    uint32_t counted;
} gr_record;

/* A load's number, and the head of its record: that of the empty catalog where the number is not 0. Where a load was refused, side is the
 * side that failed, and where entered is 1, entry is the entry, counted from 0; the whole file names neither, a forced rule its side only.
 * Where counted is 1, forms is the header's count of forms. */
typedef struct gr_loaded {
    uint32_t number;
    uint32_t side;
    uint32_t entered;
    uint32_t counted;
    size_t entry;
    uint64_t forms;
    gr_head head;
} gr_loaded;

/* A lookup's answer. Where which is GR_SEGMENT, entry is the index of the entry, form which of its translation's forms, and start + len is
 * at most the file's length, whatever the record; else all four are 0. */
typedef struct gr_answer {
    uint32_t number;
    uint32_t which;
    size_t entry;
    uint64_t form;
    size_t start;
    size_t len;
} gr_answer;

/* The lowest and the highest form that a rule can name, where rated is 1; else rated, lowest and highest are 0. */
typedef struct gr_range {
    uint32_t number;
    uint32_t rated;
    uint64_t lowest;
    uint64_t highest;
} gr_range;

/* fits is 1 or 0. */
typedef struct gr_fit {
    uint32_t number;
    uint32_t fits;
} gr_fit;

/* The form where number is 0, else 0. */
typedef struct gr_form {
    uint32_t number;
    uint64_t form;
} gr_form;

/* How long the text of a rule is that was written, beside GR_OK. */
typedef struct gr_written {
    uint32_t number;
    size_t len;
} gr_written;

/* Why a plural lookup answers as it does: the first of these that holds. */
enum gr_reason {
    GR_STALE_LENGTH = 1,     /* the file has another length than the record says */
    GR_NO_TREE = 2,          /* the nodes of the record's rule are no tree */
    GR_ZERO_DIVISOR = 3,     /* the rule divides by zero, at node */
    GR_NO_ENTRY = 4,         /* no entry has the key */
    GR_TOO_FEW_SEGMENTS = 5, /* the last entry with the key stores so many forms, and the rule names form */
    GR_ANSWERED = 6          /* the segment of entry for form, at start of the file, of len bytes */
};

/* A reason, and what the lookup answers, which is a function of it: number and which are as in gr_answer. What a reason does not tell is 0. */
typedef struct gr_explained {
    uint32_t kind;
    uint32_t number;
    uint32_t which;
    size_t node; /* the place of the / or % in the record's own nodes, or of the node that it is packed into */
    size_t entry;
    size_t stored;
    uint64_t form;
    size_t start; /* from the file's first byte */
    size_t len;
} gr_explained;

/* A layout that the library does not share does not compile: an array of a negative size. */
#define GR_LAYOUT(name, holds) typedef char gr_layout_of_##name[(holds) ? 1 : -1]
GR_LAYOUT(size_t, sizeof(size_t) == 8);
GR_LAYOUT(gr_head, sizeof(gr_head) == 56);
GR_LAYOUT(gr_record, sizeof(gr_record) == 6728);
GR_LAYOUT(gr_record_values, offsetof(gr_record, values) == 56);
GR_LAYOUT(gr_record_places, offsetof(gr_record, places) == 56 + 4096);
GR_LAYOUT(gr_record_codes, offsetof(gr_record, codes) == 56 + 4096 + 2048);
GR_LAYOUT(gr_record_forms, offsetof(gr_record, forms) == 56 + 4096 + 2048 + 512);
GR_LAYOUT(gr_loaded, sizeof(gr_loaded) == 88);
GR_LAYOUT(gr_loaded_entry, offsetof(gr_loaded, entry) == 16);
GR_LAYOUT(gr_loaded_forms, offsetof(gr_loaded, forms) == 24);
GR_LAYOUT(gr_answer, sizeof(gr_answer) == 40);
GR_LAYOUT(gr_range, sizeof(gr_range) == 24);
GR_LAYOUT(gr_fit, sizeof(gr_fit) == 8);
GR_LAYOUT(gr_form, sizeof(gr_form) == 16);
GR_LAYOUT(gr_explained, sizeof(gr_explained) == 64);

/*
 * The exported functions, as the library has them: pointers and lengths, none of them null, also where the length is 0. A host rather calls
 * the gr_ functions below. A flag is set by any number but 0; `given` says that a context is given.
 */
gr_loaded gettext_c_empty(uint8_t codes[512], uint16_t places[1024], uint64_t values[512]);
gr_loaded gettext_c_load(const uint8_t *file, size_t file_len, const uint8_t *rule, size_t rule_len, uint32_t forced, uint32_t standard,
                         uint32_t utf8, uint32_t fit, uint8_t codes[512], uint16_t places[1024], uint64_t values[512]);
gr_answer gettext_c_gettext(const uint8_t *file, size_t file_len, const gr_head *head, uint32_t given, const uint8_t *context,
                            size_t context_len, const uint8_t *id, size_t id_len);
gr_answer gettext_c_ngettext(const uint8_t *file, size_t file_len, const gr_head *head, const uint8_t codes[512],
                             const uint16_t places[1024], const uint64_t values[512], uint32_t given, const uint8_t *context,
                             size_t context_len, const uint8_t *id, size_t id_len, uint64_t n);
size_t gettext_c_slots(const gr_head *head);
uint32_t gettext_c_index(const uint8_t *file, size_t file_len, const gr_head *head, uint32_t *slots, size_t slots_len);
gr_answer gettext_c_gettext_indexed(const uint8_t *file, size_t file_len, const gr_head *head, const uint32_t *slots, size_t slots_len,
                                    uint32_t given, const uint8_t *context, size_t context_len, const uint8_t *id, size_t id_len);
gr_answer gettext_c_ngettext_indexed(const uint8_t *file, size_t file_len, const gr_head *head, const uint32_t *slots, size_t slots_len,
                                     const uint8_t codes[512], const uint16_t places[1024], const uint64_t values[512], uint32_t given,
                                     const uint8_t *context, size_t context_len, const uint8_t *id, size_t id_len, uint64_t n);
gr_range gettext_c_rating(const gr_head *head, const uint8_t codes[512], const uint16_t places[1024], const uint64_t values[512]);
gr_fit gettext_c_fits(const gr_head *head, const uint8_t codes[512], const uint16_t places[1024], const uint64_t values[512], uint64_t k);
gr_form gettext_c_resolve(const gr_head *head, const uint8_t codes[512], const uint16_t places[1024], const uint64_t values[512],
                          uint64_t n);
uint32_t gettext_c_span(const gr_head *head, const uint8_t codes[512], const uint16_t places[1024], const uint64_t values[512], uint64_t a,
                        uint64_t b, uint64_t figures[18]);
gr_written gettext_c_text(const gr_head *head, const uint8_t codes[512], const uint16_t places[1024], const uint64_t values[512],
                          uint8_t *buffer, size_t buffer_len);
gr_explained gettext_c_why_ngettext(const uint8_t *file, size_t file_len, const gr_head *head, const uint8_t codes[512],
                                    const uint16_t places[1024], const uint64_t values[512], uint32_t given, const uint8_t *context,
                                    size_t context_len, const uint8_t *id, size_t id_len, uint64_t n);
uint32_t gettext_c_is_utf8(const uint8_t *text, size_t text_len);
uint64_t gettext_c_cost(const uint8_t *file, size_t file_len);

/*
 * The same in one call each. Ids, contexts and rules are strings that end in NUL. The text of an answer does NOT end in NUL in general:
 * take len bytes, as in printf("%.*s", (int)t.len, t.text).
 */
typedef struct gr_text {
    const char *text;
    size_t len;
    uint32_t number;
} gr_text;

/* Figures of a span: of forms 0 to 15, then of those above, then of the counts that meet a zero divisor. */
enum { GR_ABOVE = 16, GR_ZERO = 17, GR_FIGURES = 18 };

/* How to load. All zero, the default: no rule is forced, rules are read the Shipped way, the charset label must be UTF-8's, and the rule need
 * not fit the header's count of forms. */
typedef struct gr_options {
    const char *rule;        /* the plural rule instead of the header's, or null */
    enum gr_reading reading; /* how plural rules are read */
    int utf8;                /* not 0: the charset label is passed over; the texts must be UTF-8 all the same */
    int fit;                 /* not 0: the rule has to fit the count of forms that the header gives, else GR_NOT_FIT */
} gr_options;

/* The name of a number, for people. */
static inline const char *gr_error_name(uint32_t number)
{
    switch (number) {
    case GR_OK: return "ok";
    case GR_EOF: return "unexpected end of file";
    case GR_BAD_MAGIC: return "bad magic number";
    case GR_DECODING_ERROR: return "invalid byte sequence in a string";
    case GR_MALFORMED_METADATA: return "metadata syntax error";
    case GR_MISPLACED_METADATA: return "misplaced metadata";
    case GR_PLURAL_PARSING: return "invalid plural expression";
    case GR_UNKNOWN_ENCODING: return "unknown encoding specified";
    case GR_RULE_TOO_LONG: return "plural expression over 512 bytes";
    case GR_ZERO_MODULUS: return "the plural expression divides by zero";
    case GR_BAD_RECORD: return "the record does not belong to the file";
    case GR_INDEX_ROOM: return "too few slots for the index";
    case GR_NOT_FIT: return "the plural expression does not fit the number of forms in the header";
    case GR_BAD_SPAN: return "no span of at most 1000000 counts";
    default: return "no such number";
    }
}

/* The name of a side, for people. */
static inline const char *gr_side_name(uint32_t side)
{
    switch (side) {
    case GR_NO_SIDE: return "none";
    case GR_ORIGINAL: return "original";
    case GR_TRANSLATION: return "translation";
    case GR_HEADER: return "header";
    case GR_RULE: return "rule";
    default: return "no such side";
    }
}

static inline const uint8_t *gr_bytes(const void *text)
{
    return (const uint8_t *)(text != NULL ? text : "");
}

static inline size_t gr_length(const char *text)
{
    return text != NULL ? strlen(text) : 0;
}

/* The length of the bytes at a pointer: none at a null one. */
static inline size_t gr_size(const void *file, size_t file_len)
{
    return file != NULL ? file_len : 0;
}

/* The text that an answer names. */
static inline gr_text gr_text_of(gr_answer a, const void *file, const char *id, const char *plural_id)
{
    gr_text t;
    t.number = a.number;
    if (a.which == GR_SEGMENT) {
        t.text = (const char *)gr_bytes(file) + a.start;
        t.len = a.len;
    } else {
        const char *own = a.which == GR_ID ? id : plural_id;
        t.text = (const char *)gr_bytes(own);
        t.len = gr_length(own);
    }
    return t;
}

/* Makes *record that of the empty catalog: no entries, and the default rule n != 1. */
static inline void gr_empty(gr_record *record)
{
    record->head = gettext_c_empty(record->codes, record->places, record->values).head;
    record->forms = 0;
    record->counted = 0;
}

/* Loads into *record and tells how it went; where the number is not 0 the record is the empty catalog's, and side, entered and entry say
 * where the load failed. Null options are the default. */
static inline gr_loaded gr_load_located(const void *file, size_t file_len, const gr_options *options, gr_record *record)
{
    const char *rule = options != NULL ? options->rule : NULL;
    uint32_t standard = options != NULL && options->reading == GR_STANDARD;
    uint32_t utf8 = options != NULL && options->utf8 != 0;
    uint32_t fit = options != NULL && options->fit != 0;
    gr_loaded l = gettext_c_load(gr_bytes(file), gr_size(file, file_len), gr_bytes(rule), gr_length(rule), rule != NULL, standard, utf8,
                                 fit, record->codes, record->places, record->values);
    record->head = l.head;
    record->forms = l.forms;
    record->counted = l.counted;
    return l;
}

/* The same, and returns the number alone. */
static inline uint32_t gr_load(const void *file, size_t file_len, const gr_options *options, gr_record *record)
{
    return gr_load_located(file, file_len, options, record).number;
}

/* The translation of the id, alone or in a context. Without one: the id, with number 0. */
static inline gr_text gr_gettext(const void *file, size_t file_len, const gr_record *r, const char *id)
{
    gr_answer a = gettext_c_gettext(gr_bytes(file), gr_size(file, file_len), &r->head, 0, gr_bytes(NULL), 0, gr_bytes(id), gr_length(id));
    return gr_text_of(a, file, id, id);
}

static inline gr_text gr_pgettext(const void *file, size_t file_len, const gr_record *r, const char *context, const char *id)
{
    gr_answer a = gettext_c_gettext(gr_bytes(file), gr_size(file, file_len), &r->head, 1, gr_bytes(context), gr_length(context),
                                    gr_bytes(id), gr_length(id));
    return gr_text_of(a, file, id, id);
}

/* The same in the form for the count n. Without one: the id if n is 1, the plural id otherwise. */
static inline gr_text gr_ngettext(const void *file, size_t file_len, const gr_record *r, const char *id, const char *plural_id, uint64_t n)
{
    gr_answer a = gettext_c_ngettext(gr_bytes(file), gr_size(file, file_len), &r->head, r->codes, r->places, r->values, 0, gr_bytes(NULL), 0,
                                     gr_bytes(id), gr_length(id), n);
    return gr_text_of(a, file, id, plural_id);
}

static inline gr_text gr_npgettext(const void *file, size_t file_len, const gr_record *r, const char *context, const char *id,
                                   const char *plural_id, uint64_t n)
{
    gr_answer a = gettext_c_ngettext(gr_bytes(file), gr_size(file, file_len), &r->head, r->codes, r->places, r->values, 1,
                                     gr_bytes(context), gr_length(context), gr_bytes(id), gr_length(id), n);
    return gr_text_of(a, file, id, plural_id);
}

/* Why gr_ngettext and gr_npgettext of the same answer as they do; the text that they give is gr_text_why's. */
static inline gr_explained gr_why_ngettext(const void *file, size_t file_len, const gr_record *r, const char *id, uint64_t n)
{
    return gettext_c_why_ngettext(gr_bytes(file), gr_size(file, file_len), &r->head, r->codes, r->places, r->values, 0, gr_bytes(NULL), 0,
                                  gr_bytes(id), gr_length(id), n);
}

static inline gr_explained gr_why_npgettext(const void *file, size_t file_len, const gr_record *r, const char *context, const char *id,
                                            uint64_t n)
{
    return gettext_c_why_ngettext(gr_bytes(file), gr_size(file, file_len), &r->head, r->codes, r->places, r->values, 1, gr_bytes(context),
                                  gr_length(context), gr_bytes(id), gr_length(id), n);
}

/* The text that a reason leads to. */
static inline gr_text gr_text_why(gr_explained w, const void *file, const char *id, const char *plural_id)
{
    gr_answer a = {w.number, w.which, w.entry, w.form, w.start, w.len};
    return gr_text_of(a, file, id, plural_id);
}

/* The name of a reason, for people. */
static inline const char *gr_reason_name(uint32_t kind)
{
    switch (kind) {
    case GR_STALE_LENGTH: return "the file has another length than the record says";
    case GR_NO_TREE: return "the nodes of the record's rule are no tree";
    case GR_ZERO_DIVISOR: return "the rule divides by zero";
    case GR_NO_ENTRY: return "no entry has this id";
    case GR_TOO_FEW_SEGMENTS: return "the entry has fewer forms than the rule names";
    case GR_ANSWERED: return "answered";
    default: return "no such reason";
    }
}

/*
 * An index beside the catalog, for files of many entries: slots that the caller owns, of which gr_slots says how many are used. gr_index
 * builds it, and answers GR_OK, GR_BAD_RECORD or, exactly where fewer are lent, GR_INDEX_ROOM; a refusal writes none, and slots behind
 * those that are used stay as they are. The lookups then take the slots beside the record, and answer as those above. Slots that were
 * altered, or built from another file, do no harm: a text that is found is then still one of an entry with the key. Null slots are none.
 */
static inline size_t gr_slots(const gr_record *r)
{
    return gettext_c_slots(&r->head);
}

/* No slots, where a pointer is null. */
static inline const uint32_t *gr_none(const uint32_t *slots)
{
    static const uint32_t none = 0;
    return slots != NULL ? slots : &none;
}

static inline uint32_t gr_index(const void *file, size_t file_len, const gr_record *r, uint32_t *slots, size_t slots_len)
{
    uint32_t none = 0;
    return gettext_c_index(gr_bytes(file), gr_size(file, file_len), &r->head, slots != NULL ? slots : &none, gr_size(slots, slots_len));
}

static inline gr_text gr_gettext_indexed(const void *file, size_t file_len, const gr_record *r, const uint32_t *slots, size_t slots_len,
                                         const char *id)
{
    gr_answer a = gettext_c_gettext_indexed(gr_bytes(file), gr_size(file, file_len), &r->head, gr_none(slots), gr_size(slots, slots_len),
                                            0, gr_bytes(NULL), 0, gr_bytes(id), gr_length(id));
    return gr_text_of(a, file, id, id);
}

static inline gr_text gr_pgettext_indexed(const void *file, size_t file_len, const gr_record *r, const uint32_t *slots, size_t slots_len,
                                          const char *context, const char *id)
{
    gr_answer a = gettext_c_gettext_indexed(gr_bytes(file), gr_size(file, file_len), &r->head, gr_none(slots), gr_size(slots, slots_len),
                                            1, gr_bytes(context), gr_length(context), gr_bytes(id), gr_length(id));
    return gr_text_of(a, file, id, id);
}

static inline gr_text gr_ngettext_indexed(const void *file, size_t file_len, const gr_record *r, const uint32_t *slots, size_t slots_len,
                                          const char *id, const char *plural_id, uint64_t n)
{
    gr_answer a = gettext_c_ngettext_indexed(gr_bytes(file), gr_size(file, file_len), &r->head, gr_none(slots), gr_size(slots, slots_len),
                                             r->codes, r->places, r->values, 0, gr_bytes(NULL), 0, gr_bytes(id), gr_length(id), n);
    return gr_text_of(a, file, id, plural_id);
}

static inline gr_text gr_npgettext_indexed(const void *file, size_t file_len, const gr_record *r, const uint32_t *slots, size_t slots_len,
                                           const char *context, const char *id, const char *plural_id, uint64_t n)
{
    gr_answer a =
        gettext_c_ngettext_indexed(gr_bytes(file), gr_size(file, file_len), &r->head, gr_none(slots), gr_size(slots, slots_len), r->codes,
                                   r->places, r->values, 1, gr_bytes(context), gr_length(context), gr_bytes(id), gr_length(id), n);
    return gr_text_of(a, file, id, plural_id);
}

/* The rule's range; whether it has one and its highest form is below k; the form that it names for n. */
static inline gr_range gr_rating(const gr_record *r)
{
    return gettext_c_rating(&r->head, r->codes, r->places, r->values);
}

static inline gr_fit gr_fits(const gr_record *r, uint64_t k)
{
    return gettext_c_fits(&r->head, r->codes, r->places, r->values, k);
}

static inline gr_form gr_resolve(const gr_record *r, uint64_t n)
{
    return gettext_c_resolve(&r->head, r->codes, r->places, r->values, n);
}

/*
 * Writes the rule's text with brackets round every operator: both readings give that very rule back (the Standard one alone, where it has
 * + - * or /). A buffer of 512 bytes is always enough. Answers GR_OK and the length, GR_BAD_RECORD, or GR_RULE_TOO_LONG for a text over 512 bytes or
 * longer than the buffer; a refusal writes nothing, and the rest of the buffer stays. No NUL is added.
 */
static inline gr_written gr_rule_text(const gr_record *r, char *buffer, size_t buffer_len)
{
    return gettext_c_text(&r->head, r->codes, r->places, r->values, (uint8_t *)buffer, buffer_len);
}

/*
 * How often each form of the rule occurs for the counts from a to b, both counted in. Answers GR_OK, GR_BAD_RECORD or GR_BAD_SPAN; a refusal leaves
 * all figures 0. The figures add up to b - a + 1.
 */
static inline uint32_t gr_span(const gr_record *r, uint64_t a, uint64_t b, uint64_t figures[GR_FIGURES])
{
    return gettext_c_span(&r->head, r->codes, r->places, r->values, a, b, figures);
}

/* Whether a text is UTF-8 by RFC 3629. */
static inline int gr_is_utf8(const void *text, size_t text_len)
{
    return gettext_c_is_utf8(gr_bytes(text), gr_size(text, text_len)) != 0;
}

/* What loading a file costs: the sum of the lengths that its tables state, which is how many bytes of strings a load looks at, at most, in
 * the time of a pass over its tables. Entries may overlap, so a file of 1 MiB can cost gigabytes: a host that loads what strangers send
 * refuses first what it will not pay for. A file whose entries do not overlap costs less than it has bytes. */
static inline uint64_t gr_cost(const void *file, size_t file_len)
{
    return gettext_c_cost(gr_bytes(file), gr_size(file, file_len));
}

#ifdef __cplusplus
}
#endif

#endif
