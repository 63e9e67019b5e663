/*
 * Calls the library on stacks of just the size that gettext_c.h states, with the deepest rules there are: 256 KiB for a load, 32 KiB for a load
 * with the rule n and for every other call. Below each stack lies a page that cannot be touched, so that a call which takes more ends the
 * program, which says which it was. Says how much of its stack each call took, at most.
 */
#define _GNU_SOURCE
#include "gettext_c.h"

#include <signal.h>
#include <stdio.h>
#include <stdlib.h>
#include <sys/mman.h>
#include <unistd.h>

enum { LOAD_STACK = 256 * 1024, CALL_STACK = 32 * 1024, PAINT = 0xa5 };

static unsigned failed, calls;

static void die(const char *what)
{
    perror(what);
    exit(2);
}

/* The call under way, for the message of one that takes more than its stack. */
static char under_way[160];

static void overflow(int signal)
{
    (void)signal;
    if (write(STDERR_FILENO, under_way, strlen(under_way)) < 0) {
        _exit(3);
    }
    _exit(1);
}

static void watch(void)
{
    static uint8_t other[64 * 1024];
    struct sigaction action;
    stack_t stack;
    memset(&action, 0, sizeof action);
    memset(&stack, 0, sizeof stack);
    action.sa_handler = overflow;
    action.sa_flags = SA_ONSTACK;
    stack.ss_sp = other;
    stack.ss_size = sizeof other;
    if (sigaltstack(&stack, NULL) != 0 || sigaction(SIGSEGV, &action, NULL) != 0) {
        die("stack.c: a handler");
    }
}

/* Memory of so many bytes, with a page below it that cannot be touched. */
static uint8_t *guarded(size_t size)
{
    size_t page = (size_t)sysconf(_SC_PAGESIZE);
    uint8_t *p = mmap(NULL, page + size, PROT_READ | PROT_WRITE, MAP_PRIVATE | MAP_ANONYMOUS, -1, 0);
    if (p == MAP_FAILED || mprotect(p, page, PROT_NONE) != 0) {
        die("stack.c: a stack");
    }
    return p + page;
}

/* Calls f on the stack that ends at top. */
static void call_on(uint8_t *top, void (*f)(void))
{
#if defined __aarch64__
    __asm__ volatile("mov x19, sp\n\tmov sp, %0\n\tblr %1\n\tmov sp, x19"
                     :
                     : "r"(top), "r"(f)
                     : "x0", "x1", "x2", "x3", "x4", "x5", "x6", "x7", "x8", "x9", "x10", "x11", "x12", "x13", "x14", "x15", "x16", "x17",
                       "x18", "x19", "x30", "v0", "v1", "v2", "v3", "v4", "v5", "v6", "v7", "v16", "v17", "v18", "v19", "v20", "v21", "v22",
                       "v23", "v24", "v25", "v26", "v27", "v28", "v29", "v30", "v31", "memory", "cc");
#elif defined __x86_64__
    __asm__ volatile("mov %%rsp, %%rbx\n\tmov %0, %%rsp\n\tcall *%1\n\tmov %%rbx, %%rsp"
                     :
                     : "r"(top), "r"(f)
                     : "rax", "rbx", "rcx", "rdx", "rsi", "rdi", "r8", "r9", "r10", "r11", "xmm0", "xmm1", "xmm2", "xmm3", "xmm4", "xmm5",
                       "xmm6", "xmm7", "xmm8", "xmm9", "xmm10", "xmm11", "xmm12", "xmm13", "xmm14", "xmm15", "memory", "cc");
#else
#error "stack.c knows x86-64 and aarch64"
#endif
}

/* How many bytes of a stack a call of f takes. */
static size_t taken(uint8_t *stack, size_t size, void (*f)(void), const char *what, const char *rule)
{
    size_t left = 0;
    memset(stack, PAINT, size);
    snprintf(under_way, sizeof under_way, "stack.c: %s takes more than %zu bytes of stack: %s\n", what, size, rule);
    calls++;
    call_on(stack + size, f);
    while (left < size && stack[left] == PAINT) {
        left++;
    }
    return size - left;
}

/* What the calls take and give: no stack of theirs is used for it. */
static uint8_t file[4096];
static size_t file_len;
static gr_options options;
static gr_record record;
static uint32_t number;
static uint32_t slots[64];
static uint64_t figures[GR_FIGURES];
static char buffer[512];
static uint64_t count;

static void load(void) { number = gr_load(file, file_len, &options, &record); }
static void rating(void) { number = gr_rating(&record).number; }
static void fits(void) { number = gr_fits(&record, 3).number; }
static void resolve(void) { number = gr_resolve(&record, count).number; }
static void text(void) { number = gr_rule_text(&record, buffer, sizeof buffer).number; }
static void span(void) { number = gr_span(&record, count, count + 2, figures); }
static void plain(void) { number = gr_gettext(file, file_len, &record, "one").number; }
static void in_context(void) { number = gr_pgettext(file, file_len, &record, "menu", "one").number; }
static void plural(void) { number = gr_ngettext(file, file_len, &record, "one", "many", count).number; }
static void plural_in_context(void) { number = gr_npgettext(file, file_len, &record, "menu", "one", "many", count).number; }
static void index_building(void) { number = gr_index(file, file_len, &record, slots, 64); }
static void index_plain(void) { number = gr_gettext_indexed(file, file_len, &record, slots, 64, "one").number; }
static void index_in_context(void) { number = gr_pgettext_indexed(file, file_len, &record, slots, 64, "menu", "one").number; }
static void index_plural(void) { number = gr_ngettext_indexed(file, file_len, &record, slots, 64, "one", "many", count).number; }
static void index_plural_in_context(void)
{
    number = gr_npgettext_indexed(file, file_len, &record, slots, 64, "menu", "one", "many", count).number;
}
static void cost(void) { number = (uint32_t)gr_cost(file, file_len); }
static void utf8(void) { number = (uint32_t)gr_is_utf8(file, file_len); }

static const struct call {
    const char *name;
    void (*run)(void);
} all[] = {
    {"rating", rating},
    {"fits", fits},
    {"resolve", resolve},
    {"rule text", text},
    {"span", span},
    {"gettext", plain},
    {"pgettext", in_context},
    {"ngettext", plural},
    {"npgettext", plural_in_context},
    {"index, building", index_building},
    {"index, gettext", index_plain},
    {"index, pgettext", index_in_context},
    {"index, ngettext", index_plural},
    {"index, npgettext", index_plural_in_context},
    {"cost", cost},
    {"UTF-8 test", utf8},
};
enum { ALL = sizeof all / sizeof all[0] };

static uint8_t *load_stack, *call_stack;
static size_t most[ALL], most_load[2], most_n[2];
static char deepest[ALL][80], deepest_load[2][80];

static void note(size_t *figure, char *where, size_t now, const char *name)
{
    if (*figure < now) {
        *figure = now;
        snprintf(where, 80, "%s", name);
    }
}

/* Every call but a load, on the record that there is, at counts that make the operators go both ways. The numbers that a rule allows are 0,
 * "over 512 bytes" of its text, and a zero divisor. */
static void call_all(const char *name)
{
    static const uint64_t counts[] = {0, 1, 2, 7, UINT64_MAX - 2};
    for (size_t i = 0; i < ALL; i++) {
        for (size_t j = 0; j < sizeof counts / sizeof counts[0]; j++) {
            count = counts[j];
            note(&most[i], deepest[i], taken(call_stack, CALL_STACK, all[i].run, all[i].name, name), name);
            if (all[i].run != cost && all[i].run != utf8 && number != GR_OK && number != GR_RULE_TOO_LONG && number != GR_ZERO_MODULUS) {
                failed++;
                printf("stack.c: %s of %s gives %u\n", all[i].name, name, (unsigned)number);
            }
        }
    }
}

static void put_word(size_t at, size_t value)
{
    for (size_t i = 0; i < 4; i++) {
        file[at + i] = (uint8_t)(value >> (8 * i));
    }
}

static void put_cell(size_t at, const char *text, size_t len)
{
    put_word(at, len);
    put_word(at + 4, file_len);
    memcpy(file + file_len, text, len);
    file_len += len + 1;
}

/* A catalog of three entries, whose header has the rule: "one" in two forms, alone and in a context. */
static void make_file(const char *rule)
{
    static const char magic[4] = {'\xde', '\x12', '\x04', '\x95'};
    char header[1024];
    int n = snprintf(header, sizeof header, "Content-Type: text/plain; charset=UTF-8\nPlural-Forms: nplurals=2; plural=%s;\n", rule);
    memset(file, 0, sizeof file);
    memcpy(file, magic, 4);
    put_word(8, 3);
    put_word(12, 28);
    put_word(16, 52);
    file_len = 76;
    put_cell(28, "", 0);
    put_cell(36, "menu\4one", 8);
    put_cell(44, "one", 3);
    put_cell(52, header, (size_t)n);
    put_cell(60, "a\0b", 3);
    put_cell(68, "c\0d", 3);
}

/* A rule of as many bytes as 512 allow: a head, some text again and again, a middle, another text as often, a tail. */
static const struct shape {
    const char *head, *again, *middle, *back, *tail;
} shapes[] = {
    {"", "!", "n", "", ""},
    {"", "(", "n", ")", ""},
    {"", "(", "n", "", ""},
    {"", "(", "", "", ""},
    {"", "!(", "n", ")", ""},
    {"", "(!", "n", ")", ""},
    {"", "", "n", "+1", ""},
    {"", "", "n", "-n", ""},
    {"", "", "n", "*n", ""},
    {"", "", "n", "/2", ""},
    {"", "", "n", "%2", ""},
    {"", "", "n", "%n", ""},
    {"", "", "n", "<n", ""},
    {"", "", "n", "==n", ""},
    {"", "", "n", "&&n", ""},
    {"", "", "n", "||n", ""},
    {"", "!", "n", "%n", ""},
    {"", "", "!n", "&&!n", ""},
    {"", "n%(", "n", ")", ""},
    {"", "n+(", "n", ")", ""},
    {"", "n<(", "n", ")", ""},
    {"", "n&&(", "n", ")", ""},
    {"", "n||(", "n", ")", ""},
    {"", "(", "n", ")%n", ""},
    {"", "(", "n", "+n)", ""},
    {"", "n?1:", "n", "", ""},
    {"", "n?n:", "n", "", ""},
    {"", "!n?n:", "n", "", ""},
    {"", "n?", "n", ":1", ""},
    {"", "n?", "n", ":n", ""},
    {"", "(n?", "n", ":n)", ""},
    {"", "(", "n", "?n:n)", ""},
    {"", "(", "n", "?0:1)", ""},
    {"", "!(", "n", "?0:n)", ""},
    {"", "n?!", "n", ":n", ""},
    {"", "n?n:!", "n", "", ""},
};

static void append(char *rule, const char *text, size_t times)
{
    while (times-- > 0) {
        strcat(rule, text);
    }
}

static void make_rule(char rule[513], const struct shape *s)
{
    size_t once = strlen(s->head) + strlen(s->middle) + strlen(s->tail);
    size_t times = (512 - once) / (strlen(s->again) + strlen(s->back));
    rule[0] = 0;
    append(rule, s->head, 1);
    append(rule, s->again, times);
    append(rule, s->middle, 1);
    append(rule, s->back, times);
    append(rule, s->tail, 1);
}

/* The rule of each shape, read in both ways, from the header and as a forced one; every call on what comes of it. */
static void rules(void)
{
    for (size_t i = 0; i < sizeof shapes / sizeof shapes[0]; i++) {
        char rule[513], name[80];
        make_rule(rule, &shapes[i]);
        for (int reading = 0; reading < 2; reading++) {
            for (int forced = 0; forced < 2; forced++) {
                snprintf(name, sizeof name, "%.12s.. (%s, %s)", rule, reading == 0 ? "Shipped" : "Standard", forced ? "forced" : "header");
                make_file(forced ? "n" : rule);
                options.rule = forced ? rule : NULL;
                options.reading = reading == 0 ? GR_SHIPPED : GR_STANDARD;
                note(&most_load[reading], deepest_load[reading], taken(load_stack, LOAD_STACK, load, "a load", name), name);
                if (number != GR_OK && number != GR_PLURAL_PARSING) {
                    failed++;
                    printf("stack.c: loading %s gives %u\n", name, (unsigned)number);
                }
                if (number == GR_OK) {
                    call_all(name);
                }
            }
        }
    }
}

/* The rule n is read on the small stack. */
static void rule_n(void)
{
    for (int reading = 0; reading < 2; reading++) {
        for (int forced = 0; forced < 2; forced++) {
            size_t now;
            make_file("n");
            options.rule = forced ? "n" : NULL;
            options.reading = reading == 0 ? GR_SHIPPED : GR_STANDARD;
            now = taken(call_stack, CALL_STACK, load, "a load", "n");
            most_n[reading] = most_n[reading] < now ? now : most_n[reading];
            if (number != GR_OK) {
                failed++;
                printf("stack.c: the rule n gives %u\n", (unsigned)number);
            }
            call_all("n");
        }
    }
}

/* The codes of nodes, crates/rules/specs/Pool.antt. */
enum {
    OPERATORS = 13,
    N = 0,
    INTEGER,
    N_OP,
    REST_OP = N_OP + OPERATORS,
    NOT = REST_OP + OPERATORS,
    PICK,
    VALUE_OP,
    OP = VALUE_OP + OPERATORS,
    CHOICE = OP + OPERATORS,
    TERNARY
};

static void put_node(size_t at, int code, size_t x, size_t y, uint64_t value)
{
    record.codes[at] = (uint8_t)code;
    record.places[2 * at] = (uint16_t)x;
    record.places[2 * at + 1] = (uint16_t)y;
    record.values[at] = value;
    record.head.nodes = at + 1;
    record.head.root = at;
}

/* A leaf: most are n, some others. */
static void put_leaf(size_t at)
{
    static const int codes[] = {N, N, INTEGER, N_OP + 8, REST_OP + 10, N, N_OP + 12, INTEGER};
    put_node(at, codes[at % 8], 7, 0, 3);
}

static void put_one(size_t at, int code) { put_node(at, code, 1, 0, 2); }

/* A record of 512 nodes at most as no reading makes it, the deepest of each kind. */
static void altered(int code)
{
    char name[80];
    size_t at;
    /* a chain of nodes with one operand */
    if (NOT <= code && code < OP) {
        put_leaf(0);
        for (at = 1; at < 512; at++) {
            put_one(at, code);
        }
        snprintf(name, sizeof name, "511 times code %d", code);
        call_all(name);
        return;
    }
    for (int ones = 0; ones < 2; ones++) {
        /* the first operand is deep, each other is a leaf; between two such nodes stands a ! or none */
        put_leaf(0);
        for (at = 0; at + 3 + (size_t)ones < 512;) {
            size_t deep = at;
            if (code == TERNARY) {
                put_leaf(at + 1);
                put_leaf(at + 2);
                put_node(at + 3, code, deep, at + 1, 5);
                at += 3;
            } else {
                put_leaf(at + 1);
                put_node(at + 2, code, deep, 0, 5);
                at += 2;
            }
            if (ones) {
                at++;
                put_one(at, VALUE_OP + 10);
            }
        }
        snprintf(name, sizeof name, "code %d, first operand deep%s", code, ones ? ", one between" : "");
        call_all(name);
        /* the last operand is deep: the leaves come first */
        size_t leaves = code == TERNARY ? 340 : ones ? 170 : 255, next = 0;
        for (at = 0; at <= leaves; at++) {
            put_leaf(at);
        }
        while (next + (code == TERNARY) < leaves && at + (size_t)ones < 512) {
            put_node(at, code, next, next + 1, 5);
            next += code == TERNARY ? 2 : 1;
            at++;
            if (ones) {
                put_one(at, VALUE_OP + 10);
                at++;
            }
        }
        snprintf(name, sizeof name, "code %d, last operand deep%s", code, ones ? ", one between" : "");
        call_all(name);
    }
    if (code == TERNARY) {
        /* the second operand is deep */
        put_leaf(0);
        for (at = 0; at + 3 < 512; at += 3) {
            put_leaf(at + 1);
            put_leaf(at + 2);
            put_node(at + 3, code, at + 1, at, 5);
        }
        snprintf(name, sizeof name, "code %d, second operand deep", code);
        call_all(name);
    }
}

static void altered_records(void)
{
    make_file("n");
    options.rule = NULL;
    load();
    altered(NOT);
    altered(PICK);
    altered(CHOICE);
    altered(TERNARY);
    for (int op = 0; op < OPERATORS; op++) {
        altered(VALUE_OP + op);
        altered(OP + op);
    }
}

int main(void)
{
    watch();
    load_stack = guarded(LOAD_STACK);
    call_stack = guarded(CALL_STACK);
    rule_n();
    rules();
    altered_records();
    printf("load, of 262144 bytes: Shipped %zu: %s\n", most_load[0], deepest_load[0]);
    printf("load, of 262144 bytes: Standard %zu: %s\n", most_load[1], deepest_load[1]);
    printf("load of the rule n, of 32768 bytes: Shipped %zu, Standard %zu\n", most_n[0], most_n[1]);
    for (size_t i = 0; i < ALL; i++) {
        printf("%s, of 32768 bytes: %zu: %s\n", all[i].name, most[i], deepest[i]);
    }
    printf("%u calls, each within its stack, %u failed\n", calls, failed);
    return failed != 0;
}
