/* Loads a catalog and prints a plural for some counts: example CATALOG.mo */
#include "gettext_c.h"

#include <stdio.h>

/* Writes the text with the count for its %d. A translation is data: it never goes to printf as a format. */
static void print_count(gr_text t, uint64_t n)
{
    for (size_t i = 0; i < t.len; i++) {
        if (i + 1 < t.len && t.text[i] == '%' && t.text[i + 1] == 'd') {
            printf("%llu", (unsigned long long)n);
            i++;
        } else {
            putchar(t.text[i]);
        }
    }
    putchar('\n');
}

/* Why a load was refused, and where, as far as it names an entry and a side. */
static void print_refusal(gr_loaded l)
{
    fprintf(stderr, "refused %u: %s", (unsigned)l.number, gr_error_name(l.number));
    if (l.entered) {
        fprintf(stderr, ", entry %zu", l.entry);
    }
    if (l.side != GR_NO_SIDE) {
        fprintf(stderr, ", %s", gr_side_name(l.side));
    }
    fprintf(stderr, "\n");
}

int main(int argc, char **argv)
{
    static char file[65536];
    FILE *f = argc == 2 ? fopen(argv[1], "rb") : NULL;
    if (f == NULL) {
        fprintf(stderr, "usage: example CATALOG.mo\n");
        return 2;
    }
    size_t size = fread(file, 1, sizeof file, f);
    fclose(f);

    /* a file whose entries overlap may ask for far more to be looked at than it has bytes: not here */
    if (gr_cost(file, size) > size) {
        fprintf(stderr, "refused: the load would look at %llu bytes\n", (unsigned long long)gr_cost(file, size));
        return 1;
    }
    gr_record catalog;
    gr_options options = {NULL, GR_STANDARD, 0, 1}; /* the rule has to fit the number of forms that the header says */
    gr_loaded loaded = gr_load_located(file, size, &options, &catalog);
    if (loaded.number != GR_OK) {
        print_refusal(loaded);
        return 1;
    }
    printf("%llu forms\n", (unsigned long long)catalog.forms);
    gr_text title = gr_gettext(file, size, &catalog, "Your invoice");
    printf("%.*s\n", (int)title.len, title.text);
    for (uint64_t n = 0; n < 4; n++) {
        print_count(gr_ngettext(file, size, &catalog, "%d page", "%d pages", n), n);
    }
    /* an index beside the catalog: lookups with it answer the same, and faster where there are many entries */
    static uint32_t slots[1024];
    uint32_t number = gr_index(file, size, &catalog, slots, 1024);
    if (number != GR_OK) {
        fprintf(stderr, "no index: %s, %zu wanted\n", gr_error_name(number), gr_slots(&catalog));
        return 1;
    }
    gr_text may = gr_pgettext_indexed(file, size, &catalog, slots, 1024, "month", "May");
    printf("%.*s\n", (int)may.len, may.text);

    /* the rule as both readings take it, and how often its first form occurs */
    char text[512];
    gr_written rule = gr_rule_text(&catalog, text, sizeof text);
    uint64_t forms[GR_FIGURES];
    if (rule.number == GR_OK && gr_span(&catalog, 0, 9, forms) == GR_OK) {
        printf("%.*s names form 0 for %llu of the counts 0 to 9\n", (int)rule.len, text, (unsigned long long)forms[0]);
    }

    /* why is it this text? */
    gr_explained why = gr_why_ngettext(file, size, &catalog, "%d page", 3);
    printf("%s: entry %zu, form %llu, at byte %zu\n", gr_reason_name(why.kind), why.entry, (unsigned long long)why.form, why.start);
    return 0;
}
