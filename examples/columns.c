/*
 * Prints the SQLCODE of a reply, and of each column that it describes the number, name and length.
 *
 *     cc -Iinclude examples/columns.c target/staticlib/libjigshard.a -o target/columns
 *     target/columns tests/replies/luggage.bin
 *
 * Exit status: 0 described, 1 refused, 2 bad usage, or something that cannot be read or written.
 */
#include <stdio.h>
#include <stdlib.h>
#include <string.h>

#include "jigshard.h"

/* One byte more than a reply may have, so that a longer one is refused and not cut off. */
static uint8_t reply[JIGSHARD_MAX_REPLY + 1];

static const char *usage = "usage: columns FILE\n\nPrints the columns that the reply in FILE describes (DRDA's SQLDARD).\n";

/* Characters of a name, those that could move a terminal's cursor as dots. */
static void put_name(const uint8_t *characters, size_t count)
{
    for (size_t i = 0; i < count; i++)
        putchar(characters[i] >= 0x20 && characters[i] <= 0x7E ? characters[i] : '.');
}

static int describe(size_t length)
{
    /* No reply describes more columns than this, so refusal 6 does not come. */
    jigshard_column *columns = malloc(JIGSHARD_MAX_COLUMNS * sizeof *columns);
    uint8_t name[JIGSHARD_MAX_REPLY];
    if (!columns) {
        perror("columns");
        return 2;
    }
    jigshard_sqldard_result described = jigshard_describe(reply, length, columns, JIGSHARD_MAX_COLUMNS);
    if (described.refusal.number != JIGSHARD_ACCEPTED) {
        fprintf(stderr, "columns: refused: %d (%zu, %zu)\n", described.refusal.number, described.refusal.first, described.refusal.second);
        free(columns);
        return 1;
    }
    printf("SQLCODE %d, %zu columns\n", (int)described.card.sqlcode, described.count);
    for (size_t i = 0; i < described.count; i++) {
        printf("%zu ", i);
        put_name(name, jigshard_column_name(reply, length, &columns[i], name, sizeof name).count);
        printf(" %d\n", (int)columns[i].length);
    }
    free(columns);
    if (fflush(stdout) || ferror(stdout)) {
        perror("columns");
        return 2;
    }
    return 0;
}

int main(int count, char **words)
{
    if (count == 2 && (!strcmp(words[1], "--help") || !strcmp(words[1], "-h"))) {
        fputs(usage, stdout);
        return 0;
    }
    if (count != 2 || words[1][0] == '-') {
        fprintf(stderr, "columns: one FILE; '%s --help' says more\n", words[0]);
        return 2;
    }
    FILE *file = fopen(words[1], "rb");
    if (!file) {
        perror(words[1]);
        return 2;
    }
    size_t length = fread(reply, 1, sizeof reply, file);
    if (ferror(file)) {
        perror(words[1]);
        return 2;
    }
    fclose(file);
    return describe(length);
}
