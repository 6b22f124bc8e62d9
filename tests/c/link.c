/*
 * Calls every function of include/jigshard.h, as C and as C++. Compiled and run by tests/bindings:
 *
 *     link REPLIES        REPLIES is the folder tests/replies
 */
#include "jigshard.h"

#include <stdio.h>
#include <stdlib.h>
#include <string.h>

#define CHECK(holds)                                                      \
    do {                                                                  \
        if (!(holds)) {                                                   \
            fprintf(stderr, "%s:%d: not so: %s\n", __FILE__, __LINE__, #holds); \
            exit(1);                                                      \
        }                                                                 \
    } while (0)

enum { ROOM = 16 };

/* One column: DOOR, Char(4), CCSID 1208. */
static const uint8_t door[] = {
    /* no SQLCA, no SQLDHGRP, one column */
    0xFF, 0xFF, 0x00, 0x01,
    /* precision, scale, length; SQLTYPE, CCSID */
    0, 0, 0, 0, 0, 0, 0, 0, 0, 0, 0, 4, 0x01, 0xC4, 0x04, 0xB8,
    /* option group: its name, and five empty strings; no UDT, no extension */
    0, 0, 0, 0x00, 0x04, 'D', 'O', 'O', 'R', 0, 0, 0, 0, 0, 0, 0, 0, 0, 0, 0xFF, 0xFF,
};

static size_t read_file(const char *folder, const char *name, uint8_t *bytes, size_t room)
{
    char path[4096];
    int length = snprintf(path, sizeof path, "%s/%s", folder, name);
    CHECK(length > 0 && (size_t)length < sizeof path);
    FILE *file = fopen(path, "rb");
    CHECK(file != NULL);
    size_t count = fread(bytes, 1, room, file);
    CHECK(count < room);
    fclose(file);
    return count;
}

static void check_characters(jigshard_count_result result, const uint8_t *buffer, const char *expected)
{
    CHECK(result.refusal.number == JIGSHARD_ACCEPTED);
    CHECK(result.count == strlen(expected));
    CHECK(memcmp(buffer, expected, result.count) == 0);
}

/* Marks what is lent, so that a change past what is answered shows. */
static void mark(jigshard_column *columns)
{
    memset(columns, 0xA5, ROOM * sizeof *columns);
}

static void check_marked(const jigshard_column *columns, size_t from)
{
    jigshard_column marked[ROOM];
    mark(marked);
    CHECK(memcmp(columns + from, marked + from, (ROOM - from) * sizeof *columns) == 0);
}

static void check_refusal(jigshard_refusal refusal, uint8_t number, uint8_t count, size_t first, size_t second)
{
    CHECK(refusal.number == number);
    CHECK(refusal.count == count);
    CHECK(refusal.first == first);
    CHECK(refusal.second == second);
}

static void check_luggage(const char *folder)
{
    static uint8_t reply[4096];
    jigshard_column columns[ROOM];
    uint8_t buffer[64];
    size_t length = read_file(folder, "luggage.bin", reply, sizeof reply);
    mark(columns);
    jigshard_sqldard_result described = jigshard_describe(reply, length, columns, ROOM);
    CHECK(described.refusal.number == JIGSHARD_ACCEPTED);
    CHECK(described.card.is_null && described.card.sqlcode == 0 && described.card.sqlerrproc_length == 0);
    CHECK(memcmp(described.card.sqlstate, "00000", 5) == 0);
    CHECK(described.count == 8);
    check_marked(columns, 8);

    const jigshard_column *fee = &columns[5];
    CHECK(fee->number == 5 && fee->type == JIGSHARD_DECIMAL && fee->type_value == 9 * 256 + 2);
    CHECK(fee->drda_type == JIGSHARD_DECIMAL + 1 && fee->length == 5 && fee->nullable == 1);
    CHECK(fee->precision == 9 && fee->scale == 2 && fee->ccsid == 0 && fee->byte_order == JIGSHARD_BIG_ENDIAN);
    check_characters(jigshard_column_name(reply, length, fee, buffer, sizeof buffer), buffer, "FEE");
    check_characters(jigshard_text_characters(reply, length, fee->label, buffer, sizeof buffer), buffer, "Fee, if any");
    check_characters(jigshard_text_characters(reply, length, fee->base_table_name, buffer, sizeof buffer), buffer, "LUGGAGE");
    check_characters(jigshard_text_characters(reply, length, fee->schema_name, buffer, sizeof buffer), buffer, "GROUND");
    check_refusal(jigshard_column_name(reply, length, fee, NULL, 0).refusal, JIGSHARD_ROOM_TOO_SHORT, 1, 3, 0);

    jigshard_part_result part = jigshard_text_part(reply, length, fee->name);
    CHECK(part.refusal.number == JIGSHARD_ACCEPTED && part.place == fee->name.place && part.length == 3);
    CHECK(memcmp(reply + part.place, "FEE", 3) == 0);
    check_refusal(jigshard_text_part(reply, part.place, fee->name).refusal, JIGSHARD_OUTSIDE_REPLY, 0, 0, 0);

    jigshard_count_result row = jigshard_columns_widest_row(columns, described.count);
    CHECK(row.refusal.number == JIGSHARD_ACCEPTED && row.count == 10 + 62 + 6 + 2 + 3 + 6 + 4 + 26);

    static jigshard_text names[8192];
    jigshard_count_result scan = jigshard_scan_names(reply, length, names, 8192);
    CHECK(scan.refusal.number == JIGSHARD_ACCEPTED && scan.count >= 2);
    check_refusal(jigshard_scan_names(reply, length, names, 1).refusal, JIGSHARD_ROOM_TOO_SHORT, 1, scan.count, 0);
}

/* Graphic and VarGraphic: lengths in double-byte characters, two bytes each in a row. */
static void check_graphic(const char *folder)
{
    static uint8_t reply[4096];
    jigshard_column columns[ROOM];
    size_t length = read_file(folder, "luggage-graphic.bin", reply, sizeof reply);
    CHECK(jigshard_describe(reply, length, columns, ROOM).count == 4);
    CHECK(columns[1].type == JIGSHARD_VARGRAPHIC && columns[1].type_value == 20 && columns[1].length == 20);
    CHECK(columns[2].type == JIGSHARD_GRAPHIC && columns[2].type_value == 4 && columns[2].length == 4);
    CHECK(jigshard_columns_widest_row(columns, 4).count == 10 + (2 * 20 + 2 + 1) + 2 * 4 + 2);
    CHECK(jigshard_columns_widest_row(columns + 2, 1).count == 8);
    columns[2].type = JIGSHARD_CHAR; /* the type decides, not the code */
    CHECK(jigshard_columns_widest_row(columns + 2, 1).count == 4);
}

static void check_lists(void)
{
    jigshard_column columns[ROOM], others[ROOM];
    CHECK(jigshard_describe(door, sizeof door, columns, ROOM).count == 1);
    CHECK(jigshard_describe(door, sizeof door, others, ROOM).count == 1);
    CHECK(jigshard_columns_same_cut(columns, 1, others, 1).same);
    CHECK(!jigshard_columns_same_cut(columns, 1, NULL, 0).same);
    CHECK(jigshard_columns_same_cut(NULL, 0, NULL, 0).same);
    others[0].length = 5;
    jigshard_cut_result cut = jigshard_columns_same_cut(columns, 1, others, 1);
    CHECK(cut.refusal.number == JIGSHARD_ACCEPTED && !cut.same);
    others[0] = columns[0];
    others[0].ccsid = 37; /* the length is as it was */
    cut = jigshard_columns_same_cut(columns, 1, others, 1);
    CHECK(cut.refusal.number == JIGSHARD_ACCEPTED && !cut.same);

    others[0].length = 65536;
    check_refusal(jigshard_columns_same_cut(columns, 1, others, 1).refusal, JIGSHARD_NOT_COLUMNS, 0, 0, 0);
    check_refusal(jigshard_columns_widest_row(others, 1).refusal, JIGSHARD_NOT_COLUMNS, 0, 0, 0);
    others[0] = columns[0];
    others[0].type = 0x31;
    check_refusal(jigshard_columns_widest_row(others, 1).refusal, JIGSHARD_NOT_COLUMNS, 0, 0, 0);
    others[0].type = JIGSHARD_XML; /* which has no length */
    check_refusal(jigshard_columns_widest_row(others, 1).refusal, JIGSHARD_NOT_COLUMNS, 0, 0, 0);
    others[0].type_value = 0;
    others[0].number = 7;
    check_refusal(jigshard_columns_widest_row(others, 1).refusal, JIGSHARD_LARGE_OBJECT, 1, 7, 0);
    check_refusal(jigshard_widest_row((const uint64_t *)columns, 23).refusal, JIGSHARD_NOT_COLUMNS, 0, 0, 0);
}

static void check_refusals(void)
{
    static uint8_t too_long[JIGSHARD_MAX_REPLY + 1];
    static const uint8_t short_reply[] = {0xFF, 0x00};
    jigshard_column columns[ROOM];
    mark(columns);
    check_refusal(jigshard_describe(NULL, 0, columns, ROOM).refusal, JIGSHARD_EMPTY_REPLY, 0, 0, 0);
    check_refusal(jigshard_describe(NULL, 0, NULL, 0).refusal, JIGSHARD_EMPTY_REPLY, 0, 0, 0);
    check_refusal(jigshard_describe(short_reply, 2, columns, ROOM).refusal, JIGSHARD_BUFFER_TOO_SHORT, 2, 14, 2);
    check_refusal(jigshard_describe(too_long, sizeof too_long, columns, ROOM).refusal, JIGSHARD_REPLY_TOO_LONG, 0, 0, 0);
    check_refusal(jigshard_describe(door, sizeof door, NULL, 0).refusal, JIGSHARD_ROOM_TOO_SHORT, 1, 1, 0);
    check_refusal(jigshard_parse_sqldard_data(door, sizeof door, (uint64_t *)columns, 21).refusal, JIGSHARD_ROOM_TOO_SHORT, 1, 1, 0);
    check_refusal(jigshard_describe_with_code_point(0x2408, door, sizeof door, columns, ROOM).refusal, JIGSHARD_UNEXPECTED_CODE_POINT, 1,
                  0x2408, 0);
    check_marked(columns, 0);
    CHECK(jigshard_describe_with_code_point(JIGSHARD_SQLDARD, door, sizeof door, columns, ROOM).count == 1);
    check_marked(columns, 1);

    CHECK(jigshard_status(NULL, 0).card.is_null);
    check_refusal(jigshard_status(door + 2, 4).refusal, JIGSHARD_INVALID_SQLCARD, 0, 0, 0);
    check_refusal(jigshard_sqlca_group(NULL, 0).refusal, JIGSHARD_BUFFER_TOO_SHORT, 2, 19, 0);
    CHECK(jigshard_sqlca_group(door, sizeof door).length == 1);
    check_refusal(jigshard_scan_names(too_long, sizeof too_long, NULL, 0).refusal, JIGSHARD_REPLY_TOO_LONG, 0, 0, 0);
}

static void check_warning(const char *folder)
{
    static uint8_t reply[4096];
    uint8_t buffer[64];
    size_t length = read_file(folder, "warning.bin", reply, sizeof reply);
    jigshard_sqlcard_result status = jigshard_status(reply, length);
    CHECK(status.refusal.number == JIGSHARD_ACCEPTED && !status.card.is_null);
    CHECK(status.card.sqlcode == 445 && status.card.rows_updated == 1 && status.card.sqlerrd[2] == 1);
    CHECK(memcmp(status.card.sqlstate, "01004", 5) == 0);
    CHECK(status.card.sqlerrproc_length == 8 && memcmp(status.card.sqlerrproc, "SQLRA23A", 8) == 0);
    CHECK(memcmp(status.card.sqlwarn, "           ", 11) == 0);
    memset(buffer, 0xA5, sizeof buffer);
    jigshard_count_result message = jigshard_card_message(reply, length, &status.card, buffer, sizeof buffer);
    check_characters(message, buffer, "The column FEE was cut at 9 digits.");
    CHECK(buffer[message.count] == 0xA5);
    check_refusal(jigshard_card_message(reply, length, &status.card, buffer, 3).refusal, JIGSHARD_ROOM_TOO_SHORT, 1, 35, 0);
    CHECK(jigshard_sqlca_group(reply, length).length > 19);
}

int main(int argc, char **argv)
{
    CHECK(argc == 2);
    check_luggage(argv[1]);
    check_graphic(argv[1]);
    check_warning(argv[1]);
    check_lists();
    check_refusals();
    return 0;
}
