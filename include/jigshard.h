/*
 * Jigshard: reads the reply in which a Db2 server describes the columns of a result set (DRDA's SQLDARD). A reply here is that object's
 * data, without its length and code point.
 *
 * C11 or C++11, x86-64. Link target/staticlib/libjigshard.a, which 'tools/build jigshard' writes; it needs no other library than C's.
 *
 *     jigshard_column columns[512];
 *     jigshard_sqldard_result r = jigshard_describe(reply, reply_length, columns, 512);
 *     if (r.refusal.number != JIGSHARD_ACCEPTED)
 *         ...
 *
 * What is promised, of every function here and whatever the bytes and numbers that it is given:
 *   - It ends, and reads and writes only inside what it was lent. It keeps nothing, allocates nothing, calls nothing back and has no
 *     state: threads may call it at once.
 *   - It accepts (refusal number 0) or refuses. A refusal changes nothing that was lent; counts and lengths beside it are 0, and a status
 *     record beside it is that for success.
 *   - Where it accepts, it writes as many elements as it says, from the front on, and leaves those past them as they were.
 *
 * What the caller owes:
 *   - A pointer can be read, or written, for the length beside it. A length counts elements: bytes, words, columns or texts.
 *   - What is lent for writing overlaps nothing else that is lent in the same call.
 *   - The functions of the library (below, "The library's functions") take no NULL, not even with length 0: a pointer to anything will do
 *     there, it is not followed. The inline functions take NULL with length 0.
 *
 * Texts are not copied: a text says where it lies in the reply, which the caller keeps.
 */
#ifndef JIGSHARD_H
#define JIGSHARD_H

#include <stdbool.h>
#include <stddef.h>
#include <stdint.h>

#ifdef __cplusplus
#define JIGSHARD_ASSERT(holds, says) static_assert(holds, says)
extern "C" {
#else
#define JIGSHARD_ASSERT(holds, says) _Static_assert(holds, says)
#endif

/* The code point of a SQLDARD reply. */
#define JIGSHARD_SQLDARD 0x2411
/* The longest reply that is read, in bytes. */
#define JIGSHARD_MAX_REPLY 65536
/* The longest list that is compared or added up, in columns. */
#define JIGSHARD_MAX_COLUMNS 4095
/* How many words of 64 bits a column takes, and a text. */
#define JIGSHARD_COLUMN_WORDS 22
#define JIGSHARD_TEXT_WORDS 3

/* ---- Refusals */

/* The numbers of refusal, and what 'first' and 'second' say then; both are 0 where nothing is said of them. */
enum jigshard_refusal_number {
    JIGSHARD_ACCEPTED = 0,
    JIGSHARD_EMPTY_REPLY = 1,           /* the reply has no bytes */
    JIGSHARD_BUFFER_TOO_SHORT = 2,      /* the reply ends early: 'first' bytes were expected, 'second' are there */
    JIGSHARD_INVALID_SQLCARD = 3,       /* 1 to 18 bytes without a leading FF are no status record */
    JIGSHARD_UNEXPECTED_CODE_POINT = 4, /* the code point, 'first', is not 0x2411 */
    JIGSHARD_REPLY_TOO_LONG = 5,        /* the reply is over 65,536 bytes, or a list over 4,095 columns */
    JIGSHARD_ROOM_TOO_SHORT = 6,        /* what was lent is too short: 'first' columns, texts or bytes are needed */
    JIGSHARD_OUTSIDE_REPLY = 7,         /* place plus length lies beyond the reply, or there is no such alphabet */
    JIGSHARD_LARGE_OBJECT = 8,          /* a row has no widest: column number 'first' is a Blob, Clob, DbClob or Xml */
    JIGSHARD_NOT_COLUMNS = 255          /* the words are no list of columns; see jigshard_same_cut */
};

/* A refusal: its number, and how many values it has. */
typedef struct jigshard_refusal {
    uint8_t number;
    uint8_t count;
    size_t first;
    size_t second;
} jigshard_refusal;

/* ---- The status record */

/* What a reply's SQLCA says. Characters are ISO 8859-1, one byte each, not ended by 0. */
typedef struct jigshard_card {
    bool is_null;               /* there is no SQLCA: the status is that for success */
    int32_t sqlcode;            /* SQLCODE */
    uint8_t sqlstate[5];        /* SQLSTATE; 00000 for success */
    uint8_t sqlerrproc[8];      /* SQLERRPROC */
    uint8_t sqlerrproc_length;  /* 8, or 0 for success */
    int32_t sqlerrd[6];         /* the six numbers of SQLERRD */
    uint64_t rows_fetched;      /* 0 */
    uint32_t rows_updated;      /* the third of the six numbers, 0 if it is negative */
    uint8_t sqlwarn[11];        /* SQLWARN0 to SQLWARNA */
    size_t message_place;       /* where the message's raw string lies in the reply; its text: jigshard_card_message */
    size_t message_length;      /* how many bytes it has, 0 where there is none */
} jigshard_card;

/* ---- Columns */

/* A column's type: its code without the nullable bit. The codes are those of the Rust program that Jigshard replaces, and not the LIDs of
   DRDA's SQLDTAGRP, by which a QRYDSC describes rows: of Real, Double, Decimal, Graphic, VarGraphic and others the two differ. */
enum jigshard_type {
    JIGSHARD_INTEGER = 0x02,
    JIGSHARD_SMALLINT = 0x04,
    JIGSHARD_REAL = 0x0A,
    JIGSHARD_DECIMAL = 0x0C,    /* type_value: precision * 256 + scale */
    JIGSHARD_DOUBLE = 0x0E,
    JIGSHARD_BIGINT = 0x16,
    JIGSHARD_ROWID = 0x1E,      /* type_value: length */
    JIGSHARD_DATE = 0x20,
    JIGSHARD_TIME = 0x22,
    JIGSHARD_TIMESTAMP = 0x24,
    JIGSHARD_CHAR = 0x30,       /* type_value: length */
    JIGSHARD_VARCHAR = 0x32,    /* type_value: length */
    JIGSHARD_GRAPHIC = 0x3C,    /* type_value: length, in double-byte characters */
    JIGSHARD_VARGRAPHIC = 0x3E, /* type_value: length, in double-byte characters */
    JIGSHARD_BINARY = 0x60,     /* type_value: length */
    JIGSHARD_VARBINARY = 0x62,  /* type_value: length */
    JIGSHARD_DECFLOAT = 0xBA,   /* type_value: digits, 16 or 34 */
    JIGSHARD_BOOLEAN = 0xBE,
    JIGSHARD_BLOB = 0xC8,
    JIGSHARD_CLOB = 0xCA,
    JIGSHARD_DBCLOB = 0xCC,
    JIGSHARD_XML = 0xDC
};

/* How a text's bytes become characters: a guess by the bytes, whatever the server's CCSIDs. All below 0x80: ASCII; else page 037, without its
   blanks at both ends. UTF-8 with a byte from 0x80 on comes out wrong. */
enum jigshard_alphabet {
    JIGSHARD_GENERATED = 0, /* the reply has no name: it is COL and the column's number, counted from 1 */
    JIGSHARD_ASCII = 1,     /* each byte is its character */
    JIGSHARD_PAGE_037 = 2   /* EBCDIC code page 037 */
};

enum jigshard_byte_order { JIGSHARD_BIG_ENDIAN = 0, JIGSHARD_LITTLE_ENDIAN = 1 };

/* Where a text lies in the reply: its bytes are reply[place] to reply[place + length - 1]. An empty one is 0, 0, JIGSHARD_ASCII. */
typedef struct jigshard_text {
    uint64_t place;
    uint64_t length;
    uint64_t alphabet; /* enum jigshard_alphabet */
} jigshard_text;

/* A column of a reply. Beside each field is what a column that is lent for reading may have there. */
typedef struct jigshard_column {
    uint64_t number;     /* counted from 0; 16 bits */
    uint64_t type;       /* enum jigshard_type */
    uint64_t type_value; /* what the type says besides, as there, 0 where it says nothing; 16 bits, of DecFloat 8 */
    uint64_t drda_type;  /* the type's code, 1 more where it is nullable; 8 bits */
    uint64_t length;     /* of a value, or the most where it varies: bytes, of Graphic and VarGraphic double-byte characters; 16 bits,
                            65,535 for more */
    uint64_t nullable;   /* 0 or 1: whether a byte in front of a value says that it is missing */
    uint64_t precision;  /* 8 bits */
    uint64_t scale;      /* 8 bits */
    uint64_t ccsid;      /* 16 bits */
    uint64_t byte_order; /* enum jigshard_byte_order */
    jigshard_text name;  /* a text's place and length may be any number, its alphabet has 8 bits */
    jigshard_text label;
    jigshard_text base_table_name;
    jigshard_text schema_name;
} jigshard_column;

/* ---- Results */

typedef struct jigshard_sqldard_result {
    jigshard_refusal refusal;
    jigshard_card card;
    size_t count; /* how many columns were written */
} jigshard_sqldard_result;

typedef struct jigshard_sqlcard_result {
    jigshard_refusal refusal;
    jigshard_card card;
} jigshard_sqlcard_result;

typedef struct jigshard_group_result {
    jigshard_refusal refusal;
    jigshard_card card;
    size_t length; /* how many bytes the group takes */
} jigshard_group_result;

typedef struct jigshard_count_result {
    jigshard_refusal refusal;
    size_t count; /* how many texts or characters were written, or the sum that is the widest row */
} jigshard_count_result;

typedef struct jigshard_part_result {
    jigshard_refusal refusal;
    size_t place; /* the part is reply[place] to reply[place + length - 1]; 0 and 0 where it is empty */
    size_t length;
} jigshard_part_result;

typedef struct jigshard_cut_result {
    jigshard_refusal refusal;
    bool same; /* false where it is refused */
} jigshard_cut_result;

JIGSHARD_ASSERT(sizeof(size_t) == 8 && sizeof(bool) == 1, "the library is for x86-64");
JIGSHARD_ASSERT(sizeof(jigshard_text) == 8 * JIGSHARD_TEXT_WORDS, "a text is 3 words");
JIGSHARD_ASSERT(sizeof(jigshard_column) == 8 * JIGSHARD_COLUMN_WORDS, "a column is 22 words");
JIGSHARD_ASSERT(offsetof(jigshard_column, name) == 8 * 10, "a column's name is its eleventh word");
JIGSHARD_ASSERT(sizeof(jigshard_refusal) == 24 && offsetof(jigshard_refusal, first) == 8, "layout of a refusal");
JIGSHARD_ASSERT(sizeof(jigshard_card) == 88 && offsetof(jigshard_card, message_place) == 72, "layout of a status record");
JIGSHARD_ASSERT(offsetof(jigshard_card, sqlcode) == 4 && offsetof(jigshard_card, sqlstate) == 8, "layout of a status record");
JIGSHARD_ASSERT(offsetof(jigshard_card, sqlerrproc) == 13 && offsetof(jigshard_card, sqlerrd) == 24, "layout of a status record");
JIGSHARD_ASSERT(offsetof(jigshard_card, rows_fetched) == 48 && offsetof(jigshard_card, sqlwarn) == 60, "layout of a status record");
JIGSHARD_ASSERT(sizeof(jigshard_sqldard_result) == 120 && offsetof(jigshard_sqldard_result, count) == 112, "layout of a description");
JIGSHARD_ASSERT(sizeof(jigshard_sqlcard_result) == 112 && offsetof(jigshard_sqlcard_result, card) == 24, "layout of a status result");
JIGSHARD_ASSERT(sizeof(jigshard_group_result) == 120 && offsetof(jigshard_group_result, length) == 112, "layout of a group result");
JIGSHARD_ASSERT(sizeof(jigshard_count_result) == 32 && offsetof(jigshard_count_result, count) == 24, "layout of a count");
JIGSHARD_ASSERT(sizeof(jigshard_part_result) == 40 && offsetof(jigshard_part_result, length) == 32, "layout of a part");
JIGSHARD_ASSERT(sizeof(jigshard_cut_result) == 32 && offsetof(jigshard_cut_result, same) == 24, "layout of a cut");

/*
 * ---- The library's functions
 *
 * Lists are words here: 22 a column, 3 a text, in the order of the structs' fields; their lengths count words, and what is left of a list after
 * its last whole column or text is no room. No pointer is NULL. The inline functions behind them take structs.
 */

/* Description: the reply's status, and its columns at the list's front.
   Refuses: 5 over 65,536 bytes; 1 empty; 2 ends early; 6 list too short. 1 and 2 come only where no reading gives a column. */
jigshard_sqldard_result jigshard_parse_sqldard_data(const uint8_t *reply, size_t reply_length, uint64_t *columns, size_t columns_length);

/* The same of a reply that came with a code point. Refuses: 4 not 0x2411; then as above. */
jigshard_sqldard_result jigshard_parse_sqldard(uint16_t code_point, const uint8_t *reply, size_t reply_length, uint64_t *columns,
                                               size_t columns_length);

/* Status alone; success for an empty reply. Refuses: 5; 3 for 1 to 18 bytes without a leading FF; 2 ends early. */
jigshard_sqlcard_result jigshard_parse_sqlcard_data(const uint8_t *reply, size_t reply_length);

/* SQLCA group: the status at the start of a reply, and how many bytes it takes. Refuses: 5; 2 ends early (an empty reply needs 19). */
jigshard_group_result jigshard_consume_sqlca_group(const uint8_t *reply, size_t reply_length);

/* Name scan: the texts of names, found by strings alone, at the list's front. Refuses: 5; 6 list too short. */
jigshard_count_result jigshard_scan_column_names(const uint8_t *reply, size_t reply_length, uint64_t *names, size_t names_length);

/* Name part: where a name's own bytes lie in the reply; none for a generated name. Refuses: 5; 7 place plus length beyond the reply, or
   an alphabet above 2. */
jigshard_part_result jigshard_name_part(const uint8_t *reply, size_t reply_length, size_t place, size_t length, uint8_t alphabet);

/* Name text: the name's characters at the buffer's front, one byte each (ISO 8859-1) and no 0 at their end; COL and number + 1 for a
   generated name. Refuses: 5; 7 as above; 6 buffer too short. It gives the characters of any text of the reply. */
jigshard_count_result jigshard_name_text(const uint8_t *reply, size_t reply_length, uint16_t number, size_t place, size_t length,
                                         uint8_t alphabet, uint8_t *buffer, size_t buffer_length);

/* Message text: the text of a message's raw string at the buffer's front, one byte a character (ISO 8859-1) and no 0 at its end. It is never
   longer than the string. Refuses: 5; 7 place plus length beyond the reply; 6 buffer too short. */
jigshard_count_result jigshard_message_text(const uint8_t *reply, size_t reply_length, size_t place, size_t length, uint8_t *buffer,
                                            size_t buffer_length);

/* Same cut: whether two lists have equally many columns and, column by column, equal codes (drda_type), lengths, precisions, scales, byte
   orders and CCSIDs. Refuses: 5 either list over 4,095 columns; 255 where the words of either are no columns: not a whole number of them, a type that there
   is not, or a field out of its range. Lists that the library wrote are columns. */
jigshard_cut_result jigshard_same_cut(const uint64_t *first, size_t first_length, const uint64_t *second, size_t second_length);

/* Widest row: the sum of the lengths, twice those of Graphic and VarGraphic, which count double-byte characters; 1 more for a nullable
   column, 2 more for VarChar, VarBinary, VarGraphic and RowId. Of a column whose length is 65,535 a reply may have said more.
   Refuses: 5; 255 as above; 8 the first Blob, Clob, DbClob or Xml. */
jigshard_count_result jigshard_widest_row(const uint64_t *columns, size_t columns_length);

/*
 * ---- The same with structs
 *
 * They call the functions above, take NULL with length 0, and count columns and texts where those count words.
 */

static inline const uint8_t *jigshard_bytes(const uint8_t *bytes)
{
    static const uint8_t none = 0;
    return bytes ? bytes : &none;
}

static inline const uint64_t *jigshard_column_words(const jigshard_column *columns)
{
    static const uint64_t none = 0;
    return columns ? (const uint64_t *)columns : &none;
}

/* jigshard_parse_sqldard_data */
static inline jigshard_sqldard_result jigshard_describe(const uint8_t *reply, size_t reply_length, jigshard_column *columns, size_t room)
{
    uint64_t none = 0;
    return jigshard_parse_sqldard_data(jigshard_bytes(reply), reply_length, columns ? (uint64_t *)columns : &none,
                                       room * JIGSHARD_COLUMN_WORDS);
}

/* jigshard_parse_sqldard */
static inline jigshard_sqldard_result jigshard_describe_with_code_point(uint16_t code_point, const uint8_t *reply, size_t reply_length,
                                                                        jigshard_column *columns, size_t room)
{
    uint64_t none = 0;
    return jigshard_parse_sqldard(code_point, jigshard_bytes(reply), reply_length, columns ? (uint64_t *)columns : &none,
                                  room * JIGSHARD_COLUMN_WORDS);
}

/* jigshard_parse_sqlcard_data */
static inline jigshard_sqlcard_result jigshard_status(const uint8_t *reply, size_t reply_length)
{
    return jigshard_parse_sqlcard_data(jigshard_bytes(reply), reply_length);
}

/* jigshard_consume_sqlca_group */
static inline jigshard_group_result jigshard_sqlca_group(const uint8_t *reply, size_t reply_length)
{
    return jigshard_consume_sqlca_group(jigshard_bytes(reply), reply_length);
}

/* jigshard_scan_column_names */
static inline jigshard_count_result jigshard_scan_names(const uint8_t *reply, size_t reply_length, jigshard_text *names, size_t room)
{
    uint64_t none = 0;
    return jigshard_scan_column_names(jigshard_bytes(reply), reply_length, names ? (uint64_t *)names : &none,
                                      room * JIGSHARD_TEXT_WORDS);
}

/* An alphabet for the functions that take 8 bits of it: one that has more is no alphabet, as 255 is none. */
static inline uint8_t jigshard_alphabet_byte(uint64_t alphabet)
{
    return alphabet < 255 ? (uint8_t)alphabet : 255;
}

/* jigshard_name_part, of any text of the reply */
static inline jigshard_part_result jigshard_text_part(const uint8_t *reply, size_t reply_length, jigshard_text text)
{
    return jigshard_name_part(jigshard_bytes(reply), reply_length, text.place, text.length, jigshard_alphabet_byte(text.alphabet));
}

/* jigshard_name_text, of a column's name */
static inline jigshard_count_result jigshard_column_name(const uint8_t *reply, size_t reply_length, const jigshard_column *column,
                                                         uint8_t *buffer, size_t room)
{
    uint8_t none = 0;
    return jigshard_name_text(jigshard_bytes(reply), reply_length, (uint16_t)column->number, column->name.place, column->name.length,
                              jigshard_alphabet_byte(column->name.alphabet), buffer ? buffer : &none, room);
}

/* jigshard_name_text, of a column's label, base table or schema, and of the texts of a name scan; none of these is generated */
static inline jigshard_count_result jigshard_text_characters(const uint8_t *reply, size_t reply_length, jigshard_text text, uint8_t *buffer,
                                                             size_t room)
{
    uint8_t none = 0;
    return jigshard_name_text(jigshard_bytes(reply), reply_length, 0, text.place, text.length, jigshard_alphabet_byte(text.alphabet),
                              buffer ? buffer : &none, room);
}

/* jigshard_message_text, of a status record's message */
static inline jigshard_count_result jigshard_card_message(const uint8_t *reply, size_t reply_length, const jigshard_card *card,
                                                          uint8_t *buffer, size_t room)
{
    uint8_t none = 0;
    return jigshard_message_text(jigshard_bytes(reply), reply_length, card->message_place, card->message_length,
                                 buffer ? buffer : &none, room);
}

/* jigshard_same_cut */
static inline jigshard_cut_result jigshard_columns_same_cut(const jigshard_column *first, size_t first_count, const jigshard_column *second,
                                                            size_t second_count)
{
    return jigshard_same_cut(jigshard_column_words(first), first_count * JIGSHARD_COLUMN_WORDS, jigshard_column_words(second),
                             second_count * JIGSHARD_COLUMN_WORDS);
}

/* jigshard_widest_row */
static inline jigshard_count_result jigshard_columns_widest_row(const jigshard_column *columns, size_t count)
{
    return jigshard_widest_row(jigshard_column_words(columns), count * JIGSHARD_COLUMN_WORDS);
}

#ifdef __cplusplus
}
#endif

#endif
