/* Counts and dimensions, schemas, and tables. */
#include "generate_parts.h"

/* ---- Counts and dimension vectors. */

/* The forms of what follows `#`: below these a count alone; a vector in brackets; one with a count; one with a type and a count. */
enum { LISTED = 2, COUNTED = 3, FORMS = 5 };

/* Draws how many dimensions: few, or up to eight; as a fault none, or nine. */
static uint32_t drawn_dimensions(struct pen *pen)
{
    bool slips = pen_slips(pen, 10);
    uint32_t choice = pen_draw(pen, 6);
    if (slips) {
        return choice < 3 ? 0 : 9;
    }
    return pen_draw(pen, choice == 0 ? 8 : 3) + 1;
}

/* A large dimension. */
static uint32_t large(uint32_t i)
{
    static const uint32_t dimensions[] = {1048576, 1048576, 1024, 65536, 2048};
    return i < 5 ? dimensions[i] : 120;
}

/* Draws a dimension: small enough that the product stays so, or 0; large where it may be, and now and then after a large one or as a
 * fault. */
static uint32_t drawn_dimension(struct pen *pen, uint32_t product, uint32_t most, bool may_be_large)
{
    bool slips = pen_slips(pen, 12);
    uint32_t choice = pen_draw(pen, 12), small = 1 + choice % 3;
    if (may_be_large || slips || (1000 < product && choice < 4)) {
        return large(choice);
    }
    if (choice == 0) {
        return 0;
    }
    return limited_product(product, small) <= most ? small : 1;
}

/* The number, or 120 where it is larger and the mark is that of an integer of few bytes. */
static uint32_t held(uint8_t mark, uint32_t number)
{
    return mark != 0 && width_of(mark) < 4 && 120 < number ? 120 : number;
}

/* Writes a dimension, a bare one if there is a mark for it. */
static void write_dimension(struct pen *pen, uint8_t mark, uint32_t number)
{
    if (mark == 0) {
        write_integer(pen, number);
    } else {
        pen_put_number(pen, number, width_of(mark));
    }
}

/* Writes dimensions, bare ones if there is a mark for them; answers their product. Now and then the last is 0, and those before it are
 * large. */
static uint32_t write_dimensions(struct pen *pen, uint32_t many, uint8_t mark, uint32_t most)
{
    bool zero = pen_draw(pen, 6) == 0;
    uint32_t product = 1, left;
    for (left = many; 0 < left; left--) {
        uint32_t drawn = drawn_dimension(pen, product, most, zero);
        uint32_t number = zero && left == 1 ? 0 : held(mark, drawn);
        product = limited_product(product, number);
        write_dimension(pen, mark, number);
    }
    return product;
}

/* Writes a vector with a type and a count after its `[`; answers the product. */
static uint32_t write_typed_vector(struct pen *pen, uint32_t many, uint32_t most)
{
    uint8_t mark = letter("iUIulmLM", pen_draw(pen, 8));
    write_type(pen, mark);
    write_integer(pen, many);
    return write_dimensions(pen, many, mark, most);
}

/* Writes a vector; answers the product. */
static uint32_t write_vector(struct pen *pen, uint32_t form, uint32_t most)
{
    uint32_t many, product;
    pen_put(pen, '[');
    many = drawn_dimensions(pen);
    if (form == LISTED) {
        product = write_dimensions(pen, many, 0, most);
        pen_put(pen, ']');
        return product;
    }
    if (form == COUNTED) {
        pen_put(pen, '#');
        write_integer(pen, many);
        return write_dimensions(pen, many, 0, most);
    }
    return write_typed_vector(pen, many, most);
}

/* Writes a count alone; answers it. */
static uint32_t write_count_alone(struct pen *pen, uint32_t most)
{
    bool slips = pen_slips(pen, 10);
    uint32_t drawn = pen_draw(pen, most + 1), count = slips ? large(drawn % 6) : drawn;
    write_integer(pen, count);
    return count;
}

uint32_t write_count(struct pen *pen, uint32_t most, bool wraps)
{
    uint32_t form = pen_draw(pen, FORMS), product;
    bool wrapped;
    if (form < LISTED) {
        return write_count_alone(pen, most);
    }
    wrapped = pen_draw(pen, 2) == 0 && wraps;
    if (wrapped) {
        pen_put(pen, '[');
    }
    product = write_vector(pen, form, most);
    if (wrapped) {
        pen_put(pen, ']');
    }
    return product;
}

/* ---- Schemas. What their leaves are is kept in a list, for the payload that follows. */

/* The steps in which a schema is written. A step writes one leaf at most. */
enum { SCHEMA_STEPS = 120 };

/* A leaf: its mark, its bytes, and the number of its field. */
struct leaf {
    uint8_t mark;
    uint32_t bytes;
    uint32_t field;
};

/* The table that is being written: the open brackets of its schema, its leaves, its fields, and the bytes of its record. */
struct table {
    struct nesting nesting;
    struct leaf leaves[SCHEMA_STEPS];
    uint32_t leaf_count;
    uint32_t fields;
    uint32_t bytes;
};

/* Keeps a leaf in the list. */
static void keep_leaf(struct table *table, uint8_t mark, uint32_t bytes)
{
    struct leaf *leaf = &table->leaves[table->leaf_count++];
    leaf->mark = mark;
    leaf->bytes = bytes;
    leaf->field = table->fields;
    table->bytes += bytes;
}

/* Writes a leaf that is its mark alone; a boolean has one byte in a record. */
static void write_plain_leaf(struct pen *pen, struct table *table)
{
    uint8_t mark = letter("iUIulmLMhdDCBTTTZZCC", pen_draw(pen, 20));
    pen_put(pen, mark);
    keep_leaf(table, mark, mark == 'T' ? 1 : width_of(mark));
}

/* Draws a text leaf's bytes: few, none too; as a fault many, up to more than a record may have. */
static uint32_t text_leaf_bytes(struct pen *pen)
{
    static const uint32_t wide[] = {65536, 65536, 65537, 65537, 1048576, 32768, 32768};
    bool slips = pen_slips(pen, 8);
    uint32_t choice = pen_draw(pen, 7);
    return slips ? wide[choice] : choice;
}

/* Writes a text leaf. */
static void write_text_leaf(struct pen *pen, struct table *table)
{
    uint32_t bytes = text_leaf_bytes(pen);
    pen_put(pen, 'S');
    write_integer(pen, bytes);
    keep_leaf(table, 'S', bytes);
}

/* Writes a kind that is refused. */
static void write_wrong_kind(struct pen *pen)
{
    uint8_t mark = letter("HH[[NEF", pen_draw(pen, 7));
    pen_put(pen, mark);
    if (mark == '[') {
        pen_put(pen, '$');
    }
}

/* Writes a leaf. */
static void write_leaf(struct pen *pen, struct table *table)
{
    if (pen_slips(pen, 16)) {
        write_wrong_kind(pen);
    } else if (pen_draw(pen, 4) == 0) {
        write_text_leaf(pen, table);
    } else {
        write_plain_leaf(pen, table);
    }
}

/* Opens a record or a fixed array of so many members. */
static void open_kind(struct pen *pen, struct table *table, uint8_t mark, uint32_t members)
{
    nesting_open(&table->nesting, mark, members);
    pen_put(pen, mark);
}

/* Writes a kind: a record or a fixed array while some are to be opened, or now and then; else a leaf. */
static void write_kind(struct pen *pen, struct table *table)
{
    bool may = pen_draw(pen, 6) == 0 && table->nesting.open < 8 && table->leaf_count < 12;
    uint8_t mark;
    if (!may && table->nesting.ahead == 0) {
        write_leaf(pen, table);
        return;
    }
    mark = letter("{[", pen_draw(pen, 2));
    open_kind(pen, table, mark, pen_draw(pen, 3) + 1);
}

/* Writes the key of a record's member, and counts the members of the outer record: they are the fields. */
static void write_field_name(struct pen *pen, struct table *table, uint32_t mark)
{
    if (table->nesting.open == 1) {
        table->fields++;
    }
    if (mark == '{') {
        write_key(pen);
    }
}

/* Writes a member of the innermost bracket, or its end. */
static void write_schema_step(struct pen *pen, struct table *table)
{
    struct bracket *top = nesting_top(&table->nesting);
    if (top->left == 0) {
        pen_put(pen, top->form == '{' ? '}' : ']');
        table->nesting.open--;
        return;
    }
    top->left--;
    write_field_name(pen, table, top->form);
    write_kind(pen, table);
}

/* Writes a schema of so many fields. */
static void write_schema(struct pen *pen, struct table *table, uint32_t fields)
{
    int left;
    open_kind(pen, table, '{', fields);
    for (left = SCHEMA_STEPS; 0 < left && 0 < table->nesting.open; left--) {
        write_schema_step(pen, table);
    }
}

/* ---- Tables, and their payloads: leaf by leaf in storage order. */

/* Writes a leaf's value. */
static void write_leaf_value(struct pen *pen, const struct leaf *leaf)
{
    if (leaf->mark == 'S') {
        write_characters(pen, leaf->bytes);
    } else {
        write_payload(pen, leaf->mark);
    }
}

/* Writes one value: some leaves of the record, one after another. */
static void write_leaf_values(struct pen *pen, const struct leaf *from, const struct leaf *to)
{
    const struct leaf *leaf;
    for (leaf = from; leaf < to; leaf++) {
        write_leaf_value(pen, leaf);
    }
}

/* Writes a value for each record. */
static void write_column(struct pen *pen, const struct leaf *from, const struct leaf *to, uint32_t records)
{
    uint32_t left;
    for (left = records; 0 < left; left--) {
        write_leaf_values(pen, from, to);
    }
}

/* The first leaf after the field that a leaf belongs to. */
static const struct leaf *field_end(const struct leaf *from, const struct leaf *end)
{
    const struct leaf *to = from;
    while (to < end && to->field == from->field) {
        to++;
    }
    return to;
}

/* Writes a column for each field. */
static void write_columns(struct pen *pen, const struct table *table, uint32_t records)
{
    const struct leaf *from = table->leaves, *end = from + table->leaf_count;
    while (from < end) {
        const struct leaf *to = field_end(from, end);
        write_column(pen, from, to, records);
        from = to;
    }
}

/* Writes the payload of so many records, where it is not too long. */
static void write_records(struct pen *pen, const struct table *table, uint8_t mark, uint32_t records)
{
    uint32_t bytes = limited_product(records, table->bytes);
    if (bytes == 0 || MOST_BYTES < bytes) {
        return;
    }
    if (mark == '[') {
        write_column(pen, table->leaves, table->leaves + table->leaf_count, records);
    } else {
        write_columns(pen, table, records);
    }
}

/* The most records: few if they are wide, many if they have no bytes. */
static uint32_t most_records(uint32_t bytes)
{
    return bytes == 0 ? 1000000 : 100 / bytes + 1;
}

/* Draws how deep the schema goes: one level most often; as a fault beyond eight. */
static uint32_t schema_depth(struct pen *pen)
{
    if (pen_draw(pen, 10) == 0) {
        return pen_draw(pen, 8) + 1;
    }
    return pen_slips(pen, 8) ? pen_draw(pen, 4) + 8 : 0;
}

void write_table(struct pen *pen)
{
    struct table table = {0};
    uint8_t mark = letter("[{", pen_draw(pen, 2));
    pen_put(pen, mark);
    pen_put(pen, '$');
    table.nesting.ahead = schema_depth(pen);
    write_schema(pen, &table, pen_draw(pen, 4) + 1);
    pen_put(pen, '#');
    write_records(pen, &table, mark, write_count(pen, most_records(table.bytes), false));
}
