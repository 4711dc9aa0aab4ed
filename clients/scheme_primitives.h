/* The procedures that scheme.c has of itself, with how many arguments each takes. These are in registers, one after another; the
   result goes into VALUE. Comparisons are five of numbers, characters and strings each; IS_NULL to IS_END have the order of the tags. */
#define EACH_PRIMITIVE(X)                                                                                                                 \
    X(ADD, "+", 0, ANY) X(SUBTRACT, "-", 1, ANY) X(MULTIPLY, "*", 0, ANY) X(QUOTIENT, "quotient", 2, 2) X(REMAINDER, "remainder", 2, 2)   \
    X(MODULO, "modulo", 2, 2) X(LESS, "<", 1, ANY) X(GREATER, ">", 1, ANY) X(EQUAL, "=", 1, ANY) X(AT_MOST, "<=", 1, ANY)                 \
    X(AT_LEAST, ">=", 1, ANY) X(C_LESS, "char<?", 1, ANY) X(C_GREATER, "char>?", 1, ANY) X(C_EQUAL, "char=?", 1, ANY)                     \
    X(C_AT_MOST, "char<=?", 1, ANY) X(C_AT_LEAST, "char>=?", 1, ANY) X(S_LESS, "string<?", 1, ANY) X(S_GREATER, "string>?", 1, ANY)       \
    X(S_EQUAL, "string=?", 1, ANY) X(S_AT_MOST, "string<=?", 1, ANY) X(S_AT_LEAST, "string>=?", 1, ANY) X(IS_NULL, "null?", 1, 1)         \
    X(IS_NUMBER, "number?", 1, 1) X(IS_BOOLEAN, "boolean?", 1, 1) X(IS_SYMBOL, "symbol?", 1, 1) X(IS_STRING, "string?", 1, 1)             \
    X(IS_PAIR, "pair?", 1, 1) X(IS_VECTOR, "vector?", 1, 1) X(IS_CHARACTER, "char?", 1, 1) X(IS_INPUT, "input-port?", 1, 1)               \
    X(IS_OUTPUT, "output-port?", 1, 1) X(IS_END, "eof-object?", 1, 1) X(IS_PROCEDURE, "procedure?", 1, 1) X(IS_LIST, "list?", 1, 1)       \
    X(IS_EQ, "eq?", 2, 2) X(CONS, "cons", 2, 2) X(CAR, "car", 1, 1) X(CDR, "cdr", 1, 1) X(CAAR, "caar", 1, 1) X(CADR, "cadr", 1, 1)       \
    X(CDAR, "cdar", 1, 1) X(CDDR, "cddr", 1, 1) X(CAAAR, "caaar", 1, 1) X(CAADR, "caadr", 1, 1) X(CADAR, "cadar", 1, 1)                   \
    X(CADDR, "caddr", 1, 1) X(CDAAR, "cdaar", 1, 1) X(CDADR, "cdadr", 1, 1) X(CDDAR, "cddar", 1, 1) X(CDDDR, "cdddr", 1, 1)               \
    X(CAAAAR, "caaaar", 1, 1) X(CAAADR, "caaadr", 1, 1) X(CAADAR, "caadar", 1, 1) X(CAADDR, "caaddr", 1, 1) X(CADAAR, "cadaar", 1, 1)     \
    X(CADADR, "cadadr", 1, 1) X(CADDAR, "caddar", 1, 1) X(CADDDR, "cadddr", 1, 1) X(CDAAAR, "cdaaar", 1, 1) X(CDAADR, "cdaadr", 1, 1)     \
    X(CDADAR, "cdadar", 1, 1) X(CDADDR, "cdaddr", 1, 1) X(CDDAAR, "cddaar", 1, 1) X(CDDADR, "cddadr", 1, 1) X(CDDDAR, "cdddar", 1, 1)     \
    X(CDDDDR, "cddddr", 1, 1) X(SET_CAR, "set-car!", 2, 2) X(SET_CDR, "set-cdr!", 2, 2) X(LENGTH, "length", 1, 1)                         \
    X(REVERSE, "reverse", 2, 2) X(TO_VECTOR, "list->vector", 1, 1) X(MAKE_VECTOR, "make-vector", 1, 2)                              \
    X(VECTOR_REF, "vector-ref", 2, 2) X(VECTOR_SET, "vector-set!", 3, 3) X(VECTOR_LENGTH, "vector-length", 1, 1)                          \
    X(MAKE_STRING, "make-string", 1, 2) X(STRING_REF, "string-ref", 2, 2) X(STRING_SET, "string-set!", 3, 3)                              \
    X(STRING_LENGTH, "string-length", 1, 1) X(STRING_APPEND, "string-append", 0, ANY) X(SUBSTRING, "substring", 3, 3)                     \
    X(NUMBER_TO_STRING, "number->string", 1, 1) X(STRING_TO_NUMBER, "string->number", 1, 2) X(SYMBOL_TO_STRING, "symbol->string", 1, 1)  \
    X(STRING_TO_SYMBOL, "string->symbol", 1, 1) X(CHAR_TO_INTEGER, "char->integer", 1, 1) X(INTEGER_TO_CHAR, "integer->char", 1, 1)       \
    X(UPCASE, "char-upcase", 1, 1) X(DOWNCASE, "char-downcase", 1, 1) X(OPEN_INPUT, "open-input-file", 1, 1)                              \
    X(OPEN_OUTPUT, "open-output-file", 1, 1) X(CLOSE_INPUT, "close-input-port", 1, 1) X(CLOSE_OUTPUT, "close-output-port", 1, 1)          \
    X(INPUT_PORT, "current-input-port", 0, 0) X(OUTPUT_PORT, "current-output-port", 0, 0) X(USE_PORT, "%use-port", 1, 1)                  \
    X(READ, "read", 0, 1) X(READ_CHAR, "read-char", 0, 1) X(PEEK_CHAR, "peek-char", 0, 1) X(WRITE, "write", 1, 2)                         \
    X(DISPLAY, "display", 1, 2) X(WRITE_CHAR, "write-char", 1, 2) X(ERROR, "error", 1, 2) X(COUNT, "%count", 1, 1)                        \
    X(CALL_CC, "call/cc", 1, 1) X(APPLY, "apply", 2, ANY) X(EVAL, "eval", 1, 1) X(DEFINE_MACRO, "%define-macro", 2, 2)
#ifdef HOLDERS_H
/* Who looks for what holds an object is told the symbol of a global. */
static const char *name_of_global(uint32_t global) { return global < symbols ? names[global] : NULL; }
static holders_names *m_name_of = name_of_global;
#endif

enum { ANY = 255 };
#define NUMBER_OF(number, name, least, most) number,
#define ROW_OF(number, name, least, most) {name, least, most},
enum { EACH_PRIMITIVE(NUMBER_OF) PRIMITIVES };
static const struct { const char *name; unsigned char least, most; } primitives[PRIMITIVES] = {EACH_PRIMITIVE(ROW_OF)};

static void need_count(uint32_t which, uint32_t count)
{
    unsigned least = primitives[which].least, most = primitives[which].most;
    if (count < least) mistake(0, 0, "%s needs %u arguments, and got %u", primitives[which].name, least, count);
    if (count > most && most != ANY) mistake(0, 0, "%s takes %u arguments, and got %u", primitives[which].name, most, count);
}
/* Answers what an object tells: the value of a number or a character, the length of a vector or a string. */
static int64_t need(uint32_t which, reg it, unsigned kind)
{
    uint64_t head = m_head(it);
    if ((head & TAG) != kind) mistake(1, it, "%s wants %s, not %s", primitives[which].name, kinds[kind], kinds[head & TAG]);
    return told(it, head);
}
static uint32_t need_within(uint32_t which, reg it, int64_t least, int64_t most, const char *why)
{
    int64_t value = need(which, it, NUMBER);
    if (value < least || value > most) mistake(1, it, "%s: %s", primitives[which].name, why);
    return (uint32_t)value;
}

static int64_t arithmetic(uint32_t which, int64_t one, int64_t other)
{
    int64_t result = 0;
    int beyond = 0;
    if (which == ADD) beyond = __builtin_add_overflow(one, other, &result);
    else if (which == SUBTRACT) beyond = __builtin_sub_overflow(one, other, &result);
    else if (which == MULTIPLY) beyond = __builtin_mul_overflow(one, other, &result);
    else if (other == 0) mistake(0, 0, "%s by 0", primitives[which].name);
    else if (other == -1) beyond = which == QUOTIENT && __builtin_sub_overflow(0, one, &result);
    else result = which == QUOTIENT ? one / other : one % other;
    if (beyond) mistake(0, 0, "%s: a number beyond 64 bits", primitives[which].name);
    if (which == MODULO && result != 0 && (result < 0) != (other < 0)) result += other;
    return result;
}
static void compute(uint32_t which, reg first, uint32_t count)
{
    int64_t result = which == MULTIPLY ? 1 : 0;
    for (uint32_t i = 0; i < count; i++) {
        int64_t value = need(which, first + i, NUMBER);
        result = i == 0 && count > 1 ? value : arithmetic(which, result, value);
    }
    number(VALUE, result);
}
/* Below 0, 0 or above: how one string compares with another. */
static int order_of(reg one, reg other)
{
    size_t length, more;
    const char *left = bytes_of(one, &length), *right = bytes_of(other, &more);
    int order = memcmp(left, right, length < more ? length : more);
    return order != 0 ? order : (length > more) - (length < more);
}
/* Compares each argument with the one before. */
static void compare(uint32_t which, reg first, uint32_t count)
{
    static const unsigned char kind[] = {NUMBER, CHARACTER, STRING};
    static const unsigned char fits[][3] = {{1, 0, 0}, {0, 0, 1}, {0, 1, 0}, {1, 1, 0}, {0, 1, 1}}; /* where it is below, the same, above */
    uint32_t group = (which - LESS) / 5, by = (which - LESS) % 5;
    int64_t before = 0;
    int yes = 1;
    for (uint32_t i = 0; i < count; i++) {
        int64_t value = need(which, first + i, kind[group]);
        if (i != 0 && yes) {
            int order = group == 2 ? order_of(first + i - 1, first + i) : (before > value) - (before < value);
            yes = fits[by][order < 0 ? 0 : order == 0 ? 1 : 2];
        }
        before = value;
    }
    truth(yes);
}
static int is_eq(reg one, reg other)
{
    unsigned tag = tag_of(one);
    return (tag == NUMBER || tag == CHARACTER) && tag_of(other) == tag ? value_of(one) == value_of(other) : m_same(one, other);
}

/* Lists. */
static int64_t need_list(uint32_t which, reg it)
{
    int64_t length = length_of(it);
    if (length < 0) mistake(1, it, "%s wants a list", primitives[which].name);
    return length;
}
/* The list's elements in reverse, before another list. */
static void reverse_onto(reg list, reg tail)
{
    need_list(REVERSE, list);
    m_move(VALUE, tail);
    for (m_move(PART, list); tag_of(PART) == PAIR; cdr(PART, PART)) car(REST, PART), cons(VALUE, REST, VALUE);
}
/* The car of a cdr and the like, by the letters of the name from the last one on. */
static void follow(const char *name, reg it)
{
    m_move(VALUE, it);
    for (size_t i = strlen(name) - 2; i != 0; i--) need(name[i] == 'd' ? CDR : CAR, VALUE, PAIR), m_get(VALUE, VALUE, name[i] == 'd');
}

/* Vectors and strings. */
static uint32_t place(uint32_t which, reg of, unsigned kind, reg at)
{
    const char *why = kind == VECTOR ? "the vector has no such place" : "the string has no such place";
    return need_within(which, at, 0, need(which, of, kind) - 1, why);
}
static void make_vector(reg length, reg fill, uint32_t count)
{
    uint32_t elements = need_within(MAKE_VECTOR, length, 0, 16777216, "no vector is as long");
    make(VALUE, head(VECTOR, elements), elements, 0);
    if (count > 1 && tag_of(fill) != NIL)
        for (uint32_t i = 0; i < elements; i++) m_put(VALUE, i, fill);
}
static void make_string(reg length, reg fill, uint32_t count)
{
    uint32_t bytes = need_within(MAKE_STRING, length, 0, 16777216, "no string is as long"), words = (bytes + 7) / 8;
    if (count > 1) need(MAKE_STRING, fill, CHARACTER);
    uint64_t part[64];
    for (uint32_t i = 0; i < 64; i++) part[i] = 0x0101010101010101u * (uint64_t)(count > 1 ? value_of(fill) : ' ');
    make(VALUE, head(STRING, bytes), 0, words);
    for (uint32_t i = 0; i < words; i += 64) m_write_words(VALUE, 1 + i, part, words - i < 64 ? words - i : 64);
}
static void string_place(uint32_t which, reg of, reg at, reg value)
{
    uint32_t byte = place(which, of, STRING, at);
    uint64_t word = m_read(of, 1 + byte / 8);
    unsigned char bytes[8];
    memcpy(bytes, &word, 8);
    if (which == STRING_SET) {
        need(which, value, CHARACTER), bytes[byte % 8] = (unsigned char)value_of(value);
        memcpy(&word, bytes, 8);
        m_write(of, 1 + byte / 8, word), m_move(VALUE, of);
    } else make_word(VALUE, CHARACTER, bytes[byte % 8]);
}
static void append_strings(reg first, uint32_t count)
{
    static char *text;
    size_t length = 0, more;
    for (uint32_t i = 0; i < count; i++) length += (size_t)need(STRING_APPEND, first + i, STRING);
    text = (char *)realloc(text, length + 1), length = 0;
    if (text == NULL) m_die("no memory");
    for (uint32_t i = 0; i < count; i++, length += more) {
        const char *bytes = bytes_of(first + i, &more);
        memcpy(text + length, bytes, more);
    }
    string(VALUE, text, length);
}
static void substring(reg of, reg from, reg to)
{
    size_t length;
    const char *bytes = (need(SUBSTRING, of, STRING), bytes_of(of, &length));
    uint32_t end = need_within(SUBSTRING, to, 0, (int64_t)length, "the string has no such end");
    uint32_t begin = need_within(SUBSTRING, from, 0, end, "the part has no such beginning");
    string(VALUE, bytes + begin, end - begin);
}
static void string_to_number(reg it, uint32_t radix)
{
    size_t length;
    int64_t value;
    const char *bytes = bytes_of(it, &length);
    int is = strlen(bytes) == length ? parse_number(bytes, (int)radix, &value) : 0;
    if (is < 0) mistake(1, it, "string->number: a number beyond 64 bits");
    if (is == 0) truth(0);
    else number(VALUE, value);
}
static void string_to_symbol(reg it)
{
    size_t length;
    const char *bytes = bytes_of(it, &length);
    if (strlen(bytes) != length) mistake(1, it, "string->symbol: a zero byte stands in the string");
    symbol(VALUE, intern(bytes));
}

/* Ports. */
static void open_port(uint32_t which, reg name)
{
    size_t length;
    uint32_t number = OTHERS;
    const char *bytes;
    need(which, name, STRING), bytes = bytes_of(name, &length);
    while (number < MOST_PORTS && ports[number].file != NULL) number++;
    if (number == MOST_PORTS) mistake(1, name, "%s: %d files are open", primitives[which].name, MOST_PORTS - OTHERS);
    make_word(VALUE, which == OPEN_INPUT ? INPUT : OUTPUT, CLOSED);
    ports[number] = (port){strlen(bytes) == length ? fopen(bytes, which == OPEN_INPUT ? "r" : "w") : NULL, 1, intern(bytes)};
    if (ports[number].file == NULL) mistake(1, name, "%s: the file can't be opened", primitives[which].name);
    m_write(VALUE, 0, head(which == OPEN_INPUT ? INPUT : OUTPUT, number));
}
static void close_port(uint32_t which, reg it)
{
    unsigned kind = which == CLOSE_INPUT ? INPUT : OUTPUT;
    int64_t number = need(which, it, kind);
    if (number >= OTHERS && number != CLOSED) fclose(ports[number].file), ports[number].file = NULL, m_write(it, 0, head(kind, CLOSED));
    m_drop(VALUE);
}
/* The port in a register, or the current one where there is no argument for it. */
static port *port_of(uint32_t which, reg it, int given)
{
    unsigned kind = which < WRITE ? INPUT : OUTPUT;
    int64_t number;
    if (given) m_move(OTHER, it);
    else m_load(OTHER, kind == INPUT ? CURRENT_INPUT : CURRENT_OUTPUT);
    number = need(which, OTHER, kind);
    if (number == CLOSED) mistake(1, OTHER, "%s: the port is closed", primitives[which].name);
    return &ports[number];
}
static void read_character_of(uint32_t which, port *from)
{
    int c = getc(from->file);
    if (which == PEEK_CHAR) ungetc(c, from->file);
    else from->line += c == '\n';
    if (c == EOF) symbol(VALUE, END_VALUE);
    else make_word(VALUE, CHARACTER, (uint64_t)c);
}
static void print_to(uint32_t which, reg it, port *to)
{
    output = to->file;
    if (which == WRITE_CHAR) fputc((int)need(which, it, CHARACTER), output);
    else print(it, which == WRITE);
    m_drop(VALUE);
}
static void of_text(uint32_t which, reg first, uint32_t count)
{
    size_t length;
    char text[1024];
    uint64_t counts[M_COUNTS];
    switch (which) {
    case MAKE_STRING: make_string(first, first + 1, count); break;
    case STRING_REF: case STRING_SET: string_place(which, first, first + 1, first + 2); break;
    case STRING_LENGTH: number(VALUE, need(which, first, STRING)); break;
    case STRING_APPEND: append_strings(first, count); break;
    case SUBSTRING: substring(first, first + 1, first + 2); break;
    case NUMBER_TO_STRING:
        snprintf(text, sizeof text, "%" PRId64, need(which, first, NUMBER)), string(VALUE, text, strlen(text));
        break;
    case STRING_TO_NUMBER:
        need(which, first, STRING);
        string_to_number(first, count == 1 ? 10 : need_within(which, first + 1, 2, 16, "a radix is from 2 to 16"));
        break;
    case SYMBOL_TO_STRING: need(which, first, SYMBOL), string(VALUE, names[value_of(first)], strlen(names[value_of(first)])); break;
    case STRING_TO_SYMBOL: need(which, first, STRING), string_to_symbol(first); break;
    case CHAR_TO_INTEGER: number(VALUE, need(which, first, CHARACTER)); break;
    case INTEGER_TO_CHAR: make_word(VALUE, CHARACTER, need_within(which, first, 0, 255, "a character is a byte")); break;
    case UPCASE: make_word(VALUE, CHARACTER, (uint64_t)toupper((int)need(which, first, CHARACTER))); break;
    case DOWNCASE: make_word(VALUE, CHARACTER, (uint64_t)tolower((int)need(which, first, CHARACTER))); break;
    case OPEN_INPUT: case OPEN_OUTPUT: open_port(which, first); break;
    case CLOSE_INPUT: case CLOSE_OUTPUT: close_port(which, first); break;
    case INPUT_PORT: m_load(VALUE, CURRENT_INPUT); break;
    case OUTPUT_PORT: m_load(VALUE, CURRENT_OUTPUT); break;
    case USE_PORT: m_save(tag_of(first) == INPUT ? CURRENT_INPUT : CURRENT_OUTPUT, first); break;
    case READ:
        if (!read_from(port_of(which, first, count == 1))) symbol(VALUE, END_VALUE);
        break;
    case READ_CHAR: case PEEK_CHAR: read_character_of(which, port_of(which, first, count == 1)); break;
    case WRITE: case DISPLAY: case WRITE_CHAR: print_to(which, first, port_of(which, first + 1, count == 2)); break;
    case ERROR: need(which, first, STRING), snprintf(text, sizeof text, "%s", bytes_of(first, &length));
        mistake(count == 2, first + count - 1, "%s", text);
    case DEFINE_MACRO:
        need(which, first, SYMBOL), need(which, first + 1, CLOSURE), make(VALUE, MACRO, 3, 0);
        for (uint32_t i = 0; i < 3; i++) m_get(PART, first + 1, i), m_put(VALUE, i, PART);
        set_global(first, VALUE), m_move(VALUE, first);
        break;
    case COUNT: m_count(counts), number(VALUE, (int64_t)counts[need_within(which, first, 0, M_COUNTS - 1, "no such count")]); break;
    }
}
static void primitive(uint32_t which, reg first, uint32_t count)
{
    unsigned tag;
    switch (which) {
    case ADD: case SUBTRACT: case MULTIPLY: case QUOTIENT: case REMAINDER: case MODULO: compute(which, first, count); break;
    case IS_NULL: case IS_NUMBER: case IS_BOOLEAN: case IS_SYMBOL: case IS_STRING: case IS_PAIR: case IS_VECTOR: case IS_CHARACTER:
    case IS_INPUT: case IS_OUTPUT: case IS_END: truth(tag_of(first) == which - IS_NULL); break;
    case IS_PROCEDURE: tag = tag_of(first), truth(tag == CLOSURE || tag == PRIMITIVE || tag == CONTINUATION); break;
    case IS_LIST: truth(length_of(first) >= 0); break;
    case IS_EQ: truth(is_eq(first, first + 1)); break;
    case CONS: cons(VALUE, first, first + 1); break;
    case CAR: need(which, first, PAIR), car(VALUE, first); break;
    case CDR: need(which, first, PAIR), cdr(VALUE, first); break;
    case SET_CAR: case SET_CDR: need(which, first, PAIR), m_put(first, which - SET_CAR, first + 1), m_move(VALUE, first); break;
    case LENGTH: number(VALUE, need_list(which, first)); break;
    case REVERSE: reverse_onto(first, first + 1); break;
    case TO_VECTOR: vector_of(VALUE, first, need_list(which, first)); break;
    case MAKE_VECTOR: make_vector(first, first + 1, count); break;
    case VECTOR_REF: m_get(VALUE, first, place(which, first, VECTOR, first + 1)); break;
    case VECTOR_SET: m_put(first, place(which, first, VECTOR, first + 1), first + 2), m_move(VALUE, first); break;
    case VECTOR_LENGTH: number(VALUE, need(which, first, VECTOR)); break;
    default:
        if (which >= LESS && which <= S_AT_LEAST) compare(which, first, count);
        else if (which >= CAAR && which <= CDDDDR) follow(primitives[which].name, first);
        else of_text(which, first, count);
    }
}
