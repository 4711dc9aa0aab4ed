/* scheme.c: a Scheme after R4RS. All its values, and its stack, are roots and objects of memory.h: what a runtime in C has in variables and
   on its stack is in registers here, so a collection may come at any m_new.

     scheme FILE      evaluates a file, and ends with status 1 at the first mistake
     scheme           reads from a person, and goes on after a mistake; `rlwrap scheme` edits lines

   Numbers are integers of 64 bits: there are no fractions and no floats, and what is beyond 64 bits is a mistake. Characters are bytes.
   Beside R4RS it has define-macro, when, error, eval and (gc-stats). Forms that aren't built in are macros of prelude.h. A symbol's object
   is in the global of its number. G1HEAP_REGIONS sets the size of the heap, 256 regions of 1,024 words else. */
#include <ctype.h>
#include <errno.h>
#include <inttypes.h>
#include <search.h>
#include <setjmp.h>
#include <stdarg.h>
#include <unistd.h>

#include "memory.h"
#include "prelude.h"

/* Registers: those of the machine, and after them its stack, a row of frames. WHOLE holds what is evaluated at the top. */
enum { EXPRESSION, ENVIRONMENT, VALUE, REST, PART, OTHER, WHOLE, STACK };
enum { MOST_REGISTERS = 65536, MOST_SYMBOLS = 4096, MOST_NAME = 255, MOST_NESTED = 10000, MOST_PORTS = 64, MOST_TOLD = 60,
       MOST_LEFT = 32 };
/* Globals: the symbols, the current ports, and the first ones. */
enum { CURRENT_INPUT = MOST_SYMBOLS, CURRENT_OUTPUT, FIRST_INPUT, FIRST_OUTPUT, GLOBALS };
/* An object's data word 0 is its head: the tag in four bits, and from bit SHIFT on what else one read is to tell. That of nil, the empty
   list, is 0. A number that doesn't fit is LARGE, and is word 1. */
enum { TAG = 15, LARGE = 16, SHIFT = 8 };
enum { NIL, NUMBER, BOOLEAN, SYMBOL, STRING, PAIR, VECTOR, CHARACTER, INPUT, OUTPUT, END, CLOSURE, MACRO, PRIMITIVE, CONTINUATION,
       BINDING };
static const char *const kinds[] = {"the empty list", "a number", "a truth value", "a symbol", "a string", "a pair", "a vector",
    "a character", "a port for input", "a port for output", "the end of a file", "a procedure", "a macro", "a procedure", "a procedure",
    "a binding"};

/* pair: car, cdr; the head of one that was read has the place of its car.  closure, macro: parameters, body, environment.  symbol: its
   global value; the head has its number, word 1 whether it has a value.  number, truth value, character, port, primitive: the head.
   binding: next, value; the head has the symbol's number.  vector: its elements; the head has the length.  string: the head has the length
   in bytes, then come these.  continuation: the stack's registers; the head has how many frames, and a word for each. */

/* The names that C knows, symbols by their numbers. */
enum { NO_NAME, QUOTE, IF, DEFINE, SET, RAW_LAMBDA, BEGIN, AND, OR, LOCAL, LAMBDA, QUASIQUOTE, UNQUOTE, UNQUOTE_SPLICING, DOT,
       TRUE_VALUE, FALSE_VALUE, END_VALUE, FIRST_NAMES };
static const char *const first_names[FIRST_NAMES] = {"", "quote", "if", "define", "set!", "%lambda", "begin", "and", "or",
    "%local", "lambda", "quasiquote", "unquote", "unquote-splicing", ".", "#t", "#f", "#<end of file>"};

/* The files that are open: a closed port has the number CLOSED. `name` is a symbol's number, and 0 that of no file. */
enum { STANDARD_INPUT, STANDARD_OUTPUT, PROGRAM, OTHERS, CLOSED = MOST_PORTS, PRELUDE = UINT16_MAX };
typedef struct port { FILE *file; unsigned line; uint32_t name; } port;
static port ports[MOST_PORTS];
static port *source;                     /* what the reader reads */
static FILE *output;                     /* where the printer prints */
static char recent[48];                  /* what was read last of the expression that is read, and how many bytes of it were read */
static size_t recently;
static int reading, nested;              /* whether the reader is at work; how deep it or the printer is within lists */
static uint64_t left_to_print = UINT64_MAX;
static jmp_buf after_mistake;

/* The stack: a frame begins at a register, and says what is to be done with a value. It holds the form that it is of, or of a sequence
   what is left of it, and the environment; one of a call then the procedure and the arguments so far. From frame `kept` on the environment
   is still that in ENVIRONMENT, and a frame gets it before another one comes there. */
typedef struct frame { uint32_t base, what; uint64_t head; } frame; /* the head of a call's procedure, where it is known */
static frame frames[MOST_REGISTERS];
static uint32_t depth, kept;
static reg top = STACK, used = STACK;    /* what frames left may be in registers from `top` up to `used`; all after these are nil */
enum { DO_IF, DO_SET, DO_DEFINE, DO_SEQUENCE, DO_AND, DO_OR, DO_CALL, DO_LAST, DO_MACRO };

static char *names[MOST_SYMBOLS];
/* Whether a symbol ever had a binding, else its value is the global one; and whether that ever was a macro. */
static int is_bound[MOST_SYMBOLS], is_macro[MOST_SYMBOLS];
static void print(reg it, int quoted);

static uint64_t head(unsigned tag, uint64_t told) { return tag | told << SHIFT; }
static unsigned tag_of(reg it) { return m_head(it) & TAG; }
/* The place of a pair that was read: a file's name and a line, 0 of another object. */
static uint64_t place_of(reg it) { return tag_of(it) == PAIR ? m_head(it) >> SHIFT : 0; }
/* Leads PART to the innermost form that is being evaluated and was read, and answers its place. */
static uint64_t find_form(void)
{
    for (uint32_t i = depth; i-- > 0;) {
        uint64_t place;
        m_move(PART, frames[i].base);
        if ((place = place_of(PART)) == 0) continue;
        if (frames[i].what >= DO_SEQUENCE && frames[i].what <= DO_OR) m_get(PART, PART, 0);
        return place;
    }
    m_move(PART, WHOLE);
    return place_of(PART);
}
/* Says in which form a mistake is, or after which text, and what is wrong, with the value in a register where there is one; then it gives
   up what is evaluated. The stack is left before, so what is printed has room. */
static _Noreturn void mistake(int has_value, reg value, const char *why, ...)
{
    va_list words;
    uint64_t place;
    if (has_value) m_move(VALUE, value);
    place = find_form();
    if (reading || place == 0) place = (uint64_t)source->name << 32 | source->line;
    depth = 0, kept = 0, nested = 0, m_scope(STACK), top = used = STACK;
    fflush(stdout), output = stderr;
    if (place >> 32 != NO_NAME && place >> 32 != PRELUDE) fprintf(stderr, "%s, ", names[place >> 32]);
    fprintf(stderr, "line %u, %s", (uint32_t)place, !reading ? "in " : recently > sizeof recent ? "after .." : "after ");
    left_to_print = MOST_TOLD;
    if (!reading) print(PART, 1);
    else
        for (size_t i = recently > sizeof recent ? recently - sizeof recent : 0; i < recently; i++)
            fputc(iscntrl((unsigned char)recent[i % sizeof recent]) ? ' ' : recent[i % sizeof recent], stderr);
    fputs(": ", stderr);
    va_start(words, why);
    vfprintf(stderr, why, words);
    va_end(words);
    left_to_print = MOST_TOLD;
    if (has_value) fputs(": ", stderr), print(VALUE, 1);
    fputc('\n', stderr);
    longjmp(after_mistake, 1);
}

static reg room(uint32_t registers)
{
    if (MOST_REGISTERS - top <= registers) mistake(0, 0, "the stack of %u registers is full: a recursion is too deep", MOST_REGISTERS);
    return top;
}
/* The reader and the printer call themselves for what is in a list or a vector. */
static void go_deeper(void)
{
    if (nested == MOST_NESTED) mistake(0, 0, "more than %d lists, quotations and vectors are within one another", MOST_NESTED);
    nested++;
}
static void push(reg it) { m_move(room(1), it), top++; }
/* Registers are left nil some frames at a time, since a frame mostly comes where the last one was. */
static void leave(reg base)
{
    if (used < top) used = top;
    if (used - base > MOST_LEFT) m_scope(base), used = base;
    top = base;
}

static void need_made(int is)
{
    if (!is) mistake(0, 0, "the heap is full of live objects: give it more by G1HEAP_REGIONS=%u", 2 * m_sizes.regions);
}
/* An object with a head, its pointers nil and `values` more words 0. */
static void make(reg to, uint64_t head, uint32_t pointers, uint32_t values)
{
    need_made(m_new(to, pointers, values + 1)), m_write(to, 0, head);
}
/* An object of a head and two pointers; `to` is neither of these. */
static void make_two(reg to, uint64_t head, reg one, reg two) { need_made(m_new_filled(to, (reg[]){one, two}, 2, &head, 1)); }
/* A character, a port or a primitive. */
static void make_word(reg to, unsigned tag, uint64_t value)
{
    uint64_t word = head(tag, value);
    need_made(m_new_filled(to, NULL, 0, &word, 1));
}
static void number(reg to, int64_t value)
{
    if ((int64_t)((uint64_t)value << SHIFT) >> SHIFT == value) make_word(to, NUMBER, (uint64_t)value);
    else make(to, NUMBER | LARGE, 0, 1), m_write(to, 1, (uint64_t)value);
}
/* What an object tells whose head is known. */
static int64_t told(reg it, uint64_t head) { return head & LARGE ? (int64_t)m_read(it, 1) : (int64_t)head >> SHIFT; }
static int64_t value_of(reg it) { return told(it, m_read(it, 0)); }
/* The pair of two registers; `to` may be one of them. */
static void cons(reg to, reg car, reg cdr)
{
    if (to != car && to != cdr) make_two(to, PAIR, car, cdr);
    else make_two(OTHER, PAIR, car, cdr), m_move(to, OTHER);
}
static void car(reg to, reg pair) { m_get(to, pair, 0); }
static int cdr(reg to, reg pair) { return m_get(to, pair, 1); }

/* Symbols: their names are here, their objects in globals. */
static uint32_t symbols;
static uint32_t lambda_name = RAW_LAMBDA;      /* the form that define makes: that of prelude.h once this is read */

static uint32_t intern(const char *name)
{
    ENTRY entry = {(char *)(uintptr_t)name, NULL}, *found = hsearch(entry, FIND);
    if (found != NULL) return (uint32_t)(uintptr_t)found->data;
    if (symbols == MOST_SYMBOLS) mistake(0, 0, "there are too many symbols: %u", MOST_SYMBOLS);
    entry.key = names[symbols] = strdup(name), entry.data = (void *)(uintptr_t)symbols;
    if (entry.key == NULL || hsearch(entry, ENTER) == NULL) m_die("no memory");
    return symbols++;
}
/* The truth values and the end of a file are in the table of symbols too: so there is one object of each. */
static void symbol(reg to, uint32_t id)
{
    if (m_load(to, id)) return;
    make(to, head(id == TRUE_VALUE || id == FALSE_VALUE ? BOOLEAN : id == END_VALUE ? END : SYMBOL, id), 1, 1);
    m_save(id, to);
}
static void set_global(reg name, reg it) { m_put(name, 0, it), m_write(name, 1, 1), is_macro[value_of(name)] |= tag_of(it) == MACRO; }
static void truth(int yes) { m_load(VALUE, yes ? TRUE_VALUE : FALSE_VALUE); }
static int is_false(reg it) { return m_head(it) == head(BOOLEAN, FALSE_VALUE); }

/* Strings: eight bytes a word. */
static void string(reg to, const char *bytes, size_t length)
{
    uint64_t words[64];
    make(to, head(STRING, length), 0, (uint32_t)(length + 7) / 8);
    for (size_t i = 0, part; i < length; i += part) {
        part = length - i < sizeof words ? length - i : sizeof words;
        words[(part - 1) / 8] = 0;
        memcpy(words, bytes + i, part);
        m_write_words(to, 1 + (uint32_t)(i / 8), words, (part + 7) / 8);
    }
}
/* The bytes of a string, with a 0 after them, until the next call but one. */
static char *bytes_of(reg it, size_t *length)
{
    static char *buffers[2];
    static int turn;
    *length = (size_t)value_of(it), turn = !turn;
    buffers[turn] = (char *)realloc(buffers[turn], *length + 8);
    if (buffers[turn] == NULL) m_die("no memory");
    m_read_words(it, 1, (uint64_t *)(void *)buffers[turn], (*length + 7) / 8);
    buffers[turn][*length] = 0;
    return buffers[turn];
}

/* The length of a list, -1 of what is none: it ends otherwise, or leads back into itself. A register waits for it to come back. */
static int64_t length_of(reg list)
{
    int64_t length = 0, turn = 1;
    for (m_move(OTHER, list), m_move(PART, list); tag_of(OTHER) == PAIR; length++) {
        if (!cdr(OTHER, OTHER)) return length + 1;
        if (m_same(OTHER, PART)) return -1;
        if (length == turn) m_move(PART, OTHER), turn *= 2;
    }
    return tag_of(OTHER) == NIL ? length : -1;
}
/* A vector of the list in a register, whose length is known. */
static void vector_of(reg to, reg list, int64_t length)
{
    make(to, head(VECTOR, (uint64_t)length), (uint32_t)length, 0);
    m_move(PART, list);
    for (uint32_t i = 0; i < (uint32_t)length; i++, cdr(PART, PART)) car(OTHER, PART), m_put(to, i, OTHER);
}

/* The reader. */
static int next_byte(void)
{
    int c = getc(source->file);
    source->line += c == '\n';
    if (c != EOF) recent[recently++ % sizeof recent] = (char)c;
    return c;
}
static void put_back(int c)
{
    source->line -= c == '\n';
    if (c != EOF) recently--;
    ungetc(c, source->file);
}
static int next_mark(void)
{
    int c = next_byte();
    while (isspace(c) || c == ';') {
        while (c == ';' && (c = next_byte()) != '\n' && c != EOF) c = ';';
        c = next_byte();
    }
    if (nested == 0) recent[0] = (char)c, recently = 1;
    return c;
}
static void read_string(void)
{
    static char text[65536];
    size_t length = 0;
    unsigned line = source->line;
    for (int c; (c = next_byte()) != '"';) {
        if (c == '\\') c = next_byte(), c = c == 'n' ? '\n' : c;
        if (c == EOF) mistake(0, 0, "the text ends within a string that begins in line %u", line);
        if (length == sizeof text) mistake(0, 0, "a string is longer than %zu bytes", sizeof text);
        text[length++] = (char)c;
    }
    string(VALUE, text, length);
}
/* A word that begins with c, in lowercase. */
static size_t read_text(int c, char *text)
{
    size_t length = 0;
    for (; !isspace(c) && c != '(' && c != ')' && c != '"' && c != ';' && c != EOF; c = next_byte()) {
        if (length == MOST_NAME) mistake(0, 0, "a word is longer than %d bytes", MOST_NAME);
        text[length++] = (char)tolower(c);
    }
    put_back(c);
    text[length] = 0;
    if (memchr(text, 0, length) != NULL) mistake(0, 0, "a word with a zero byte in it");
    return length;
}
/* The number that a text says, with prefixes such as #x: 1 where it says one, 0 where not, -1 where that is beyond 64 bits. */
static int parse_number(const char *text, int radix, int64_t *value)
{
    char digits[] = "0123456789abcdefABCDEF";
    const char *first;
    for (; text[0] == '#'; text += 2) {
        int c = tolower((unsigned char)text[1]);
        if (c == 0 || strchr("boxdei", c) == NULL) return 0;
        radix = c == 'b' ? 2 : c == 'o' ? 8 : c == 'd' ? 10 : c == 'x' ? 16 : radix;
    }
    if (radix < 16) digits[radix] = 0;
    first = text + (*text == '+' || *text == '-');
    if (*first == 0 || first[strspn(first, digits)] != 0) return 0;
    errno = 0, *value = strtoll(text, NULL, radix);
    return errno == 0 ? 1 : -1;
}
static void read_word(int c)
{
    static char text[MOST_NAME + 1];
    size_t length = read_text(c, text), sign = *text == '+' || *text == '-' || *text == '.';
    int64_t value;
    int is = parse_number(text, 10, &value);
    if (is == 1) number(VALUE, value);
    else if (is == -1) mistake(0, 0, "a number beyond 64 bits: %s", text);
    else if (*text == '#' && strcmp(text, "#t") != 0 && strcmp(text, "#f") != 0) mistake(0, 0, "nothing is written so: %s", text);
    else if (length > sign && isdigit((unsigned char)text[sign])) mistake(0, 0, "numbers are whole, and names don't begin so: %s", text);
    else symbol(VALUE, intern(text));
}
static void read_character(void)
{
    static char text[MOST_NAME + 1];
    int c = next_byte();
    if (c == EOF) mistake(0, 0, "the text ends within a character");
    if (isalpha(c) && read_text(c, text) > 1) {
        c = strcmp(text, "space") == 0 ? ' ' : strcmp(text, "newline") == 0 ? '\n' : EOF;
        if (c == EOF) mistake(0, 0, "no character is called so: %s", text);
    }
    make_word(VALUE, CHARACTER, (uint64_t)c);
}
static int read_expression(void);
static void need_expression(const char *where, unsigned line)
{
    if (!read_expression()) mistake(0, 0, "the text ends within a %s that begins in line %u", where, line);
}
static int is_dot(reg it) { return m_head(it) == head(SYMBOL, DOT); }
/* Makes the pair of VALUE, which began in a line, and what a register holds. */
static void read_pair(unsigned line, reg rest)
{
    make_two(OTHER, head(PAIR, source->name != PRELUDE ? (uint64_t)source->name << 32 | line : 0), VALUE, rest);
    m_move(VALUE, OTHER), m_drop(OTHER);
}
/* A list, into VALUE. Its frame holds its pairs: the first and the last. */
static void read_list(const char *what)
{
    reg base = room(3);
    unsigned line = source->line, begin;
    int c;
    for (m_drop(base), top += 2; (c = next_mark()) != ')'; m_move(base + 1, VALUE)) {
        put_back(c), begin = source->line;
        need_expression(what, line);
        if (is_dot(VALUE)) {                                     /* one expression more, for the last pair */
            if (tag_of(base) == NIL || *what == 'v') mistake(0, 0, "a %s %s", what, *what == 'v' ? "has no dot" : "begins with a dot");
            if ((c = next_mark()) == ')') mistake(0, 0, "nothing follows the dot of a list");
            put_back(c), need_expression(what, line), m_put(base + 1, 1, VALUE);
            if (is_dot(VALUE) || next_mark() != ')') mistake(1, VALUE, "a list doesn't end after what follows its dot");
            break;
        }
        read_pair(begin, G1_NIL_REGISTER);
        if (tag_of(base) == NIL) m_move(base, VALUE);
        else m_put(base + 1, 1, VALUE);
    }
    m_move(VALUE, base), leave(base);
}
/* (quote x) for 'x, and the like. */
static void read_quotation(uint32_t name)
{
    unsigned line = source->line;
    need_expression("quotation", line);
    read_pair(line, G1_NIL_REGISTER);
    m_move(PART, VALUE), symbol(VALUE, name), read_pair(line, PART);
}
/* Reads an expression into VALUE; 0 at the end of the text. */
static int read_expression(void)
{
    int c = next_mark(), next = c == '#' || c == ',' ? next_byte() : EOF;
    if (c == EOF) return 0;
    if (c == ')') mistake(0, 0, "a ')' without its '('");
    if (c == '#' ? next != '\\' && next != '(' : c == ',' && next != '@') put_back(next);
    go_deeper();
    if (c == '"') read_string();
    else if (c == '(') read_list("list");
    else if (c == '\'' || c == '`') read_quotation(c == '`' ? QUASIQUOTE : QUOTE);
    else if (c == ',') read_quotation(next == '@' ? UNQUOTE_SPLICING : UNQUOTE);
    else if (c == '#' && next == '\\') read_character();
    else if (c == '#' && next == '(') read_list("vector"), m_move(REST, VALUE), vector_of(VALUE, REST, length_of(REST));
    else read_word(c);
    nested--;
    return 1;
}
/* Reads the next expression of a port into VALUE; 0 at the end. */
static int read_from(port *from)
{
    port *before = source;
    int found;
    source = from, reading = 1, recently = 0;
    found = read_expression();
    source = before, reading = 0;
    return found;
}

/* The printer: what a register holds. Its frames are registers too. */
static void print_string(reg it)
{
    size_t length;
    const char *bytes = bytes_of(it, &length);
    fputc('"', output);
    for (size_t i = 0; i < length; i++) {
        if (bytes[i] == '\n' || bytes[i] == '"' || bytes[i] == '\\') fputc('\\', output);
        fputc(bytes[i] == '\n' ? 'n' : bytes[i], output);
    }
    fputc('"', output);
}
/* A list that leads back into itself is cut short: a register waits for it to come back, farther on each time. */
static void print_list(reg it, int quoted)
{
    reg at = room(3);
    uint32_t steps = 0, most = 1;
    push(it), push(it), push(it);
    for (; tag_of(at) == PAIR && left_to_print != 0 && (steps == 0 || !m_same(at, at + 2)); cdr(at, at), steps++) {
        if (steps == most) m_move(at + 2, at), steps = 0, most *= 2;
        fputc(most == 1 && steps == 0 ? '(' : ' ', output);
        car(at + 1, at), print(at + 1, quoted);
    }
    if (tag_of(at) == PAIR) fputs(" ..", output);
    else if (tag_of(at) != NIL) fputs(" . ", output), print(at, quoted);
    fputc(')', output), leave(at);
}
static void print_vector(reg it, int quoted)
{
    reg at = room(1);
    uint32_t i = 0, length = (uint32_t)value_of(it);
    push(it), fputs("#(", output);
    for (; i < length && left_to_print != 0; i++) fputs(i == 0 ? "" : " ", output), m_get(at, it, i), print(at, quoted);
    fputs(i < length ? " ..)" : ")", output), leave(at);
}
static void print(reg it, int quoted)
{
    size_t length;
    const char *bytes;
    go_deeper(), left_to_print--;
    switch (tag_of(it)) {
    case NIL: fputs("()", output); break;
    case NUMBER: fprintf(output, "%" PRId64, value_of(it)); break;
    case BOOLEAN: case SYMBOL: case END: fputs(names[value_of(it)], output); break;
    case CHARACTER:
        if (!quoted) fputc((int)value_of(it), output);
        else if (value_of(it) == ' ' || value_of(it) == '\n') fputs(value_of(it) == ' ' ? "#\\space" : "#\\newline", output);
        else fprintf(output, "#\\%c", (int)value_of(it));
        break;
    case STRING:
        if (quoted) print_string(it);
        else bytes = bytes_of(it, &length), fwrite(bytes, 1, length, output);
        break;
    case PAIR: print_list(it, quoted); break;
    case VECTOR: print_vector(it, quoted); break;
    default: fprintf(output, "#<%s>", kinds[tag_of(it)] + 2);
    }
    nested--;
}

#include "scheme_primitives.h"

/* The evaluator: EXPRESSION in ENVIRONMENT, and its value into VALUE. */
static void begin_frame(uint32_t what, reg form)
{
    reg base = room(4);
    frames[depth++] = (frame){base, what, 0}, m_move(base, form), top += 2;
}
static reg end_frame(void) { return frames[--depth].base; }
/* Before another environment comes: so many frames get theirs, but those that want none again. */
static void keep_environment(uint32_t count)
{
    for (; kept < count; kept++)
        if (frames[kept].what != DO_LAST) m_move(frames[kept].base + 1, ENVIRONMENT);
}

/* The register that holds the binding of a name, whose head is known, or else the name's own: the value is field 1 or 0 there. */
static reg find(reg name, uint64_t symbol)
{
    uint64_t id = symbol >> SHIFT, wanted = head(BINDING, id), found;
    reg at = ENVIRONMENT;
    if (!is_bound[id]) return name;
    for (found = m_head(at); found != wanted; at = PART)
        if (found == NIL || (found = m_get_head(PART, at, 0)) == NIL) return name;
    return at;
}
static _Noreturn void want_name(reg it) { mistake(1, it, "a name is wanted here, not %s", kinds[tag_of(it)]); }
static void bind(reg name, uint64_t symbol, reg value)
{
    uint64_t id = symbol >> SHIFT;
    if ((symbol & TAG) != SYMBOL) want_name(name);
    make_two(PART, head(BINDING, id), ENVIRONMENT, value);
    m_move(ENVIRONMENT, PART), is_bound[id] = 1;
}
/* The tag of what is left of a form, which is loaded. */
static unsigned rest_of(reg form) { return m_get_head(REST, form, 1) & TAG; }
static void need_part(unsigned rest, const char *form)
{
    if (rest == PAIR) return;
    begin_frame(DO_IF, EXPRESSION);
    mistake(0, 0, "%s lacks a part", form);
}
/* What is left of a list of operands or of a body has to be a list. Answers whether there is more. */
static int is_more(reg list, unsigned tag)
{
    if (tag != PAIR && tag != NIL) mistake(1, list, "a list of operands or of a body ends with a dot");
    return tag == PAIR;
}
static int has_more(reg list) { return is_more(list, tag_of(list)); }
/* Goes on in such a list, and answers whether there is more. */
static int goes_on(reg list) { return is_more(list, m_get_head(list, list, 1) & TAG); }
/* A closure of the parameters in PART and the body in REST. */
static void closure(void)
{
    uint64_t word = CLOSURE;
    need_made(m_new_filled(VALUE, (reg[]){PART, REST, ENVIRONMENT}, 3, &word, 1));
}
/* What a name stands for, into another register. */
static void look_up(reg to, reg name, uint64_t symbol)
{
    reg at = find(name, symbol);
    if (!m_get(to, at, at != name) && at == name && m_read(name, 1) == 0) mistake(1, name, "a name that isn't defined");
}

/* Binds the parameters of a procedure to the arguments from a register on, `count` of them. */
static void bind_arguments(reg first, uint32_t count, reg procedure)
{
    uint32_t taken = 0;
    unsigned tag = m_get_head(REST, procedure, 0) & TAG;
    for (; tag == PAIR && taken < count; taken++)
        bind(OTHER, m_get_head(OTHER, REST, 0), first + taken), tag = rest_of(REST);
    if (tag == SYMBOL) {
        m_drop(VALUE);
        for (uint32_t i = count; i > taken; i--) cons(VALUE, first + i - 1, VALUE);
        bind(REST, m_head(REST), VALUE);
    } else if (tag != NIL || taken < count) {
        m_get(REST, procedure, 0);
        mistake(1, REST, "a procedure got %u arguments for its parameters", count);
    }
}

/* A continuation of all frames below `base`. */
static void capture(reg to, reg base)
{
    keep_environment(depth);
    make(to, head(CONTINUATION, depth), base - STACK, depth);
    for (uint32_t i = 0; i < depth; i++) m_write(to, 1 + i, (uint64_t)frames[i].base << 8 | frames[i].what);
    for (uint32_t i = 0; i < base - STACK; i++) m_put(to, i, STACK + i);
}
static void resume(reg from)
{
    depth = kept = (uint32_t)value_of(from);
    leave(STACK);
    for (uint32_t i = 0; i < depth; i++) frames[i] = (frame){(uint32_t)(m_read(from, 1 + i) >> 8), m_read(from, 1 + i) & 255, 0};
    top = STACK + m_pointers(from);
    for (uint32_t i = 0; i < m_pointers(from); i++) m_get(STACK + i, from, i);
}

/* How the machine goes on: with an expression, with one that is known to be a pair, with a value, with the call whose frame is on top. */
enum { EVALUATE, EVALUATE_FORM, RETURN, CALL };
static uint64_t expression_head; /* of EXPRESSION, where it goes on with that */
static int evaluate_first(reg list) { return expression_head = m_get_head(EXPRESSION, list, 0), EVALUATE; }
static int evaluate_it(void) { return expression_head = m_head(EXPRESSION), EVALUATE; }

/* Evaluates the operands in REST, for the frame on top. Before one that isn't simple what is left is pushed where its value is to stand;
   before the last one nothing is, so a recursion there takes no register more. */
static int operands(unsigned rest)
{
    for (int more = is_more(REST, rest); more; more = goes_on(REST)) {
        uint64_t head = m_get_head(EXPRESSION, REST, 0);
        if ((head & TAG) == SYMBOL) look_up(room(1), EXPRESSION, head), top++;
        else if ((head & TAG) != PAIR) push(EXPRESSION);
        else if (cdr(room(1), REST)) return top++, EVALUATE_FORM;
        else return frames[depth - 1].what = DO_LAST, EVALUATE_FORM;
    }
    return CALL;
}
/* Evaluates what REST lists, one after the other: a body, or the operands of `and` or `or`. The last one has no frame: a tail call. */
static int parts(uint32_t what, unsigned rest)
{
    if (!is_more(REST, rest)) {
        if (what == DO_SEQUENCE) m_drop(VALUE);
        else truth(what == DO_AND);
        return RETURN;
    }
    if (cdr(PART, REST)) begin_frame(what, REST);
    return evaluate_first(REST);
}

static int define(unsigned rest)
{
    reg name;
    begin_frame(DO_DEFINE, EXPRESSION), name = top;
    need_part(rest, "define");
    car(PART, REST), cdr(REST, REST);
    if (tag_of(PART) == PAIR) {                                   /* (define (f x) ..) is (define f (lambda (x) ..)) */
        car(EXPRESSION, PART), push(EXPRESSION), cdr(PART, PART);
        cons(REST, PART, REST);
        symbol(PART, lambda_name);
        cons(REST, PART, REST);
        cons(REST, REST, G1_NIL_REGISTER);
    } else push(PART);
    if (tag_of(name) != SYMBOL) want_name(name);
    need_part(tag_of(REST), "define");
    if (tag_of(ENVIRONMENT) == BINDING) {                         /* what is left of the body sees it too */
        keep_environment(depth), bind(name, m_head(name), G1_NIL_REGISTER), m_move(name - 1, ENVIRONMENT);
        if (depth > 1 && frames[depth - 2].what == DO_SEQUENCE) m_move(frames[depth - 2].base + 1, ENVIRONMENT);
        frames[depth - 1].what = DO_SET;
    }
    return evaluate_first(REST);
}
/* (%local a b ..) begins a body that defines: what is left of it sees these names. */
static int define_local(void)
{
    if (depth == 0 || frames[depth - 1].what != DO_SEQUENCE) mistake(0, 0, "%%local begins no body");
    keep_environment(depth), m_drop(VALUE);
    for (int more = has_more(REST); more; more = goes_on(REST)) bind(OTHER, m_get_head(OTHER, REST, 0), VALUE);
    m_move(frames[depth - 1].base + 1, ENVIRONMENT);
    return RETURN;
}
/* A macro, in OTHER, gets its operands as they are. The frame on top holds the form. */
static int expand(void)
{
    frames[depth - 1].what = DO_MACRO;
    m_drop(PART), begin_frame(DO_CALL, PART), push(OTHER);
    for (int more = has_more(REST); more; more = goes_on(REST)) car(room(1), REST), top++;
    return CALL;
}

static int evaluate(int is_form)
{
    uint64_t head = is_form ? PAIR : expression_head;
    unsigned rest;
    if ((head & TAG) == SYMBOL) return look_up(VALUE, EXPRESSION, head), RETURN;
    if ((head & TAG) != PAIR) return m_move(VALUE, EXPRESSION), RETURN;
    rest = rest_of(EXPRESSION), head = m_get_head(OTHER, EXPRESSION, 0);
    switch ((head & TAG) == SYMBOL ? head >> SHIFT : NO_NAME) {
    case QUOTE: need_part(rest, "quote"), car(VALUE, REST); return RETURN;
    case IF: begin_frame(DO_IF, EXPRESSION), need_part(rest, "if"); return evaluate_first(REST);
    case DEFINE: return define(rest);
    case SET:
        begin_frame(DO_SET, EXPRESSION), need_part(rest, "set!"), car(PART, REST), need_part(rest_of(REST), "set!");
        if (tag_of(PART) != SYMBOL) want_name(PART);
        push(PART);
        return evaluate_first(REST);
    case RAW_LAMBDA: need_part(rest, "lambda"), car(PART, REST), cdr(REST, REST), closure(); return RETURN;
    case BEGIN: return parts(DO_SEQUENCE, rest);
    case AND: return parts(DO_AND, rest);
    case OR: return parts(DO_OR, rest);
    case LOCAL: return define_local();
    }
    begin_frame(DO_CALL, EXPRESSION);
    if ((head & TAG) == PAIR) {
        m_move(EXPRESSION, OTHER);
        if (rest != NIL) push(REST);
        else frames[depth - 1].what = DO_LAST;
        return EVALUATE_FORM;
    }
    if ((head & TAG) != SYMBOL) push(OTHER);
    else {
        reg at = find(OTHER, head);
        uint64_t procedure = m_get_head(top, at, at != OTHER);
        if (procedure == NIL && at == OTHER && m_read(OTHER, 1) == 0) mistake(1, OTHER, "a name that isn't defined");
        if ((procedure & TAG) == MACRO && at == OTHER) return m_move(OTHER, top), expand();
        frames[depth - 1].head = procedure, top++;
    }
    return operands(rest);
}

static int assign(uint32_t what, reg name)
{
    reg at = what == DO_DEFINE ? name : find(name, m_head(name));
    if (at != name) m_put(at, 1, VALUE);
    else if (what == DO_SET && m_read(name, 1) == 0) mistake(1, name, "a name that isn't defined");
    else set_global(name, VALUE);
    m_move(VALUE, name), leave(end_frame());
    return RETURN;
}

/* Gives VALUE to the frame on top. */
static int give_value(void)
{
    reg base = frames[depth - 1].base;
    uint32_t what = frames[depth - 1].what;
    unsigned rest;
    if (kept == depth && (kept--, what != DO_LAST)) m_move(ENVIRONMENT, base + 1);
    if (what == DO_LAST) return push(VALUE), CALL;
    switch (what) {
    case DO_CALL:
        m_move(REST, top - 1), m_move(top - 1, VALUE);
        return operands(tag_of(REST));
    case DO_SET: case DO_DEFINE: return assign(what, base + 2);
    case DO_IF:
        if (rest_of(base) != PAIR || rest_of(REST) != PAIR) mistake(0, 0, "if lacks a part");
        leave(end_frame());
        if (is_false(VALUE) && !goes_on(REST)) return m_drop(VALUE), RETURN;
        return evaluate_first(REST);
    case DO_MACRO:                                               /* the expansion takes the place of the expression, for good */
        m_move(EXPRESSION, base);
        if (tag_of(VALUE) != PAIR) cons(VALUE, VALUE, G1_NIL_REGISTER), symbol(PART, BEGIN), cons(VALUE, PART, VALUE);
        car(PART, VALUE), m_put(EXPRESSION, 0, PART), cdr(PART, VALUE), m_put(EXPRESSION, 1, PART);
        leave(end_frame());
        return evaluate_it();
    default:                                                     /* a sequence, `and`, `or` */
        rest = rest_of(base);
        leave(end_frame());
        if (what != DO_SEQUENCE && is_false(VALUE) == (what == DO_AND)) return RETURN;
        return parts(what, rest);
    }
}

static int call(void)
{
    reg base = frames[depth - 1].base, procedure = base + 2, first = base + 3;
    uint32_t count = top - first, which;
    uint64_t head = frames[depth - 1].head != 0 ? frames[depth - 1].head : m_head(procedure);
    unsigned rest;
    switch (head & TAG) {
    case PRIMITIVE:
        which = (uint32_t)(head >> SHIFT);
        need_count(which, count);
        if (which == CALL_CC) {                                  /* (f k) in place of (call/cc f) */
            end_frame(), capture(VALUE, base), depth++;
            frames[depth - 1].head = 0, m_move(procedure, first), m_move(first, VALUE);
            return CALL;
        }
        if (which == APPLY) {                                    /* (f a b c) in place of (apply f a '(b c)) */
            frames[depth - 1].head = 0, m_move(REST, top - 1), m_move(EXPRESSION, REST);
            for (reg it = procedure; it + 2 < top; it++) m_move(it, it + 1);
            for (leave(top - 2); tag_of(REST) == PAIR; cdr(REST, REST)) car(room(1), REST), top++;
            if (tag_of(REST) != NIL) mistake(1, EXPRESSION, "apply wants a list of arguments");
            return CALL;
        }
        if (which == EVAL) {
            m_move(EXPRESSION, first), m_move(WHOLE, first), leave(end_frame());
            return keep_environment(depth), m_drop(ENVIRONMENT), evaluate_it();
        }
        primitive(which, first, count);
        return leave(end_frame()), RETURN;
    case CONTINUATION:
        if (count != 1) mistake(0, 0, "a continuation takes 1 value, not %u", count);
        m_move(VALUE, first), m_move(PART, procedure), resume(PART);
        return RETURN;
    case CLOSURE: case MACRO:
        keep_environment(depth - 1), m_get(ENVIRONMENT, procedure, 2);
        bind_arguments(first, count, procedure);
        rest = m_get_head(REST, procedure, 1) & TAG;
        return leave(end_frame()), parts(DO_SEQUENCE, rest);
    default: mistake(1, procedure, "%s can't be called", kinds[head & TAG]);
    }
}

static void run(void)
{
    m_move(WHOLE, VALUE), m_move(EXPRESSION, VALUE), m_drop(ENVIRONMENT);
    for (int next = evaluate_it(); next != RETURN || depth != 0;)
        next = next <= EVALUATE_FORM ? evaluate(next == EVALUATE_FORM) : next == CALL ? call() : give_value();
}

/* Afterwards a program's names are objects of their own, so what it defines anew changes nothing within the prelude. Names with % are the
   prelude's alone. */
static void read_prelude(void)
{
    for (size_t i = 0; i < sizeof prelude / sizeof *prelude; i++) {
        source->file = fmemopen((void *)(uintptr_t)prelude[i], strlen(prelude[i]), "r");
        if (source->file == NULL) m_die("no memory");
        while (read_from(source)) run();
        fclose(source->file);
    }
    for (uint32_t id = 0; id < symbols; id++) {
        if (!m_load(REST, id) || tag_of(REST) != SYMBOL || m_read(REST, 1) == 0) continue;
        m_get(VALUE, REST, 0), m_drop(REST), m_save(id, REST), symbol(REST, id);
        if (names[id][0] != '%') set_global(REST, VALUE);
    }
    lambda_name = LAMBDA, names[RAW_LAMBDA] = names[LAMBDA];
}
static void start(void)
{
    m_sizes.globals = GLOBALS, m_sizes.registers = MOST_REGISTERS;
    if (getenv("G1HEAP_REGIONS") != NULL) m_sizes.regions = (uint32_t)atoi(getenv("G1HEAP_REGIONS"));
    m_start();
    if (hcreate(2 * MOST_SYMBOLS) == 0) m_die("no memory");
    make_word(VALUE, INPUT, STANDARD_INPUT), m_save(FIRST_INPUT, VALUE), make_word(VALUE, OUTPUT, STANDARD_OUTPUT);
    m_save(FIRST_OUTPUT, VALUE);
    for (uint32_t i = 0; i < FIRST_NAMES; i++) symbol(VALUE, intern(first_names[i]));
    for (uint32_t i = 0; i < PRIMITIVES; i++)
        make_word(VALUE, PRIMITIVE, i), symbol(EXPRESSION, intern(primitives[i].name)), set_global(EXPRESSION, VALUE);
}

static void use_first_ports(void)
{
    m_load(VALUE, FIRST_INPUT), m_save(CURRENT_INPUT, VALUE), m_load(VALUE, FIRST_OUTPUT), m_save(CURRENT_OUTPUT, VALUE);
}
/* Evaluates what is left of a port. Where no person is there, the first mistake ends it; the answer is whether there was one. */
static int evaluate_all(port *from, int person)
{
    if (setjmp(after_mistake) != 0) {
        reading = 0, source = from, left_to_print = UINT64_MAX;
        if (!person) return 1;
        use_first_ports();
        for (int c = 0; c != '\n' && c != EOF; from->line += c == '\n') c = getc(from->file);
    }
    for (;;) {
        if (person) fputs("> ", stdout), fflush(stdout);
        if (!read_from(from)) return 0;
        run();
        if (person && tag_of(VALUE) != NIL) output = stdout, print(VALUE, 1), putchar('\n');
    }
}

int main(int count, char **words)
{
    source = &ports[PROGRAM], source->name = PRELUDE;
    ports[STANDARD_INPUT] = (port){stdin, 1, NO_NAME}, ports[STANDARD_OUTPUT] = (port){stdout, 1, NO_NAME};
    if (setjmp(after_mistake) != 0) m_die("it can't start");
    start(), read_prelude(), use_first_ports();
    if (count > 1) *source = (port){fopen(words[1], "r"), 1, intern(words[1])};
    else source = &ports[STANDARD_INPUT];
    if (source->file == NULL || count > 2) m_die("usage: scheme [FILE], a file that can be read");
    count = evaluate_all(source, count < 2 && isatty(0));
    m_stop(getenv("VERBOSE") != NULL);
    return count;
}
