/* memory.h: registers and objects on one of four memories, so that the same program can be tried on each.

     (no definition)   the heap behind g1heap.h, with its policy: the proved one, or plain/plain_library.cpp
     -DMEMORY_MALLOC   malloc, and nothing is ever freed
     -DMEMORY_BOEHM    Boehm's collector: Debian's package libgc-dev; link with -lgc

   A register holds nil or an object of pointers and data words; globals do too. Registers from a frame's first one on become nil by
   m_scope. The caller sees to it that a register isn't nil where an object is asked for, and that a field is there. */
#ifndef MEMORY_H
#define MEMORY_H

#include <stdint.h>
#include <stdio.h>
#include <stdlib.h>
#include <string.h>

#include <g1heap.h>

#if !defined(MEMORY_MALLOC) && !defined(MEMORY_BOEHM)
#include "holders.h"
#endif

typedef uint32_t reg;

/* What a program may change before m_start: some memories look at globals and registers alone. */
static g1_sizes m_sizes = {.regions = 256, .words = 1024, .buffer = 127, .mutators = 1, .card = 64, .globals = 16, .registers = 64};
static uint64_t m_objects;
/* What m_count tells of; the heap's counts are 0 where there is no policy. */
enum { M_OBJECTS, M_CYCLES, M_PAUSES, M_SCANNED, M_COPIED, M_FREE, M_COUNTS };

static inline void m_die(const char *why)
{
    fprintf(stderr, "%s\n", why);
    exit(1);
}

/* Tells how many objects were made, and how much memory the process had at most, where the system says that. */
static inline void m_tell(void)
{
    char line[128];
    FILE *status = fopen("/proc/self/status", "r");
    fprintf(stderr, "%llu objects", (unsigned long long)m_objects);
    while (status != NULL && fgets(line, sizeof line, status) != NULL)
        if (strncmp(line, "VmHWM:", 6) == 0) fprintf(stderr, ", at most %ld KB", strtol(line + 6, NULL, 10));
    if (status != NULL) fclose(status);
}

#if !defined(MEMORY_MALLOC) && !defined(MEMORY_BOEHM)

static g1_heap m_heap = G1_HEAP_NONE;
static g1_policy m_policy;

static inline void m_start(void)
{
    uint32_t code = g1_new(&m_heap, &m_sizes);
    if (code != G1_DONE) m_die(code == G1_NO_MEMORY ? "no memory for the heap" : "no heap has these sizes");
    g1_policy_start(&m_policy, &m_sizes);
}
/* What a program calls a global, where it says so: it declares this again, with its function. */
static holders_names *m_name_of;
/* At the end, when no frame is open: of which kinds the objects are that globals reach, or who holds the object of a name. */
static inline void m_tell_holders(const char *asked)
{
    char *end;
    unsigned long long name = strtoull(asked, &end, 10);
    g1_scope(&m_heap, 0, 0);
    g1_collect_all(&m_heap, &m_policy);
    if (*asked != 0 && *end == 0) holders_way(&m_heap, name, m_name_of, stderr);
    else holders_census(&m_heap, stderr);
}
static inline void m_stop(int verbose)
{
    if (getenv("G1HEAP_HOLDERS") != NULL) m_tell_holders(getenv("G1HEAP_HOLDERS"));
    if (verbose) {
        m_tell();
        fprintf(stderr, ", %llu cycles, %llu pauses, %llu objects scanned, %llu words copied\n", (unsigned long long)m_policy.cycles,
                (unsigned long long)m_policy.pauses, (unsigned long long)m_policy.scanned, (unsigned long long)m_policy.copied);
    }
    g1_free(&m_heap);
}
static inline void m_count(uint64_t counts[M_COUNTS])
{
    counts[M_OBJECTS] = m_objects, counts[M_CYCLES] = m_policy.cycles, counts[M_PAUSES] = m_policy.pauses;
    counts[M_SCANNED] = m_policy.scanned, counts[M_COPIED] = m_policy.copied, counts[M_FREE] = g1_free_regions(&m_heap).first;
}
static _Noreturn void m_refused(uint32_t code)
{
    fprintf(stderr, "a mistake in the program: the heap refused a step with code %u\n", code);
    abort();
}
/* Each answer is looked at: a refusal here is a mistake of the program. */
static inline g1_answer m_done(g1_answer answer)
{
    if (answer.code >= G1_NIL) m_refused(answer.code);
    return answer;
}
/* 0 where there is no room. */
static inline int m_new(reg to, uint32_t pointers, uint32_t values)
{
    m_objects++;
    return g1_make(&m_heap, &m_policy, 0, to, pointers, 0, values).code == G1_NAME;
}
/* The same of what registers hold, or nil, and of data words; `to` is none of these registers. */
static inline int m_new_filled(reg to, const reg *from, uint32_t pointers, const uint64_t *words, uint32_t values)
{
    m_objects++;
    return g1_make_filled(&m_heap, &m_policy, 0, to, from, pointers, words, values).code == G1_NAME;
}
/* 0 where it is nil. */
static inline int m_get(reg to, reg object, uint32_t field) { return m_done(g1_get(&m_heap, 0, to, object, field)).code == G1_NAME; }
static inline void m_put(reg object, uint32_t field, reg from) { m_done(g1_put(&m_heap, 0, object, field, from)); }
static inline uint64_t m_read(reg object, uint32_t field) { return m_done(g1_read(&m_heap, 0, object, field)).first; }
static inline void m_write(reg object, uint32_t field, uint64_t value) { m_done(g1_write(&m_heap, 0, object, field, value)); }
/* Several data words, from one on. */
static inline void m_read_words(reg object, uint32_t from, uint64_t *out, size_t count)
{
    m_done(g1_read_words(&m_heap, 0, object, from, out, count));
}
static inline void m_write_words(reg object, uint32_t from, const uint64_t *in, size_t count)
{
    m_done(g1_write_words(&m_heap, 0, object, from, in, count));
}
static inline void m_move(reg to, reg from) { m_done(g1_move(&m_heap, 0, to, from)); }
static inline void m_drop(reg it) { m_done(g1_drop(&m_heap, 0, it)); }
static inline int m_load(reg to, uint32_t global) { return m_done(g1_load(&m_heap, 0, to, global)).code == G1_NAME; }
static inline void m_save(uint32_t global, reg from) { m_done(g1_save(&m_heap, 0, global, from)); }
static inline void m_scope(reg first) { m_done(g1_scope(&m_heap, 0, first)); }
static inline uint32_t m_pointers(reg object) { return (uint32_t)m_done(g1_shape(&m_heap, 0, object)).first; }
static inline uint32_t m_values(reg object) { return m_done(g1_shape(&m_heap, 0, object)).second; }
/* Data word 0 of an object, where a runtime keeps its tags, and 0 of nil. Nil is answered by the heap, so it costs one call. */
static inline uint64_t m_head(reg object)
{
    g1_answer answer = g1_read(&m_heap, 0, object, 0);
    if (answer.code == G1_WORD) return answer.first;
    return answer.code == G1_NIL ? 0 : m_done(answer).first;
}
/* A pointer, and data word 0 of the object that it leads to, by one call: 0 where it is nil. */
static inline uint64_t m_get_head(reg to, reg object, uint32_t field)
{
    g1_answer answer = m_done(g1_get_word(&m_heap, 0, to, object, field, 0));
    return answer.code == G1_WORD ? answer.first : 0;
}
/* Whether two registers hold the same object, or both nil. */
static inline int m_same(reg one, reg other)
{
    g1_answer first = g1_name(&m_heap, 0, one), second = g1_name(&m_heap, 0, other);
    return first.code == second.code && (first.code == G1_NIL_VALUE || first.first == second.first);
}

#else

#ifdef MEMORY_BOEHM
#include <gc.h>
#define M_START() GC_INIT()
static inline void *m_words(uint32_t pointers, size_t bytes)
{
    return pointers != 0 ? GC_MALLOC(bytes) : memset(GC_MALLOC_ATOMIC(bytes), 0, bytes);
}
static inline void *m_roots(size_t bytes) { return memset(GC_MALLOC_UNCOLLECTABLE(bytes), 0, bytes); }
#else
#define M_START()
static inline void *m_words(uint32_t pointers, size_t bytes) { return (void)pointers, calloc(1, bytes); }
static inline void *m_roots(size_t bytes) { return calloc(1, bytes); }
#endif

typedef struct m_object {
    uint32_t pointers, values;
    union m_word { struct m_object *object; uint64_t value; } words[];
} m_object;
static m_object **m_registers, **m_globals;
static reg m_used; /* all registers from here on are nil */

static inline void m_start(void)
{
    M_START();
    m_registers = (m_object **)m_roots(m_sizes.registers * sizeof *m_registers);
    m_globals = (m_object **)m_roots((m_sizes.globals + 1) * sizeof *m_globals);
}
static inline void m_stop(int verbose)
{
    if (verbose) m_tell(), fputc('\n', stderr);
}
static inline void m_count(uint64_t counts[M_COUNTS])
{
    memset(counts, 0, M_COUNTS * sizeof *counts);
    counts[M_OBJECTS] = m_objects;
}
static inline void m_set(reg to, m_object *object)
{
    m_registers[to] = object;
    if (m_used <= to) m_used = to + 1;
}
static inline int m_new(reg to, uint32_t pointers, uint32_t values)
{
    m_object *made = (m_object *)m_words(pointers, sizeof(m_object) + 8 * ((size_t)pointers + values));
    m_objects++;
    if (made == NULL) return 0;
    made->pointers = pointers, made->values = values;
    m_set(to, made);
    return 1;
}
static inline int m_get(reg to, reg object, uint32_t field)
{
    m_set(to, m_registers[object]->words[field].object);
    return m_registers[to] != NULL;
}
static inline void m_put(reg object, uint32_t field, reg from)
{
    m_registers[object]->words[field].object = from == G1_NIL_REGISTER ? NULL : m_registers[from];
}
static inline uint64_t m_read(reg object, uint32_t field)
{
    return m_registers[object]->words[m_registers[object]->pointers + field].value;
}
static inline void m_write(reg object, uint32_t field, uint64_t value)
{
    m_registers[object]->words[m_registers[object]->pointers + field].value = value;
}
static inline void m_read_words(reg object, uint32_t from, uint64_t *out, size_t count)
{
    memcpy(out, &m_registers[object]->words[m_registers[object]->pointers + from].value, 8 * count);
}
static inline void m_write_words(reg object, uint32_t from, const uint64_t *in, size_t count)
{
    memcpy(&m_registers[object]->words[m_registers[object]->pointers + from].value, in, 8 * count);
}
static inline int m_new_filled(reg to, const reg *from, uint32_t pointers, const uint64_t *words, uint32_t values)
{
    if (!m_new(to, pointers, values)) return 0;
    for (uint32_t i = 0; i < pointers; i++) m_put(to, i, from[i]);
    m_write_words(to, 0, words, values);
    return 1;
}
static inline void m_move(reg to, reg from) { m_set(to, m_registers[from]); }
static inline void m_drop(reg it) { m_set(it, NULL); }
static inline int m_load(reg to, uint32_t global)
{
    m_set(to, m_globals[global]);
    return m_globals[global] != NULL;
}
static inline void m_save(uint32_t global, reg from) { m_globals[global] = m_registers[from]; }
static inline void m_scope(reg first)
{
    while (m_used > first) m_registers[--m_used] = NULL;
}
static inline uint32_t m_pointers(reg object) { return m_registers[object]->pointers; }
static inline uint32_t m_values(reg object) { return m_registers[object]->values; }
static inline uint64_t m_head(reg object) { return m_registers[object] != NULL ? m_read(object, 0) : 0; }
static inline uint64_t m_get_head(reg to, reg object, uint32_t field) { return m_get(to, object, field), m_head(to); }
static inline int m_same(reg one, reg other) { return m_registers[one] == m_registers[other]; }

#endif

#endif
