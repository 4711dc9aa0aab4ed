/* g1heap.h: a Garbage-First heap whose correctness is proved, as a C library. C11 and C++17.

   A heap holds objects of pointers, weak slots and 64-bit data words. A program names objects by roots alone: the globals of the heap, and
   the registers of each of its mutators. A root holds nil or an object; the collector moves objects and updates the roots. No address of an
   object leaves the heap, so there is nothing to pin and nothing to forget. A thread's stack is a mutator's registers: a frame takes the
   next few, and g1_scope leaves it.

       g1_heap heap = G1_HEAP_NONE;
       g1_policy policy;
       g1_sizes sizes = {256, 1024, 127, 1, 0, 64, 16, 64};
       if (g1_new(&heap, &sizes) != G1_DONE) return 1;
       g1_policy_start(&policy, &sizes);
       g1_make(&heap, &policy, 0, 0, 1, 0, 1);  // register 0 of mutator 0 holds a new object of 1 pointer, 0 weak slots and 1 data word
       g1_write(&heap, 0, 0, 0, 42);            // its data word 0 is 42
       g1_put(&heap, 0, 0, 0, 0);               // its pointer 0 names the object itself
       g1_get(&heap, 0, 1, 0, 0);               // loads pointer 0 into register 1
       g1_free(&heap);

   g1_make takes the steps of the collector that are due: nothing else has to be done. g1_new_object takes none, and is for a program that
   calls the collector's steps itself.

   OWNERSHIP. A g1_heap is the caller's, and begins as G1_HEAP_NONE, all zeros. g1_new puts a heap into it, whose memory comes from malloc,
   all of it then; no other call takes memory, but g1_give_back and g1_shrink ask for some meanwhile. g1_free takes the heap out again and
   frees it. Don't write to its fields, nor use a copy of them: two copies are two owners.

   ARGUMENTS. Any numbers will do. Those that name no step of this heap are answered G1_NO_STEP, and nothing changes. What names a step goes
   to the heap, which does it or refuses it; a refused step changes nothing either. Only the pointers are the caller's duty: `heap` points
   to a g1_heap that is G1_HEAP_NONE or as a call left it, `sizes` to a g1_sizes, `policy` to a g1_policy, a buffer to as many numbers as
   its count says.

   THREADS. The library has no lock and no thread. A heap takes one call at a time, those that only tell something too; heaps don't know of
   each other. A heap may pass from one thread to another, which is proved of it, and threads may share one under a lock of the caller's. No
   call waits, or calls back. None is for a signal handler.

   WHAT IS PROVED of these calls, and what isn't: docs/EMBEDDING.md, "What is proved".

   SPEED. A call is a function call with a few checks, where a pointer in C is one load; docs/GATE.md has figures. */
#ifndef G1HEAP_H
#define G1HEAP_H

#include <stdbool.h>
#include <stddef.h>
#include <stdint.h>

#ifdef __cplusplus
extern "C" {
#endif

/* A heap, or none. */
typedef struct g1_heap {
    bool live;
    void *at;
    uint64_t markings;
} g1_heap;

#define G1_HEAP_NONE {false, 0, 0}

/* The sizes of a heap. A word is 64 bits. */
typedef struct g1_sizes {
    uint32_t regions;    /* 2 to 16,384 */
    uint32_t words;      /* of a region: a power of two, 16 to 4,194,304; regions * words is at most 2,147,483,648 */
    uint32_t buffer;     /* words of a mutator's allocation buffer: 4 to words / 2; words / 8 - 1 is a good one */
    uint32_t mutators;   /* 1 to 64 */
    uint64_t first_name; /* the first object's name; each later one's is one higher */
    uint32_t card;       /* words of a card: a power of two, 8 to 512, and at most words */
    uint32_t globals;    /* 0 to 65,536 */
    uint32_t registers;  /* of each mutator: 1 to 65,536; globals and all registers are at most 1,048,576 */
} g1_sizes;

/* The largest sizes, and how much an object may have. */
#define G1_MAX_REGIONS 16384
#define G1_MAX_REGION_WORDS 4194304
#define G1_MAX_WORDS 2147483648u
#define G1_MAX_MUTATORS 64
#define G1_MAX_CARD 512
#define G1_MAX_GLOBALS 65536
#define G1_MAX_REGISTERS 65536
#define G1_MAX_ROOTS 1048576
#define G1_MAX_OBJECT_WORDS 16777216 /* its header and its name are two of them */
#define G1_MAX_WEAKS 255

/* The version of this header, as pkg-config tells it, and its numbers, for #if; and that of the library that a program was linked to, as
   G1_VERSION_MAJOR * 65536 + G1_VERSION_MINOR * 256 + G1_VERSION_PATCH. VERSIONING.md tells what may change. */
#define G1_VERSION "0.1.0"
#define G1_VERSION_MAJOR 0
#define G1_VERSION_MINOR 1
#define G1_VERSION_PATCH 0
uint32_t g1_version(void);

/* What came of a call. Below 16 it was done. From 16 on it wasn't, and objects and roots are as they were; but g1_make and g1_make_filled
   may take steps of the collector before they refuse an object, so that weak slots become nil, and counts and the policy's numbers differ;
   and after FULL `to` is nil where the policy's `nil_on_full` is set. From 32 on nothing changed at all. */
enum {
    G1_DONE = 0,       /* there is nothing to tell */
    G1_NIL_VALUE = 1,  /* g1_get, g1_get_word, g1_load, g1_get_weak, g1_name: nil */
    G1_NAME = 2,       /* the same, and calls that make an object: `first` is the object's name */
    G1_WORD = 3,       /* g1_read, g1_get_word, g1_weaks: `first` is the word, or the count of weak slots */
    G1_SHAPE = 4,      /* g1_shape: `first` pointers, `second` data words */
    G1_MARKED = 5,     /* g1_remark: `first` objects were marked in this cycle */
    G1_RECLAIMED = 6,  /* g1_cleanup: `first` regions are free again */
    G1_REFINED = 7,    /* g1_refine: `first` cards were refined */
    G1_MOVED = 8,      /* pauses and g1_compact: `first` words were copied, out of `second` regions */
    G1_SCANNED = 9,    /* g1_mark: the scans of `first` objects ended */
    G1_NUMBER = 10,    /* what a reader tells: `first` */

    G1_NIL = 16,          /* the register that should name an object is nil */
    G1_NO_FIELD = 17,     /* the object has no such field */
    G1_FULL = 18,         /* no place was found for the new object: collect, and try again, as g1_make has done; of g1_path: no room */
    G1_TOO_BIG = 19,      /* the new object is larger than the heap, or than 16,777,216 words */
    G1_NAMES_SPENT = 20,  /* no names are left */
    G1_MARK_RUNNING = 21, /* marking is running */
    G1_NOT_MARKING = 22,  /* marking is not running */

    G1_NO_STEP = 32,   /* there is no such mutator, register or global, or a count is above 255 weak slots */
    G1_NO_HEAP = 33,   /* there is no heap */
    G1_HEAP_LIVE = 34, /* g1_new: there is a heap already */

    G1_BAD_REGIONS = 41, /* g1_new: what of the sizes doesn't suit, the first in this order */
    G1_BAD_WORDS = 42,
    G1_BAD_BUFFER = 43,
    G1_BAD_MUTATORS = 44,
    G1_NO_MEMORY = 45, /* g1_new, g1_give_back, g1_shrink: malloc refused */
    G1_BAD_CARD = 46,
    G1_BAD_GLOBALS = 47,
    G1_BAD_REGISTERS = 48,
    G1_BAD_ROOTS = 49
};

/* What a call answers. It is returned in two registers on x86-64 and AArch64. */
typedef struct g1_answer {
    uint32_t code;
    uint32_t second;
    uint64_t first;
} g1_answer;

/* In place of the register whose object a field takes: the field becomes nil. */
#define G1_NIL_REGISTER UINT32_MAX

/* Makes a heap: G1_DONE, or why there is none, and `heap` is then as it was. */
uint32_t g1_new(g1_heap *heap, const g1_sizes *sizes);

/* How many bytes g1_new asks malloc for with these sizes, in all; 0 where they don't suit. Where the system refuses what it may not have
   (a limit of address space, or vm.overcommit_memory 2), take sizes for which it is enough: malloc takes some pages more. */
uint64_t g1_sizes_bytes(const g1_sizes *sizes);

/* Frees a heap, and leaves none. Where there is none it does nothing. */
void g1_free(g1_heap *heap);

/* The steps of mutators. `mutator` counts from 0; `to`, `object`, `from` are registers of it, `global` is a global; fields count from 0:
   pointers, weak slots and data words apart. Each may answer G1_NO_STEP or G1_NO_HEAP too.

   Call            Step       What it does                                        Done              Refused
   g1_new_object   new        an object, its pointers nil and its data words 0    NAME              FULL TOO_BIG NAMES_SPENT
   g1_new_weak     newweak    the same with weak slots, nil                       NAME              FULL TOO_BIG NAMES_SPENT
   g1_get          get        `to` takes the object's pointer                     NAME, NIL_VALUE   NIL NO_FIELD
   g1_put          put        the object's pointer takes what `from` holds        DONE              NIL NO_FIELD
   g1_read         read       tells a data word                                   WORD              NIL NO_FIELD
   g1_write        write      a data word takes a value                           DONE              NIL NO_FIELD
   g1_move         move       `to` takes what `from` holds                        DONE
   g1_drop         drop       the register becomes nil                            DONE
   g1_load         load       `to` takes what the global holds                    NAME, NIL_VALUE
   g1_save         save       the global takes what `from` holds                  DONE
   g1_shape        shape      tells how many pointers and data words there are    SHAPE             NIL
   g1_get_weak     getweak    `to` takes what the weak slot holds                 NAME, NIL_VALUE   NIL NO_FIELD
   g1_put_weak     putweak    the weak slot takes what `from` holds               DONE              NIL NO_FIELD
   g1_weaks        weaks      tells how many weak slots there are                 WORD              NIL
   g1_scope        scope      a frame is left: each register from `first` on      DONE
                              becomes nil */
g1_answer g1_new_object(g1_heap *heap, uint32_t mutator, uint32_t to, uint32_t pointers, uint32_t values);
g1_answer g1_new_weak(g1_heap *heap, uint32_t mutator, uint32_t to, uint32_t pointers, uint32_t weaks, uint32_t values);
g1_answer g1_get(g1_heap *heap, uint32_t mutator, uint32_t to, uint32_t object, uint32_t field);
g1_answer g1_put(g1_heap *heap, uint32_t mutator, uint32_t object, uint32_t field, uint32_t from);
g1_answer g1_read(g1_heap *heap, uint32_t mutator, uint32_t object, uint32_t field);
g1_answer g1_write(g1_heap *heap, uint32_t mutator, uint32_t object, uint32_t field, uint64_t value);
g1_answer g1_move(g1_heap *heap, uint32_t mutator, uint32_t to, uint32_t from);
g1_answer g1_drop(g1_heap *heap, uint32_t mutator, uint32_t to);
g1_answer g1_load(g1_heap *heap, uint32_t mutator, uint32_t to, uint32_t global);
g1_answer g1_save(g1_heap *heap, uint32_t mutator, uint32_t global, uint32_t from);
g1_answer g1_shape(g1_heap *heap, uint32_t mutator, uint32_t object);
g1_answer g1_get_weak(g1_heap *heap, uint32_t mutator, uint32_t to, uint32_t object, uint32_t slot);
g1_answer g1_put_weak(g1_heap *heap, uint32_t mutator, uint32_t object, uint32_t slot, uint32_t from);
g1_answer g1_weaks(g1_heap *heap, uint32_t mutator, uint32_t object);
g1_answer g1_scope(g1_heap *heap, uint32_t mutator, uint32_t first);

/* A pointer and a data word of what it leads to, in one call: as an interpreter loads an object, and then asks which kind it is. It is
   g1_get, and where that answers NAME a g1_read of data word `word` of the object that `to` names then; a record has these steps.

       switch (g1_get_word(&heap, 0, TO, LIST, 1, 0).first) {}   // register TO: pointer 1 of LIST's object; and what data word 0 of that is

   WORD: `first` is the word. NAME: an object was loaded, which has no such data word, and `first` is its name. NIL_VALUE: `to` is nil. Or
   NIL, NO_FIELD, NO_STEP or NO_HEAP, as g1_get answers, and then nothing was loaded. */
g1_answer g1_get_word(g1_heap *heap, uint32_t mutator, uint32_t to, uint32_t object, uint32_t field, uint32_t word);

/* Several fields of the object that a register names, from `field` on, and registers one after another: all of them or none. Each call is
   so many of the step's, one after another, and a record has these.

   Call            Stands for   What it does
   g1_get_many     g1_get       register `to` takes the pointer `field`, the next register the next pointer, and so on
   g1_put_many     g1_put       the pointer `field` takes what register `from` holds, the next pointer what the next one holds, and so on
   g1_fill         g1_put       `count` pointers take what register `from` holds, or nil for G1_NIL_REGISTER
   g1_fill_words   g1_write     `count` data words take a value

       g1_get_many(&heap, 0, FIRST, FRAME, 1, 3);           // registers FIRST to FIRST + 2: pointers 1 to 3 of FRAME's object
       g1_put_many(&heap, 0, FRAME, 1, FIRST, 3);           // and back

   DONE, or NIL, NO_FIELD, NO_STEP or NO_HEAP, and then nothing was loaded or stored. NO_FIELD: the object has no field
   `field` + `count` - 1. `object` may be the last of the registers that g1_get_many sets, and none before that, since it would name another
   object then: NO_STEP, and so where one of the registers isn't there. Where `count` is 0, `field` may be at most the count of the object's
   fields, and `to` and `from` have to be registers, or `from` that of nil for g1_fill. */
g1_answer g1_get_many(g1_heap *heap, uint32_t mutator, uint32_t to, uint32_t object, uint32_t field, uint32_t count);
g1_answer g1_put_many(g1_heap *heap, uint32_t mutator, uint32_t object, uint32_t field, uint32_t from, uint32_t count);
g1_answer g1_fill(g1_heap *heap, uint32_t mutator, uint32_t object, uint32_t field, uint32_t from, uint32_t count);
g1_answer g1_fill_words(g1_heap *heap, uint32_t mutator, uint32_t object, uint32_t field, uint64_t value, uint32_t count);

/* Several data words of the object that a register names, from one on: all of them or none. Each is what g1_read would tell, or g1_write
   would write, one after another, and a record has these steps; here they are one copy of memory.

       uint64_t buffer[64];
       g1_write_words(&heap, 0, STRING, 1, buffer, 64);     // data words 1 to 64 of register STRING's object
       g1_read_words(&heap, 0, STRING, 1, buffer, 64);      // and back

   `out` and `in` point to `count` words. DONE, or NIL, NO_FIELD, NO_STEP or NO_HEAP, and then nothing was read or written. NO_FIELD: the
   object has no data word `from` + `count` - 1. Where `count` is 0, `from` may be at most the count of the object's data words. */
g1_answer g1_read_words(g1_heap *heap, uint32_t mutator, uint32_t object, uint32_t from, uint64_t *out, size_t count);
g1_answer g1_write_words(g1_heap *heap, uint32_t mutator, uint32_t object, uint32_t from, const uint64_t *in, size_t count);

/* A new object with its fields: its pointers are what the registers in `from` hold, or nil for G1_NIL_REGISTER, and its data words are
   those of `words`. It is g1_new_object, and where that answers NAME a g1_put for each pointer and a g1_write for each data word; a record
   has these steps. Answers as g1_new_object does. `to` may not be among the sources, since after the first step it names the new object:
   G1_NO_STEP, and so where a source is no register.

       uint32_t from[] = {FIRST, REST};
       uint64_t words[] = {PAIR_TAG};
       g1_new_filled(&heap, 0, CELL, from, 2, words, 1);    // register CELL: a pair of what FIRST and REST hold */
g1_answer g1_new_filled(g1_heap *heap, uint32_t mutator, uint32_t to, const uint32_t *from, size_t pointers, const uint64_t *words,
                        size_t values);

/* FULL: an object of more than half a region needs free regions side by side. Another one needs its words above the top of the current
   region, or a free region; if it has at most `buffer` words, it needs them in the mutator's buffer, or room for a whole new buffer there.
   So words may be unused that would hold the object. */

/* The steps of the collector, taken whenever the program likes.

   Call             Step of a script   What it does                                                             Done         Refused
   g1_begin         gc begin           marking begins, with the present graph as its snapshot                   DONE         MARK_RUNNING
   g1_mark          gc mark            so many words are looked at, of the last object in part if it has more   SCANNED      NOT_MARKING
   g1_remark        gc remark          marking ends: a weak slot that leads to what it didn't reach reads nil   MARKED       NOT_MARKING
   g1_cleanup       gc cleanup         regions with nothing live are free again, but the one that objects are   RECLAIMED    MARK_RUNNING
                                       cut from now
   g1_refine        gc refine          at most so many queued cards are refined                                 REFINED
   g1_pause         gc pause           live objects are copied out of some regions, at most so many words,      MOVED
                                       and at most half the words of the free regions; these regions are
                                       free again
   g1_compact       gc compact         the same, within the same limit, of the highest ordinary regions, full   MOVED
                                       ones too, as many as go down: so free regions are side by side, for
                                       objects of more than half a region. If none go down, one of these
                                       objects does: of those of at most so many words that have a free
                                       region directly below their first, the lowest. `first` are its words
                                       then, `second` its regions. While marking runs nothing moves
   g1_pause_within  gc pausewithin     the same as g1_pause, of those of its regions that at most `cards`       MOVED
                                       cards lead into, as long as these are at most so many together: a
                                       pause takes time for words that it copies and for cards that it visits
   g1_young         gc young           the same of the regions that objects were made in since marking began    MOVED
                                       last, the oldest first, full ones too; what was copied is old
   g1_clear         gc clear           what marking didn't reach leaves the weak slots of at most so many       DONE
                                       objects, which is seen by no answer: these slots read nil since
                                       g1_remark. The next marking, pause or cleanup clears what is left
                                       first, so clear little by little before it, while g1_clearing is 1 */
g1_answer g1_begin(g1_heap *heap);
g1_answer g1_mark(g1_heap *heap, uint32_t words);
g1_answer g1_remark(g1_heap *heap);
g1_answer g1_cleanup(g1_heap *heap);
g1_answer g1_refine(g1_heap *heap, uint32_t cards);
g1_answer g1_pause(g1_heap *heap, uint32_t words);
g1_answer g1_compact(g1_heap *heap, uint32_t words);
g1_answer g1_pause_within(g1_heap *heap, uint32_t words, uint32_t cards);
g1_answer g1_young(g1_heap *heap, uint32_t words, uint32_t cards);
g1_answer g1_clear(g1_heap *heap, uint32_t objects);

/* What a policy of collection steers by. Nothing changes. Each answers NUMBER, g1_name alone NAME or NIL_VALUE; or NO_HEAP, and g1_name
   also NO_STEP.

   g1_free_regions   how many regions are free
   g1_free_run       how many free regions are side by side at most: so many regions an object of more than half a region may take
   g1_used_words     how many words of the other regions are handed out, to objects and to allocation buffers
   g1_live_words     how many words are live: those of the objects that the last complete marking marked, and all handed out since it began
   g1_marking        1 while marking runs, else 0
   g1_grey           1 while marking runs and something is left to be marked, else 0
   g1_clearing       1 while weak slots that read nil wait to be cleared, else 0
   g1_markings       how many markings of this heap ended, mod 2^64, by g1_remark and by what takes that step: while it is what it was, no
                     weak slot became nil but by g1_put_weak
   g1_queued         how many cards wait for refinement
   g1_globals        how many globals there are
   g1_registers      how many registers each mutator has
   g1_name           the name that a register holds: two registers hold the same object where these are the same

   g1_used_words and g1_live_words add up a count of each region, and g1_free_run looks at each; the others cost less than a step. */
g1_answer g1_free_regions(const g1_heap *heap);
g1_answer g1_free_run(const g1_heap *heap);
g1_answer g1_used_words(const g1_heap *heap);
g1_answer g1_live_words(const g1_heap *heap);
g1_answer g1_marking(const g1_heap *heap);
g1_answer g1_grey(const g1_heap *heap);
g1_answer g1_clearing(const g1_heap *heap);
g1_answer g1_markings(const g1_heap *heap);
g1_answer g1_queued(const g1_heap *heap);
g1_answer g1_globals(const g1_heap *heap);
g1_answer g1_registers(const g1_heap *heap);
g1_answer g1_name(const g1_heap *heap, uint32_t mutator, uint32_t of);

/* What is told of an object. */
typedef struct g1_object {
    uint64_t name;     /* as g1_name tells it */
    uint64_t word;     /* its data word 0; 0 if it has none */
    uint32_t pointers; /* how many of each it has */
    uint32_t weaks;
    uint32_t values;
} g1_object;

/* The objects that the heap keeps, one after another: those that the last complete marking marked, and all that were made since it began.
   After g1_collect_all these are the objects that roots reach. Nothing changes, and a record has no line for it.

       g1_object objects[64];
       uint64_t cursor = 0, told;                               // 0 is where a walk begins
       while ((told = g1_walk(&heap, &cursor, objects, 64).first) != 0)
           for (uint64_t i = 0; i < told; i++) count(objects[i].word);

   NUMBER, and `objects`, which points to `count` structs, has so many entries: fewer than `count` only where no more are left. The cursor
   goes on after them. It is right until the heap changes by a step or by the policy: any number will do after it too, but a walk may miss
   objects then, or tell one twice. Or NO_HEAP, and cursor and entries stay. It asks for no memory, and takes time for what it walks over:
   the objects, what is dead between them, and regions without objects. */
g1_answer g1_walk(const g1_heap *heap, uint64_t *cursor, g1_object *objects, size_t count);

/* What names an object. */
enum {
    G1_GLOBAL = 0,   /* the global `place` */
    G1_REGISTER = 1, /* the register `place` of `mutator` */
    G1_POINTER = 2,  /* the object `name`: `place` is the lowest of its pointers that does */
    G1_WEAK_SLOT = 3 /* the object `name`: no pointer does, and `place` is the lowest weak slot */
};
typedef struct g1_holder {
    uint64_t name; /* 0 of a root */
    uint32_t kind;
    uint32_t mutator; /* 0 but of a register */
    uint32_t place;
    uint32_t fields; /* how many of the object's pointers and weak slots name it; 1 of a root */
} g1_holder;

/* Who holds an object: the roots, and then the objects of a walk, that name the object of a name, each once. Nothing changes, and a record
   has no line for it.

       uint64_t cursor = 0, leaked = g1_name(&heap, 0, SOME).first;
       g1_holder by[16];
       uint64_t told = g1_who(&heap, leaked, &cursor, by, 16).first;    // and so on with that cursor, while 16 are told

   A weak slot that reads nil names nothing, also one that waits to be cleared. Answers, cursor and buffer are as g1_walk's, but that each
   has a cursor of its own. It takes time for the roots, and for the pointers and weak slots of the objects that it walks over. */
g1_answer g1_who(const g1_heap *heap, uint64_t name, uint64_t *cursor, g1_holder *holders, size_t count);

/* A shortest way from a root to the object of a name, by pointers: what keeps it. Nothing changes, and a record has no line for it.

       g1_holder way[64];
       g1_answer told = g1_path(&heap, leaked, way, 64);
       for (uint64_t i = 0; i < told.first; i++) show(&way[i]);         // way[0] is a root's

   NUMBER, and `way`, which points to `count` structs, begins with `first` entries, as g1_who tells them: a root's, and then those of
   objects, each of which the one before it holds; the last one holds the object. No way has fewer. It is 0 where no root leads there. Or
   FULL: as many objects lead there, with the object itself, as there is room for, `count` of them or 4,294,967,295, and the search went no
   further. Or NO_HEAP. What `way` has after these entries, or where there are none, means nothing. It asks for no memory. It walks over the
   heap once for each entry, from the object on up, and there looks at each pointer once for each object that the walk before found. */
g1_answer g1_path(const g1_heap *heap, uint64_t name, g1_holder *way, size_t count);

/* Memory goes back to the system. A word of the heap takes memory when it is first written, and keeps it when its object is gone. This call
   gives back the memory of all words above the highest region in use, and what marks, dirty cards and the queue of cards took beyond what
   they hold now. Their room in the heap stays, so no later step wants for memory: the heap is as it was, each later answer is what it would
   be without the call, and a record has no line for it. A free region below one in use keeps its memory: before the call g1_shrink moves
   regions in use down, which gives back as much as can be.

   DONE, NO_HEAP, or NO_MEMORY: meanwhile it asks malloc for as much as the words may take, and touches none of it. Where that is refused,
   less goes back or nothing. It takes time for what goes back, some 0.2 ms for 1 MB. docs/EMBEDDING.md says for which heaps it pays. */
g1_answer g1_give_back(g1_heap *heap);

/* A policy of collection, so that a program never thinks of it: it makes its objects by g1_make, which takes the steps of the collector
   that are due.

       g1_policy policy;
       g1_policy_start(&policy, &sizes);                 // the sizes that g1_new was given
       g1_make(&heap, &policy, 0, 0, 2, 0, 1);           // register 0 of mutator 0: a new object of 2 pointers, 0 weak slots, 1 data word

   A policy is the caller's, like the heap, and calls on both go under one lock. It holds plain numbers, and any will do: they decide when
   the collector works, and how much at a time. The first nine may be set at any time, and so may `nil_on_full`.

   TWO REGIONS ARE KEPT, since live objects are copied into free regions alone. No region is taken for an object where fewer than 2 would
   stay free. Before that comes a whole collection: a marking from begin to remark with nothing between, a cleanup, and pauses for as long
   as each frees a region; and for an object of more than half a region compactions, until none moves anything. G1_FULL comes only after
   that. Let the object take c regions, 1 if it has at most half a region's words, and let the heap have more than c + 2. Then it is proved,
   if 2 regions were free before, that 2 are free, and fewer than c more; that each larger object that is left is reachable; and that
   reachable objects have more than half of the words of all regions but 2 and those c.
   Each G1_FULL costs a whole collection: what is dropped isn't seen here, so the next g1_make has to look again. docs/SPACE.md has the
   theorem.

   The last resort: an object that needs all regions of the heap but 2, or more of them, may take these too, after a whole collection. So
   may any object in a heap of 2 or 3 regions, which works but can get stuck: give a heap 4 regions or more, better 64. And what is made by
   g1_new_object or g1_new_weak takes what it finds. */
typedef struct g1_policy {
    uint32_t reserve;      /* regions: a cycle of marking ends before fewer are free */
    uint32_t pause_words;  /* words: the budget of a pause, but for those of a whole collection */
    uint32_t mark_words;   /* words: as many are looked at by marking at a look, at most, and up to 16 times as many near the reserve */
    uint32_t cycle_words;  /* words: where so many were asked for since the last cycle began, another one begins */
    uint32_t young_words;  /* words: new regions of so many are evacuated first, and no fewer later */
    uint32_t cards_left;   /* cards: where more are queued at a look, it refines all but half as many */
    uint32_t visit_cards;  /* cards: as many may lead into the regions of a pause, and more only after one that gained little for them */
    uint32_t clear_objects;/* objects with weak slots: so many are cleared at a look, and up to 4 times as many near the reserve */
    uint32_t least;        /* regions: so many are in play at least */
    uint32_t look, left;   /* words that may be asked for before the next look, as it was set, and what is left of them */
    uint32_t begin_at;     /* regions: where so many are free, or fewer, a cycle begins */
    uint32_t young_at;     /* regions: where so many are free, or fewer, new regions are evacuated; 0 where that brings little */
    uint32_t span;         /* regions: so many are new then */
    uint32_t young;        /* regions: so many of them are to be evacuated still */
    uint32_t gained;       /* regions: so many that brought */
    uint32_t wanted;       /* regions: after a cycle regions are evacuated until so many are free; 0 where that is over */
    uint32_t held;         /* regions: so many are held back, the others are in play */
    uint32_t most;         /* regions: the most that were in play since g1_shrink, or since the program set this to 0 */
    uint32_t idle;         /* 1 if no more than half of these are in play since the last cycle: memory may go back; else 0 */
    uint32_t pace;         /* words that marking looks at, at each look of a cycle, or more near the reserve */
    uint32_t visits;       /* cards that may lead into the regions of the next pause, if more than visit_cards */
    uint32_t clears;       /* looks at which weak slots were cleared since the last marking, one of n times as many objects counted as n, */
    uint32_t cleared;      /* and after the marking before it */
    uint32_t last;         /* what the last look did: 1 if it refined alone, 2 if it evacuated new regions, else 0 */
    uint32_t packed_free;  /* what the last whole collection left: free regions, */
    uint64_t packed_live;  /* live words */
    uint64_t packed_next;  /* and the next name; while these stay, pauses gain nothing more */
    uint64_t paid;         /* words that were copied for what was gained */
    uint64_t asked;        /* words asked for since the last cycle began */
    uint64_t rest;         /* words to be asked for before the next pause, while regions enough are free */
    uint64_t looked;       /* words that the marking of the running cycle looked at, */
    uint64_t marked;       /* and that of the last one */
    uint64_t cycles;       /* markings that ended by calls with this policy, those of whole collections too, */
    uint64_t scanned;      /* and the objects that they marked */
    uint64_t pauses;       /* pauses, those of whole collections too, */
    uint64_t copied;       /* and the words that they copied */
    uint64_t compactions;  /* compactions, by g1_shrink and for larger objects that found no room, */
    uint64_t compacted;    /* and the words that they copied */
    uint32_t nil_on_full;  /* not 0: where g1_make or g1_make_filled answers FULL, `to` becomes nil; 0 at first, and then it stays */
    uint32_t reserved[11]; /* room for numbers of later versions: 0 */
} g1_policy;

/* A policy for a new heap of these sizes. */
void g1_policy_start(g1_policy *policy, const g1_sizes *sizes);

/* g1_new_object, or g1_new_weak where there are weak slots, after the steps of the collector that are due. Answers as these do. Where it
   answers FULL and `nil_on_full` isn't 0, a g1_drop of `to` comes after it, and a record has that step: so an answer that is overlooked
   leaves no older object in the place of the new one. */
g1_answer g1_make(g1_heap *heap, g1_policy *policy, uint32_t mutator, uint32_t to, uint32_t pointers, uint32_t weaks, uint32_t values);

/* The same with its fields, as g1_new_filled has them: where g1_make answers NAME, a g1_put for each pointer and a g1_write for each data
   word; and where that drops `to`, so does this. `to` may not be among the sources: G1_NO_STEP, and so where a source is no register.

       uint32_t from[] = {FIRST, REST};
       uint64_t words[] = {PAIR_TAG};
       g1_make_filled(&heap, &policy, 0, CELL, from, 2, words, 1);     // register CELL: a pair of what FIRST and REST hold */
g1_answer g1_make_filled(g1_heap *heap, g1_policy *policy, uint32_t mutator, uint32_t to, const uint32_t *from, size_t pointers,
                         const uint64_t *words, size_t values);

/* Takes the steps that are due: DONE, or NO_HEAP. */
g1_answer g1_collect(g1_heap *heap, g1_policy *policy);

/* A whole collection, as above: only what roots reach is kept then, and a weak slot that held anything else is nil. What is kept isn't
   always moved together: the regions of objects may be little more than half full. DONE, or NO_HEAP. */
g1_answer g1_collect_all(g1_heap *heap, g1_policy *policy);

/* Gives back as much memory as can be: a whole collection, compactions until none moves anything, so that no region in use is above a free
   one, and g1_give_back. For a moment at which the program is idle: it takes as long as these. DONE, NO_HEAP, or NO_MEMORY, where less goes
   back or nothing, but the collection is done.

       if (policy.idle) g1_shrink(&heap, &policy);              // half of the regions that were in play are held back again */
g1_answer g1_shrink(g1_heap *heap, g1_policy *policy);

#ifdef __cplusplus
}
#endif

#endif
