/* g1heap_record.h: a heap's run on the record, which `g1heap check` judges. C11 and C++17.

   Link with -lg1heap_recorded in place of -lg1heap. It has all calls of g1heap.h, over the same heap, and each step also
   writes a line, with its answer, in the third format of docs/TEXTS.md. The program's source needs no change:

       cc hello.c -lg1heap_recorded -o hello_recorded
       G1HEAP_RECORD=hello.record ./hello_recorded
       g1heap check hello.record                                  # yes 123

   The variable names the file of the first heap that is made; that of the second one has .2 after its name, and so on. Where it isn't set,
   nothing is written, unless the program asks for it by g1_record. A program linked with -lg1heap has no such calls, and pays nothing. */
#ifndef G1HEAP_RECORD_H
#define G1HEAP_RECORD_H

#include <stddef.h>

#include "g1heap.h"

#ifdef __cplusplus
extern "C" {
#endif

/* Takes a line of a record, with its line feed, and answers 0; else no more lines come. It must not call the heap. */
typedef int (*g1_line_writer)(void *context, const char *line, size_t bytes);

/* From now on each step of the heap is written; NULL for `write` ends that. To be called before the heap's first step, since a record
   begins with an empty heap; the heap line is written at once. G1_DONE; G1_NO_HEAP; or G1_NO_STEP where a step was taken already, and
   nothing changes. In place of a file of the variable G1HEAP_RECORD, which has its heap line then. */
uint32_t g1_record(g1_heap *heap, g1_line_writer write, void *context);

#ifdef __cplusplus
}
#endif

#endif
