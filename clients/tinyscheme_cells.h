/* tinyscheme_cells.h: the cells of TinyScheme as objects of g1heap, which clients/tinyscheme.patch makes its interpreter use. The file
   clients/TINYSCHEME.md says how to build it, and how it was done.

   A `pointer` is the number of a register, which holds the cell or, as that of () does, nil. So the collector may move cells at any call,
   and what C has in hand is kept. Registers from the lowest on:

     constants    NIL, T, F, EOF_OBJ and sink, for good
     roots        what sc->args, sc->code and so on name between two steps of the evaluation
     a frame      what the running step loaded or made: car() takes the next register, and settle_roots() leaves all

   An assignment copies a number, as it copied an address: no register that a `pointer` names is written in the same step but by get_into(),
   which is given one that nothing else names. A pointer is () if and only if its register is R_NIL, so a test for that asks no heap.

   A cell has 2 pointers and 3 data words: its flags, its value, and a length or whether it is a whole number. A vector's car is an object
   with its elements. The bytes of strings and the structs of ports stay in C: each is noted beside a weak slot, and given back once a
   marking has made that nil. */
#ifndef TINYSCHEME_CELLS_H
#define TINYSCHEME_CELLS_H

#include <g1heap.h>

enum { R_NIL, R_T, R_F, R_EOF, R_SINK, R_ROOTS };
enum { CAR, CDR };                          /* pointers */
enum { FLAGS, VALUE, LENGTH };              /* data words */
enum { REGISTERS = 65536, SLOTS = 255, TABLES = 16384 };

static const pointer no_pointer = {UINT32_MAX};
static g1_heap cells = G1_HEAP_NONE;
static g1_policy cell_policy;
static uint32_t next_register = R_ROOTS, frame = R_ROOTS;   /* the first that is free, and the first of the frame */
static pointer *roots[40];                  /* each with the register R_ROOTS and its place */
static unsigned char is_held[40];           /* whether that register holds a cell */
static uint32_t root_count;

static void cells_fail(const char *why)
{
  fprintf(stderr, "%s\n", why);
  exit(1);
}
/* A refusal is a mistake of this program, but those that its caller expects. */
static g1_answer done(g1_answer answer)
{
  if (answer.code >= G1_NIL) cells_fail("the heap refused a step");
  return answer;
}
static pointer fresh(void)
{
  pointer x = {next_register};
  if (next_register++ == REGISTERS) cells_fail("one step of the evaluation takes too many registers");
  return x;
}

/* The heap: G1HEAP_REGIONS regions of 4,096 words, or 1,024, which are 32 MiB. */
static void cells_start(void)
{
  const char *regions = getenv("G1HEAP_REGIONS");
  g1_sizes sizes = {regions ? (uint32_t)atoi(regions) : 1024, 4096, 511, 1, 0, 64, TABLES, REGISTERS};
  if (g1_new(&cells, &sizes) != G1_DONE) cells_fail("there is no such heap");
  g1_policy_start(&cell_policy, &sizes);
}
/* A variable of C whose cell is kept from step to step. */
static void keep_root(pointer *root)
{
  roots[root_count++] = root;
  root->at = R_NIL;
  next_register = frame = R_ROOTS + root_count;
}

/* What a field holds, in the register of x; () where it is nil, and where p is, as car and cdr of () are (). */
static pointer get_into(pointer x, pointer p, uint32_t field)
{
  if (p.at == R_NIL || done(g1_get(&cells, 0, x.at, p.at, field)).code == G1_NIL_VALUE) x.at = R_NIL;
  return x;
}
static pointer get_field(pointer p, uint32_t field)
{
  pointer x = get_into(fresh(), p, field);
  if (x.at == R_NIL) next_register--;
  return x;
}
static pointer car(pointer p) { return get_field(p, CAR); }
static pointer cdr(pointer p) { return get_field(p, CDR); }
static pointer put_field(pointer p, uint32_t field, pointer q)
{
  done(g1_put(&cells, 0, p.at, field, q.at));
  return q;
}
/* Those of () are 0. */
static uint64_t word_of(pointer p, uint32_t word) { return p.at == R_NIL ? 0 : done(g1_read(&cells, 0, p.at, word)).first; }
static void set_word(pointer p, uint32_t word, uint64_t value) { done(g1_write(&cells, 0, p.at, word, value)); }

/* Whether two pointers are one cell: names are those of objects for good. */
static int same(pointer a, pointer b)
{
  if (a.at == b.at) return 1;
  if (a.at == R_NIL || b.at == R_NIL) return 0;
  return g1_name(&cells, 0, a.at).first == g1_name(&cells, 0, b.at).first;
}

/* A register of its own, for loops along a list, in which advance() writes it again. */
static pointer own(pointer p)
{
  pointer x = fresh();
  if (p.at == R_NIL) next_register--, x.at = R_NIL;
  else done(g1_move(&cells, 0, x.at, p.at));
  return x;
}
static pointer advance(pointer p) { return get_into(p, p, CDR); }
/* Leaves the registers from `first` on, but for what p holds. */
static pointer leave_with(uint32_t first, pointer p)
{
  next_register = first;
  return p.at < first ? p : own(p);
}

/* A cell of a car and a cdr, or nothing where there is no room. */
static pointer make_cell(pointer a, pointer b, uint64_t flags)
{
  pointer x = fresh();
  uint32_t from[] = {a.at, b.at};
  uint64_t words[] = {flags, 0, 0};
  return g1_make_filled(&cells, &cell_policy, 0, x.at, from, 2, words, 3).code == G1_NAME ? x : no_pointer;
}

/* What strings and ports have in C: for each slot of the tables, which globals name, the memory of the cell that it held. */
typedef struct owned {
  void *memory;
  int is_port;
} owned;
static owned *owners;
static uint32_t *free_slots, free_count, table_count;
static uint64_t swept;                      /* cycles of marking after which was looked */

static int add_table(void)
{
  pointer x = fresh();
  uint32_t i;
  if (table_count == TABLES || g1_make(&cells, &cell_policy, 0, x.at, 0, SLOTS, 0).code != G1_NAME) return 0;
  done(g1_save(&cells, 0, table_count, x.at));
  owners = realloc(owners, (table_count + 1) * SLOTS * sizeof *owners);
  free_slots = realloc(free_slots, (table_count + 1) * SLOTS * sizeof *free_slots);
  if (!owners || !free_slots) return 0;
  for (i = SLOTS; i-- > 0;) {
    owners[table_count * SLOTS + i].memory = 0;
    free_slots[free_count++] = table_count * SLOTS + i;
  }
  table_count++, next_register--;
  return 1;
}
/* The cell has this memory, which is given back after the cell. */
static int note_owner(pointer p, void *memory, int is_port)
{
  pointer x = fresh();
  uint32_t slot;
  if (free_count == 0 && !add_table()) return 0;
  slot = free_slots[--free_count];
  owners[slot].memory = memory, owners[slot].is_port = is_port;
  done(g1_load(&cells, 0, x.at, slot / SLOTS));
  done(g1_put_weak(&cells, 0, x.at, slot % SLOTS, p.at));
  next_register--;
  return 1;
}
/* Gives back what cells had that the last markings didn't reach. */
static void sweep_owners(void (*give_back)(void *memory, int is_port))
{
  uint32_t table, i;
  pointer x, y;
  if (swept == cell_policy.cycles) return;
  swept = cell_policy.cycles, x = fresh(), y = fresh();
  for (table = 0; table < table_count; table++) {
    done(g1_load(&cells, 0, x.at, table));
    for (i = 0; i < SLOTS; i++) {
      owned *it = &owners[table * SLOTS + i];
      if (it->memory == 0 || done(g1_get_weak(&cells, 0, y.at, x.at, i)).code == G1_NAME) continue;
      give_back(it->memory, it->is_port);
      it->memory = 0;
      free_slots[free_count++] = table * SLOTS + i;
    }
  }
}

/* Between two steps: each root gets what its variable names now into its own register, and the frame is left. */
static void settle_roots(void)
{
  uint32_t i, last = R_ROOTS + root_count;
  for (i = 0; i < root_count; i++)          /* first what others' registers hold, before these are written */
    if (roots[i]->at >= R_ROOTS && roots[i]->at < last && roots[i]->at != R_ROOTS + i) *roots[i] = own(*roots[i]);
  for (i = 0; i < root_count; i++) {
    if (roots[i]->at == R_ROOTS + i) continue;
    if (roots[i]->at >= R_ROOTS) {
      done(g1_move(&cells, 0, R_ROOTS + i, roots[i]->at));
      roots[i]->at = R_ROOTS + i, is_held[i] = 1;
    } else if (is_held[i]) {                /* (), #t and #f are named where they are */
      done(g1_drop(&cells, 0, R_ROOTS + i));
      is_held[i] = 0;
    }
  }
  done(g1_scope(&cells, 0, frame));
  next_register = frame;
}

#endif
