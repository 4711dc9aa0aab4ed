/* A stack machine, whose integers are objects too, as bindings/rust/examples/vm.rs has it: for tools/measure rust. Its program makes a list
   of 1 to N and adds it up, by recursion, so many times.

     stack_vm [N [TIMES]]      500 and 200 where they are left out */
#include <stdbool.h>

#include "../../clients/memory.h"

enum op { INT, NIL, ADD, SUB, CONS, CAR, CDR, PICK, STORE, JUMP_NIL, JUMP_ZERO, JUMP, CALL, RETURN, HALT };
typedef struct step {
    enum op op;
    uint32_t first, second; /* a value, a place counted from the call's first argument, or where to go on; a call's arguments */
} step;
typedef struct call {
    uint32_t pc, base;
} call;
enum { CAR_FIELD, CDR_FIELD };
enum { REGISTERS = 4096 };

static bool holds[REGISTERS]; /* a register holds an object, not nil */
static reg top;
static call calls[REGISTERS];

static void node(reg to, uint32_t pointers, uint32_t values)
{
    if (to >= REGISTERS || !m_new(to, pointers, values)) m_die("the heap or the stack is full");
}
static void push(reg from)
{
    if (top == REGISTERS) m_die("the stack is full");
    m_move(top, from);
    holds[top] = holds[from];
    top++;
}
/* Puts an integer in place of the last `arguments` values. */
static void integer(uint32_t arguments, uint64_t value)
{
    node(top, 0, 1);
    m_write(top, 0, value);
    if (arguments > 0) m_move(top - arguments, top);
    top = top - arguments + 1;
    holds[top - 1] = true;
}
static void cons(void)
{
    node(top, 2, 0);
    m_put(top, CAR_FIELD, holds[top - 2] ? top - 2 : G1_NIL_REGISTER);
    m_put(top, CDR_FIELD, holds[top - 1] ? top - 1 : G1_NIL_REGISTER);
    m_move(top - 2, top);
    top--;
    holds[top - 1] = true;
}
static uint64_t value(reg below) { return m_read(top - 1 - below, 0); }

static uint64_t run(const step *code)
{
    uint32_t pc = 0, depth = 0;
    reg base = 0;
    top = 0;
    for (;;) {
        step it = code[pc++];
        switch (it.op) {
        case INT: integer(0, it.first); break;
        case NIL:
            m_drop(top);
            holds[top++] = false;
            break;
        case ADD: integer(2, value(1) + value(0)); break;
        case SUB: integer(2, value(1) - value(0)); break;
        case CONS: cons(); break;
        case CAR: holds[top - 1] = m_get(top - 1, top - 1, CAR_FIELD); break;
        case CDR: holds[top - 1] = m_get(top - 1, top - 1, CDR_FIELD); break;
        case PICK: push(base + it.first); break;
        case STORE:
            top--;
            m_move(base + it.first, top);
            holds[base + it.first] = holds[top];
            break;
        case JUMP: pc = it.first; break;
        case JUMP_NIL:
            if (!holds[--top]) pc = it.first;
            break;
        case JUMP_ZERO:
            top--;
            if (m_read(top, 0) == 0) pc = it.first;
            break;
        case CALL:
            calls[depth++] = (call){pc, base};
            pc = it.first, base = top - it.second;
            break;
        case RETURN:
            m_move(base, top - 1);
            holds[base] = holds[top - 1];
            top = base + 1;
            m_scope(top);
            pc = calls[--depth].pc, base = calls[depth].base;
            break;
        case HALT: return value(0);
        }
    }
}

int main(int words, char **word)
{
    uint32_t n = words > 1 ? (uint32_t)atoi(word[1]) : 500, times = words > 2 ? (uint32_t)atoi(word[2]) : 200;
    /* The list in place 1, while place 0 counts down; then the sum of a list, at 16. */
    const step code[] = {
        {INT, n, 0}, {NIL, 0, 0}, {PICK, 0, 0}, {JUMP_ZERO, 13, 0}, {PICK, 0, 0}, {PICK, 1, 0}, {CONS, 0, 0}, {STORE, 1, 0}, {PICK, 0, 0},
        {INT, 1, 0}, {SUB, 0, 0}, {STORE, 0, 0}, {JUMP, 2, 0}, {PICK, 1, 0}, {CALL, 16, 1}, {HALT, 0, 0}, {PICK, 0, 0}, {JUMP_NIL, 25, 0},
        {PICK, 0, 0}, {CAR, 0, 0}, {PICK, 0, 0}, {CDR, 0, 0}, {CALL, 16, 1}, {ADD, 0, 0}, {RETURN, 0, 0}, {INT, 0, 0}, {RETURN, 0, 0},
    };
    uint64_t sum = 0;
    m_sizes.regions = 64, m_sizes.registers = REGISTERS;
    m_start();
    for (uint32_t i = 0; i < times; i++) sum = run(code), m_scope(0);
    printf("%u times the sum of 1 to %u: %llu\n", times, n, (unsigned long long)sum);
    m_stop(getenv("VERBOSE") != NULL);
    return 0;
}
