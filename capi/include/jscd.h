/* Dojisun for C: the functions of target/staticlib/libcapi.a (capi/archive), each proved to meet the contract in
   crates/capi_c/src/lib.rt. x86-64 Linux.

   Bytes are lent as a pointer and a length; the pointer is not NULL, also for no bytes. What is lent as const is only read; `out`,
   `marks`, `steps`, `place`, `values` and `numbers` overlap nothing else that is lent. No function keeps a pointer, allocates, prints or fails
   otherwise than by its answer. A length is below 2^63.

   Stack: a walk call, with handler records or without, takes up to 992,000 bytes whatever its code's length (fourteen bytes for each of 65,536
   bytes of code, four of them for handlers, and two summaries of a pool's slots, are part of each call), so that a thread of 1 MB has it and one of
   512 KB has not; jscd_list up to 68,000, jscd_target and jscd_entry up to 17,600, jscd_to_new and jscd_to_old up to 2,200, jscd_decode and jscd_write up to 1,800. Measured on the
   archive (x86-64), not proved. */
#ifndef JSCD_H
#define JSCD_H

#include <stddef.h>
#include <stdint.h>

#ifdef __cplusplus
extern "C" {
#endif

/* Answers: JSCD_DONE, JSCD_END, JSCD_LEAVES, or the number of a refusal, 1 to 27 (README.md, "Refusals"). */
#define JSCD_DONE 0
#define JSCD_LEAVES 254
#define JSCD_END 255

/* Opcode records, in every call but jscd_to_new, have 72 bytes (JSCD_OPCODE_SIZE): the first 50 are those of document 01, bytes 50 to 53 say what the
   opcode does, and bytes 54 to 71 are zero, else the record is refused with 3. Targets, entries and walks are by these bytes, not by names; only the step
   into an exception handler is also by name (jscd_walk_with).
   50  flow: 0 straight on, 1 ends, 2 jumps, 3 jumps or goes on, 4 jumps back, 5 switch
   51  1 where the distance comes from the pool, else 0
   52  the first decoded operand that is used, 0 to 7
   53  1 where a switch has a case base, else 0
   A byte with another number is refused with 26, whatever the flow; the place is the record's number, and 3 of the same record comes first. */
#define JSCD_OPCODE_SIZE 72
#define JSCD_OLD_OPCODE_SIZE 64

/* The listing of a BytecodeArray from the start of `out` on. The eight record files are those of document 01, in its order, with opcode records as
   above.
   JSCD_DONE: *place is the listing's length. A refusal: *place is its place, and `out` is as it was. */
uint8_t jscd_list(uint8_t *out, size_t out_len,
                  const uint8_t *opcodes, size_t opcodes_len,
                  const uint8_t *types, size_t types_len,
                  const uint8_t *runtime, size_t runtime_len,
                  const uint8_t *intrinsic, size_t intrinsic_len,
                  const uint8_t *layout, size_t layout_len,
                  const uint8_t *objects, size_t objects_len,
                  const uint8_t *slots, size_t slots_len,
                  const uint8_t *payload, size_t payload_len,
                  size_t object, size_t *place);

/* The walks through a BytecodeArray's code. `marks` has at least as many bytes as the code; of these the first, as many as the code has
   bytes, are written, the others are as they were.
   JSCD_DONE: no walk leaves; *steps and *place are 0, and a mark is 1 where a walk comes by, 0 elsewhere.
   JSCD_LEAVES: a shortest walk that leaves has *steps steps, and *place is the lowest offset that such a one leaves from; a mark is 1 where
   a walk comes by in fewer steps.
   A refusal: *steps is 0, *place its place, and `marks` is as it was.
   Empty code, of length 0 or of an object in which no length is found, is JSCD_DONE, and no mark is written; marks_len may be 0. Number 19 is
   given where the length is above 0 and no run holds the code, whatever marks_len is. */
uint8_t jscd_walk(uint8_t *marks, size_t marks_len,
                  const uint8_t *opcodes, size_t opcodes_len,
                  const uint8_t *types, size_t types_len,
                  const uint8_t *runtime, size_t runtime_len,
                  const uint8_t *intrinsic, size_t intrinsic_len,
                  const uint8_t *layout, size_t layout_len,
                  const uint8_t *objects, size_t objects_len,
                  const uint8_t *slots, size_t slots_len,
                  const uint8_t *payload, size_t payload_len,
                  size_t object, size_t *steps, size_t *place);

/* The same walks with exception handlers: `handlers` has records of 12 bytes, up to 4,096, each of three 4-byte numbers, little-endian: start, end,
   handler offset. From an instruction whose offset (its prefix's, where it has one) is at least start and below end a walk may also go to the handler:
   to that of the last record that holds the offset. An instruction that else ends a walk, as Throw, ReThrow and Abort do, has this step too; Return and
   SuspendGenerator have not, by their names, whatever their flow. It is judged as a jump: it leaves where no instruction starts at the handler offset, which is not tested otherwise.
   The answer and the marks are told as by jscd_walk, over these walks; with no bytes of handlers it is jscd_walk. Two refusals more, behind 18:
   24  handlers_len is not that of whole records, or of more than 4,096; *place is 0
   25  a record's start is not below its end, or its end is beyond the code; *place is the lowest such record's number. Empty code has every end
       above 0 beyond it, so that any record is 25 there. */
uint8_t jscd_walk_with(uint8_t *marks, size_t marks_len,
                       const uint8_t *opcodes, size_t opcodes_len,
                       const uint8_t *types, size_t types_len,
                       const uint8_t *runtime, size_t runtime_len,
                       const uint8_t *intrinsic, size_t intrinsic_len,
                       const uint8_t *layout, size_t layout_len,
                       const uint8_t *objects, size_t objects_len,
                       const uint8_t *slots, size_t slots_len,
                       const uint8_t *payload, size_t payload_len,
                       size_t object,
                       const uint8_t *handlers, size_t handlers_len,
                       size_t *steps, size_t *place);

/* Lent code. It is decoded by the opcodes, types and layout that are lent with it. Its pool is that of object number `object`, of any kind, of
   the store objects, slots and payload, where `lent` is not 0; with 0 it has none, and the store and `object` are not looked at. */

/* The walks through lent code. The answer and the marks are told as by jscd_walk. Code of no bytes is JSCD_DONE; number 19 is not given. */
uint8_t jscd_walk_code(uint8_t *marks, size_t marks_len,
                       const uint8_t *code, size_t code_len,
                       const uint8_t *opcodes, size_t opcodes_len,
                       const uint8_t *types, size_t types_len,
                       const uint8_t *layout, size_t layout_len,
                       const uint8_t *objects, size_t objects_len,
                       const uint8_t *slots, size_t slots_len,
                       const uint8_t *payload, size_t payload_len,
                       uint8_t lent, size_t object, size_t *steps, size_t *place);

/* The same with exception handlers, lent and told as for jscd_walk_with. */
uint8_t jscd_walk_code_with(uint8_t *marks, size_t marks_len,
                            const uint8_t *code, size_t code_len,
                            const uint8_t *opcodes, size_t opcodes_len,
                            const uint8_t *types, size_t types_len,
                            const uint8_t *layout, size_t layout_len,
                            const uint8_t *objects, size_t objects_len,
                            const uint8_t *slots, size_t slots_len,
                            const uint8_t *payload, size_t payload_len,
                            uint8_t lent, size_t object,
                            const uint8_t *handlers, size_t handlers_len,
                            size_t *steps, size_t *place);

/* The first of the values that jscd_target and jscd_entry tell. */
#define JSCD_NOTHING 0 /* no target, no table */
#define JSCD_FOUND 1
#define JSCD_SKIPPED 2 /* the entry's element is no small integer */
#define JSCD_BEYOND 3  /* the table has no such entry */

/* The target of the jump at a place of lent code.
   JSCD_DONE: values[0] is JSCD_FOUND and values[1] the target, one below zero as 2^64 minus its size; or values[0] is JSCD_NOTHING.
   *place is 0. JSCD_END: `at` is the code's length, and so is *place. A refusal: *place is its place.
   All values are written: one that is not there is 0. */
uint8_t jscd_target(const uint8_t *code, size_t code_len, size_t at,
                    const uint8_t *opcodes, size_t opcodes_len,
                    const uint8_t *types, size_t types_len,
                    const uint8_t *layout, size_t layout_len,
                    const uint8_t *objects, size_t objects_len,
                    const uint8_t *slots, size_t slots_len,
                    const uint8_t *payload, size_t payload_len,
                    uint8_t lent, size_t object, size_t *place, uint64_t values[2]);

/* Entry `k`, from 0 on, of the switch at a place of lent code.
   JSCD_DONE: values[0] is JSCD_FOUND, values[1] the case, signed, in two's complement, and values[2] the target; or values[0] is
   JSCD_SKIPPED, JSCD_BEYOND or JSCD_NOTHING. Otherwise as jscd_target. */
uint8_t jscd_entry(const uint8_t *code, size_t code_len, size_t at,
                   const uint8_t *opcodes, size_t opcodes_len,
                   const uint8_t *types, size_t types_len,
                   const uint8_t *layout, size_t layout_len,
                   const uint8_t *objects, size_t objects_len,
                   const uint8_t *slots, size_t slots_len,
                   const uint8_t *payload, size_t payload_len,
                   uint8_t lent, size_t object, size_t k, size_t *place, uint64_t values[3]);

/* Kinds of an operand, with its first and second number; signed ones are in two's complement. */
#define JSCD_NONE 0        /* an unused place */
#define JSCD_REG 1         /* index, signed */
#define JSCD_REG_LIST 2    /* first index, signed; count */
#define JSCD_IMM 3         /* value, signed */
#define JSCD_IDX 4         /* value */
#define JSCD_FLAG8 5       /* value */
#define JSCD_FLAG16 6      /* value */
#define JSCD_RUNTIME_ID 7  /* value */
#define JSCD_INTRINSIC_ID 8 /* value */
#define JSCD_RAW 9         /* type code; value */

/* Places of an instruction's 28 numbers: four, then kind, first and second number of each of eight operands. */
#define JSCD_OPCODE 0
#define JSCD_SCALE 1    /* 1, 2 or 4 */
#define JSCD_ENDS 2     /* the place behind it */
#define JSCD_OPERANDS 3 /* how many of the eight are used */
#define JSCD_OPERAND(k) (4 + 3 * (k))
#define JSCD_NUMBERS 28

/* The instruction at a place of lent code.
   JSCD_DONE: `numbers` has it, and *place is the place behind it. JSCD_END: `start` is the code's length, and so is *place.
   A refusal: *place is its place. Unless done, `numbers` is as it was. */
uint8_t jscd_decode(const uint8_t *opcodes, size_t opcodes_len,
                    const uint8_t *types, size_t types_len,
                    const uint8_t *layout, size_t layout_len,
                    const uint8_t *code, size_t code_len,
                    size_t start, size_t *place, uint64_t numbers[JSCD_NUMBERS]);

/* The bytes of one instruction from the start of `out` on. `numbers` has it as jscd_decode tells it; numbers[JSCD_ENDS] and operands behind the
   count are not read. A register list writes its own count.
   JSCD_DONE: *place is how many bytes were written, and the rest of `out` is as it was. A refusal: *place is its place, and `out` is as it was.
   Beside those of the table, 1 to 5 and 26, a refusal is, in this order and at place 0:
   21  the scale is not 1, 2 or 4, or the table has no prefix opcode for it
   22  no such opcode; or, at scale 1, a prefix opcode
   23  another number or kind of operands than the opcode has, or one that would not read back as it is at its width
   17  `out` is too short */
uint8_t jscd_write(uint8_t *out, size_t out_len,
                   const uint8_t *opcodes, size_t opcodes_len,
                   const uint8_t *types, size_t types_len,
                   const uint8_t *layout, size_t layout_len,
                   const uint64_t numbers[JSCD_NUMBERS], size_t *place);

/* Opcode records of 72 bytes from document 01's of 64, from the start of `out` on: the first 50 bytes of each as they are, and bytes 50 to 53 that its
   name stands for in document 01:
   1 0 0 0  Return, SuspendGenerator, Throw, ReThrow, Abort
   2 0 0 0  Jump; 3 0 0 0 the conditional jumps that have a target; 4 0 0 0 JumpLoop; of those whose name ends in Constant byte 51 is 1
   5 0 0 1  SwitchOnSmiNoFeedback
   5 0 1 0  SwitchOnGeneratorState
   0 0 0 0  every other name
   JSCD_DONE: *place is how many bytes were written, and the rest of `out` is as it was. A refusal: *place is its place, and `out` is as it was.
   Refusals are 1 to 4, of these two files, with opcode records of 64 bytes; then 17. */
uint8_t jscd_to_new(uint8_t *out, size_t out_len,
                    const uint8_t *opcodes, size_t opcodes_len,
                    const uint8_t *types, size_t types_len, size_t *place);

/* The way back, told alike: opcode records of 64 bytes from those of 72. What jscd_to_new made gives back the bytes that it was made of.
   Refusals are 1 to 4 and 26, of these two files; then
   27  bytes 50 to 53 of a record are not those that its name stands for; *place is the lowest such record's number
   17  `out` is too short */
uint8_t jscd_to_old(uint8_t *out, size_t out_len,
                    const uint8_t *opcodes, size_t opcodes_len,
                    const uint8_t *types, size_t types_len, size_t *place);

#ifdef __cplusplus
}
#endif

#endif
