/* A model's bytes to its depth image, or to one word that says why it is refused: the call that the crate depth_c
 * exports. `rt lib` in crates/depth_c leaves it in crates/depth_c/out/libdepth_c.a. */
#ifndef DEPTH_H
#define DEPTH_H

#include <stddef.h>
#include <stdint.h>

#ifdef __cplusplus
extern "C" {
#endif

/* The bytes that a call wants for its output: the largest image, 4 * (2 + 64 * 64). */
#define DEPTH_MOST_OUTPUT 16392

/* No lawful input is longer. A longer one is refused as any other is. */
#define DEPTH_MOST_INPUT 23640

/* Reads a model, a job, a scene and a surface joined (docs/FORMAT.md), and writes its image in front of the output, or
 * the four bytes of a refusal word: kind 14 in bits 31..28, the part in 27..24, the number of the broken rule in 23..16,
 * the place in 15..0 (docs/REFUSALS.md). Answers how many bytes it wrote. Bytes past them stay as they were.
 *
 * Where output_len is under DEPTH_MOST_OUTPUT it writes nothing and answers 0, which no other call does.
 *
 * Any bytes may be given as input, and as many as you like. What the caller has to see to:
 *   - input points to input_len bytes that nothing changes during the call, and output to output_len bytes;
 *   - neither pointer is null, also where its length is 0;
 *   - the two do not overlap, and nothing else uses the output during the call.
 * It allocates nothing and keeps nothing between calls, so several may run at once, each with its own output. What it
 * needs of stack is not proved; on the largest input it ran within 128 KiB. It is built for processors of x86-64-v2. */
size_t depth_render(const uint8_t *input, size_t input_len, uint8_t *output, size_t output_len);

#ifdef __cplusplus
}
#endif

#endif
