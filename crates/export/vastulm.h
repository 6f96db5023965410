/* The curves of Vastulm over the bit patterns of f32 (32-bit IEEE 754 floats).
 *
 * Build the library with `tools/build export_c`: target/staticlib/libexport.a. It needs no other library.
 *
 * Each function takes a pattern and returns the pattern of the value. A NaN is written 0x7fc00000.
 * Nothing is asked of the caller. "two_step" rounds a product and then the sum; "fused" rounds once.
 */
#ifndef VASTULM_H
#define VASTULM_H

#include <stddef.h>
#include <stdint.h>

#ifdef __cplusplus
extern "C" {
#endif

uint32_t vastulm_exp_two_step(uint32_t pattern);
uint32_t vastulm_exp_fused(uint32_t pattern);
uint32_t vastulm_exp2_two_step(uint32_t pattern);
uint32_t vastulm_exp2_fused(uint32_t pattern);
uint32_t vastulm_exp10_two_step(uint32_t pattern);
uint32_t vastulm_exp10_fused(uint32_t pattern);
uint32_t vastulm_expm1_two_step(uint32_t pattern);
uint32_t vastulm_expm1_fused(uint32_t pattern);

/* Replaces each of the `count` patterns by the curve's answer under the arithmetic, and returns 0.
 * Curves: 0 exp, 1 exp2, 2 exp10, 3 expm1. Arithmetics: 0 two-step, 1 fused.
 * Another number of a curve returns 1, another number of an arithmetic 2, and nothing changes. */
uint32_t vastulm_fill(uint32_t curve, uint32_t arithmetic, uint32_t *patterns, size_t count);

#ifdef __cplusplus
}
#endif

#endif
