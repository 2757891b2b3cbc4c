/*
 * The weights of Fcc and Custom by the machine's own binary32 numbers, in place of the whole numbers of reference.c, where that
 * is compiled with REFERENCE_FLOATS. It shows what a compiler and a processor make of the steps of RULES 4.4: each stands in a
 * statement of its own, or with IN_EXPRESSIONS all of a coefficient's in one, as one would write it at first. With MULTIPLIED_OUT
 * kg × RY is written as RY − (kr + kb) × RY, which on paper is the same and by RULES 4.2 is not.
 */
#include "reference.h"

#include <string.h>

static float of_bits(uint32_t bits)
{
    float number;

    memcpy(&number, &bits, sizeof number);
    return number;
}

/* RULES 4.5: times 8,192, which is exact, then the nearest whole number, a half away from zero. The sums are exact in binary64. */
static int32_t weight(float coefficient)
{
    float product = coefficient * 8192.0f;

    return product < 0 ? -(int32_t)(0.5 - (double)product) : (int32_t)((double)product + 0.5);
}

#ifndef IN_EXPRESSIONS

/* RULES 4.4: the line of yr, yg or yb, and of cb_b and cr_r. */
static int32_t scaled_weight(float k, float span)
{
    float a = k * span;
    float coefficient = a / 255.0f;

    return weight(coefficient);
}

/* RULES 4.4: the line of cb_r, cb_g, cr_g or cr_b. */
static int32_t mixed_weight(float k, float own, float span)
{
    float a = -0.5f * k;
    float b = 1.0f - own;
    float d = a / b;
    float e = d * span;
    float coefficient = e / 255.0f;

    return weight(coefficient);
}

static float green(float kr, float kb)
{
    float a = 1.0f - kr;
    float kg = a - kb;

    return kg;
}

#else

static int32_t scaled_weight(float k, float span)
{
    return weight(k * span / 255.0f);
}

static int32_t mixed_weight(float k, float own, float span)
{
    return weight(-0.5f * k / (1.0f - own) * span / 255.0f);
}

static float green(float kr, float kb)
{
    return 1.0f - kr - kb;
}

#endif

/* RULES 4.4, 4.5: the nine weights of a pair. */
void reference_work_out(uint32_t kr_bits, uint32_t kb_bits, uint32_t range, struct reference_weights *weights)
{
    float kr = of_bits(kr_bits);
    float kb = of_bits(kb_bits);
    float kg = green(kr, kb);
    float luma_span = range == REFERENCE_LIMITED ? 219.0f : 255.0f;
    float chroma_span = range == REFERENCE_LIMITED ? 224.0f : 255.0f;

    weights->luma[0] = scaled_weight(kr, luma_span);
#ifndef MULTIPLIED_OUT
    weights->luma[1] = scaled_weight(kg, luma_span);
#else
    weights->luma[1] = weight((luma_span - (kr + kb) * luma_span) / 255.0f);
#endif
    weights->luma[2] = scaled_weight(kb, luma_span);
    weights->cb[0] = mixed_weight(kr, kb, chroma_span);
    weights->cb[1] = mixed_weight(kg, kb, chroma_span);
    weights->cb[2] = scaled_weight(0.5f, chroma_span);
    weights->cr[0] = scaled_weight(0.5f, chroma_span);
    weights->cr[1] = mixed_weight(kg, kr, chroma_span);
    weights->cr[2] = mixed_weight(kb, kr, chroma_span);
}
