/* What a program of the machine can use beside C: its output, its input, words of the data space by their address, and operations of
   the machine's units. For another compiler, which does not define __TTA__, these are made of its own library, so that a program can be tried
   there: `cc -funsigned-char -fwrapv -I tools/c/include FILE.c` (docs/C.md, On the host). */
#ifndef TTA_H
#define TTA_H
#include <stdint.h>
#ifdef __TTA__
void tta_out(uint32_t word);                      /* the step `out` */
uint32_t tta_in(void);                            /* the step `in` */
uint32_t tta_load(uint32_t address);              /* a word of the data space, by its own address */
void tta_store(uint32_t address, uint32_t word);
void tta_halt(void) __attribute__((noreturn));
/* tta_op_NAME is the operation NAME of a unit, of one word or two; declare those of your own units so. Where a machine is named, TTA_HAS_NAME is defined
   for each of its operations. */
uint32_t tta_op_mulhu(uint32_t a, uint32_t b) __attribute__((const));
#define TTA_AT(address) __attribute__((used, section("tta.at." #address)))  /* data that begin at this word of the data space */
#else
#include <stdio.h>
#include <stdlib.h>
static inline void tta_out(uint32_t word) { printf("%u\n", (unsigned)word); }
static inline uint32_t tta_in(void)
{
    unsigned word;
    if (scanf("%x", &word) != 1)
        exit(0);
    return word;
}
__attribute__((noreturn)) static inline void tta_halt(void) { exit(0); }
/* Words of the data space that nothing else has; data that TTA_AT places stand elsewhere here. */
__attribute__((weak)) uint32_t tta_host_words[65536];
static inline uint32_t tta_load(uint32_t address) { return tta_host_words[address % 65536]; }
static inline void tta_store(uint32_t address, uint32_t word) { tta_host_words[address % 65536] = word; }
static inline uint32_t tta_op_mulhu(uint32_t a, uint32_t b) { return (uint32_t)((uint64_t)a * b >> 32); }
#define TTA_AT(address)
#endif
#endif
