/* Copying and filling memory: all that the library calls from outside on a Cortex-M4 (tools/boards/targets.ini has the list), and what a C compiler
 * takes for granted. */
#include <stddef.h>
#include <stdint.h>

/* Sixteen bytes at a time as long as it goes, then words, then bytes. */
void *memcpy(void *to, const void *from, size_t length)
{
    uint8_t *t = to;
    const uint8_t *f = from;
    if ((((uintptr_t)t | (uintptr_t)f) & 3) == 0) {
        for (; length >= 16; length -= 16, t += 16, f += 16) {
            uint32_t *words = (uint32_t *)t;
            const uint32_t *given = (const uint32_t *)f;
            words[0] = given[0], words[1] = given[1], words[2] = given[2], words[3] = given[3];
        }
        for (; length >= 4; length -= 4, t += 4, f += 4)
            *(uint32_t *)t = *(const uint32_t *)f;
    }
    while (length-- > 0)
        *t++ = *f++;
    return to;
}

void *memset(void *to, int byte, size_t length)
{
    uint8_t *t = to;
    uint32_t word = (uint8_t)byte * 0x01010101u;
    if (((uintptr_t)t & 3) == 0) {
        for (; length >= 16; length -= 16, t += 16) {
            uint32_t *words = (uint32_t *)t;
            words[0] = word, words[1] = word, words[2] = word, words[3] = word;
        }
        for (; length >= 4; length -= 4, t += 4)
            *(uint32_t *)t = word;
    }
    while (length-- > 0)
        *t++ = (uint8_t)byte;
    return to;
}

void *memmove(void *to, const void *from, size_t length)
{
    if ((uintptr_t)to - (uintptr_t)from >= length)
        return memcpy(to, from, length);
    while (length-- > 0)
        ((uint8_t *)to)[length] = ((const uint8_t *)from)[length];
    return to;
}

/* The same by the names that ARM's compilers use; the numbers 4 and 8 promise an alignment. */
void __aeabi_memcpy(void *to, const void *from, size_t length) { memcpy(to, from, length); }
void __aeabi_memmove(void *to, const void *from, size_t length) { memmove(to, from, length); }
void __aeabi_memset(void *to, size_t length, int byte) { memset(to, byte, length); }
void __aeabi_memclr(void *to, size_t length) { memset(to, 0, length); }
void __aeabi_memcpy4(void *, const void *, size_t) __attribute__((alias("__aeabi_memcpy")));
void __aeabi_memcpy8(void *, const void *, size_t) __attribute__((alias("__aeabi_memcpy")));
void __aeabi_memmove4(void *, const void *, size_t) __attribute__((alias("__aeabi_memmove")));
void __aeabi_memmove8(void *, const void *, size_t) __attribute__((alias("__aeabi_memmove")));
void __aeabi_memset4(void *, size_t, int) __attribute__((alias("__aeabi_memset")));
void __aeabi_memset8(void *, size_t, int) __attribute__((alias("__aeabi_memset")));
void __aeabi_memclr4(void *, size_t) __attribute__((alias("__aeabi_memclr")));
void __aeabi_memclr8(void *, size_t) __attribute__((alias("__aeabi_memclr")));
