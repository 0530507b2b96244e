/* Makes bundles with worgesli_bundle, and tidies each. Standard input has, for each, the slot count, then each slot's length (0xFFFFFFFF: absent) and bytes;
 * standard output gets its length and bytes, then those of its tidy form. Numbers have 4 bytes, little-endian.
 */
#include <stdio.h>
#include <stdlib.h>

#include "worgesli.h"

static uint32_t number(void)
{
    uint32_t n = 0;
    for (unsigned i = 0; i < 4; i++)
        n |= (uint32_t)getchar() << (8 * i);
    return n;
}

static void tell(const uint8_t *bytes, size_t len)
{
    for (unsigned i = 0; i < 4; i++)
        putchar((int)(len >> (8 * i) & 0xff));
    fwrite(bytes, 1, len, stdout);
}

int main(void)
{
    for (int c; (c = getchar()) != EOF;) {
        ungetc(c, stdin);
        const uint32_t n = number();
        worgesli_slot *slots = malloc((n + 1) * sizeof *slots);
        for (uint32_t i = 0; i < n; i++) {
            const uint32_t len = number();
            slots[i] = (worgesli_slot){NULL, 0};
            if (len == 0xFFFFFFFFu)
                continue;
            char *bytes = malloc(len + 1);
            if (fread(bytes, 1, len, stdin) != len)
                return 1;
            slots[i] = (worgesli_slot){bytes, len};
        }
        const size_t size = worgesli_bundle(slots, n, NULL, 0);
        uint8_t *bundle = malloc(size + 1);
        if (worgesli_bundle(slots, n, bundle, size) != size)
            return 1;
        tell(bundle, size);
        const size_t len = worgesli_tidy_len(bundle, size).len;
        uint8_t *form = malloc(len + 1);
        if (worgesli_tidy(bundle, size, form, len).len != len)
            return 1;
        tell(form, len);
        for (uint32_t i = 0; i < n; i++)
            free((void *)(uintptr_t)slots[i].bytes);
        free(slots), free(bundle), free(form);
    }
    return 0;
}
