/* expand WIDTH COMPONENT: a component of 4 to 8 bits as ten. Both are decimal, or hex behind 0x; the answer is told in
 * both. Status 0; 1 where the width or the component is refused; 2 for bad usage. */
#include <zikombaru.h>

#include <stdio.h>
#include <stdlib.h>
#include <string.h>

/* the number that a text spells, or one over 32 bits where it spells none */
static unsigned long long number(const char *text) {
    const char *digits = strncmp(text, "0x", 2) == 0 ? text + 2 : text;
    int base = digits == text ? 10 : 16;
    size_t length = strspn(digits, base == 10 ? "0123456789" : "0123456789abcdefABCDEF");
    if (length == 0 || digits[length] != 0) return ~0ULL;
    return strtoull(digits, NULL, base);
}

int main(int argc, char **argv) {
    if (argc != 3) {
        fprintf(stderr, "usage: expand WIDTH COMPONENT, a width of 4 to 8 bits; decimal, or hex as 0x80\n");
        return 2;
    }
    for (int i = 1; i < 3; i++)
        if (number(argv[i]) > UINT32_MAX) {
            fprintf(stderr, "expand: '%s' is no number of 32 bits, decimal or hex as 0x80\n", argv[i]);
            return 2;
        }
    uint32_t width = (uint32_t)number(argv[1]);
    uint64_t answer = zk_expand(width, (uint32_t)number(argv[2]));
    if (zk_refusal(answer) != ZK_ACCEPTED) {
        printf("refused=%u (%s): ", zk_refusal(answer), zk_refusal_text(zk_refusal(answer)));
        if (width < 4 || width > 8) printf("there are widths of 4 to 8 bits\n");
        else printf("%u bits hold 0 to %u\n", width, (1u << width) - 1);
        return 1;
    }
    printf("ten=0x%03x (%u)\n", zk_value(answer), zk_value(answer));
    return 0;
}
