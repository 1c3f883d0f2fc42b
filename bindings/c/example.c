/* Loads two matrices, multiplies them, prints the product's factors and its bytes; then shows refusals, in words. */
#include "beechcrib.h"
#include <stdio.h>
#include <string.h>

/* n = 2, all factors one */
static const uint8_t ones[] = {0x02, 0xca, 0x07, 0x00, 0xca, 0x07, 0x00, 0xca, 0x07, 0x00, 0xca, 0x07, 0x00};

/* a refusal in words, told with some places; a foreign shelf (255) has no sentence */
static void say(uint8_t number, size_t offset, const uint64_t *places, size_t count)
{
    uint8_t text[TNB_SENTENCE_ROOM];
    tnb_length s = tnb_sentence(number, offset, places, count, text, sizeof text);
    if (s.number == TNB_ACCEPTED)
        printf("%.*s\n", (int)s.length, (const char *)text);
    else
        printf("refused %d at %zu\n", number, offset);
}

static int refused(uint8_t number, size_t offset)
{
    if (number != TNB_ACCEPTED)
        say(number, offset, NULL, 0);
    return number != TNB_ACCEPTED;
}

int main(void)
{
    tnb_shelf shelf = tnb_new();

    tnb_answer a = tnb_load(shelf, 0, ones, sizeof ones);
    if (refused(a.number, a.offset))
        return 1;
    a = tnb_load(a.shelf, 1, ones, sizeof ones);
    if (refused(a.number, a.offset))
        return 1;
    a = tnb_product(a.shelf, 0, 1, 2);
    if (refused(a.number, a.offset))
        return 1;
    shelf = a.shelf;

    size_t n = tnb_rows(shelf, 2).length;
    printf("%zu rows, within %u unit roundings\n", n, a.bound);
    for (size_t i = 1; i <= n; i++)
        for (size_t j = 1; j <= n; j++) {
            tnb_value b = tnb_factor(shelf, 2, i, j);
            printf("%zu %zu %llu %lld\n", i, j, (unsigned long long)b.mantissa, (long long)b.exponent);
        }

    uint8_t bytes[449];
    tnb_length w = tnb_write(shelf, 2, bytes, sizeof bytes);
    if (refused(w.number, w.offset))
        return 1;
    printf("%zu bytes:", w.length);
    for (size_t k = 0; k < w.length; k++)
        printf(" %02X", bytes[k]);
    printf("\n");

    /* a refusal: the last byte is missing, and the shelf stays as it was */
    a = tnb_load(shelf, 3, ones, sizeof ones - 1);
    refused(a.number, a.offset);
    printf("place 3 holds %zu rows\n", tnb_rows(a.shelf, 3).length);

    /* another, told with the places that were named: places 3 and 2 are multiplied, and place 3 is empty */
    const uint64_t named[] = {3, 2, 4};
    a = tnb_product(shelf, named[0], named[1], named[2]);
    say(a.number, a.offset, named, 3);

    /* a shelf that this library did not make */
    memset(&shelf, 0xff, sizeof shelf);
    w = tnb_write(shelf, 2, bytes, sizeof bytes);
    refused(w.number, w.offset);
    return 0;
}
