/* A block's rows by pages, and a number in groups of seven bits. */
#include <barcovento.h>
#include <stdio.h>

int main(void)
{
    /* One column, INT NOT NULL, and the rows 5 and -1. */
    const uint8_t schema[] = {1, 3, 0};
    const uint8_t block[] = {0, 5, 0, 0, 0, 0, 0xFF, 0xFF, 0xFF, 0xFF, 0, 0, 0, 0, 5, 0, 0, 0, 2, 0, 0, 0};
    uint32_t place = 0, given, rows;
    uint64_t list[6]; /* room for two rows: three numbers for each field */
    while (bv_block_page(schema, sizeof schema, block, sizeof block, &place, list, 6, &given, &rows) == 0 && given > 0)
        for (uint32_t i = 0; i < given; i++)
            printf("kind %d, %lld\n", (int)list[3 * i], (long long)list[3 * i + 1]);

    const uint8_t five[] = {0x85, 0x80, 0x80, 0x80, 0x00}; /* padded */
    uint8_t found, shortest;
    uint32_t value, used;
    bv_number_read(five, sizeof five, &found, &value, &used, &shortest);
    if (found == BV_NUMBER)
        printf("%u in %u bytes, shortest %d\n", (unsigned)value, (unsigned)used, shortest);
    return 0;
}
