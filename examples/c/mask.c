/* A mask written, asked, damaged, explained; two nights combined. */
#include <barcovento.h>
#include <stdio.h>
#include <stdlib.h>
#include <string.h>

/* The bytes of a sample; its length into *size. */
static uint8_t *sample(const char *folder, const char *name, size_t *size)
{
    char path[4096];
    snprintf(path, sizeof path, "%s/%s", folder, name);
    FILE *file = fopen(path, "rb");
    uint8_t *bytes = (uint8_t *)malloc(65536);
    if (file == NULL || bytes == NULL) {
        perror(path);
        exit(2);
    }
    *size = fread(bytes, 1, 65536, file);
    fclose(file);
    return bytes;
}

static void one_mask(void)
{
    const uint32_t positions[] = {0, 34, 255};
    uint8_t mask[64];
    size_t size;
    if (bv_bitmap_write(positions, 3, mask, sizeof mask, &size) == 0) {
        uint8_t member;
        uint32_t below;
        bv_bitmap_probe(mask, size, 34, &member);
        bv_bitmap_rank(mask, size, 34, &below);
        printf("%zu bytes, 34: member %d, rank %u\n", size, member, (unsigned)below);
    }

    uint32_t number;
    size_t index, byte, found, wanted;
    mask[10] = 0; /* 00 00 FF does not rise */
    bv_bitmap_explain(mask, size, &number, &index, &byte, &found, &wanted);
    printf("refused %u: container %zu at byte %zu\n", (unsigned)number, index, byte);
}

static void two_nights(const char *folder)
{
    size_t a_size, b_size, size;
    uint8_t *a = sample(folder, "night-1.bitmap", &a_size);
    uint8_t *b = sample(folder, "night-2.bitmap", &b_size);
    uint8_t *changed = (uint8_t *)malloc(65536);
    uint32_t status = bv_bitmap_symmetric_difference(a, a_size, b, b_size, changed, 65536, &size);
    if (status == 0) {
        uint32_t place = 0, given, list[1000];
        uint8_t finished = 0;
        while (bv_bitmap_page(changed, size, &place, &finished, list, 1000, &given) == 0 && given > 0)
            printf("%u pixels, the first at (%u, %u)\n", (unsigned)given, (unsigned)(list[0] % 640),
                   (unsigned)(list[0] / 640));
    }
    free(a);
    free(b);
    free(changed);
}

int main(int count, char **words)
{
    one_mask();
    two_nights(count > 1 ? words[1] : "../../samples");
    return 0;
}
