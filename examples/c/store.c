/* Two owners share a store; it is saved and loaded. */
#include <barcovento.h>
#include <stdio.h>

int main(void)
{
    uint8_t buffer[45], out[22], saved[128]; /* halves of 22 bytes */
    uint32_t directory[BV_STORE_DIRECTORY] = {0};
    size_t length;
    const uint8_t zero[] = {1, 1, 0, 0, 2, 0, 0x10, 1, 0, 0, 0x80, 0}; /* {0} as another writer has it */
    const uint8_t zone[] = {1, 3, 0, 0, 1, 0, 0, 0, 3, 0, 34, 255};

    /* Slot 7 is owner 0's, slot 40 is owner 1's. */
    printf("put: %u\n", (unsigned)bv_store_put(buffer, sizeof buffer, directory, 128, 0, 7, zero, sizeof zero));
    printf("put: %u\n", (unsigned)bv_store_put(buffer, sizeof buffer, directory, 128, 1, 7, zero, sizeof zero));
    printf("put: %u\n", (unsigned)bv_store_put(buffer, sizeof buffer, directory, 128, 1, 40, zone, sizeof zone));

    bv_store_fetch(buffer, sizeof buffer, directory, 128, 0, 7, out, sizeof out, &length);
    printf("slot 7: %zu bytes\n", length);

    bv_store_save(buffer, sizeof buffer, directory, 128, saved, sizeof saved, &length);
    printf("saved: %zu bytes\n", length);
    printf("load: %u\n", (unsigned)bv_store_load(buffer, sizeof buffer, directory, 128, saved, length));
    printf("drop: %u\n", (unsigned)bv_store_drop(buffer, sizeof buffer, directory, 128, 1, 40));
    printf("fetch: %u\n", (unsigned)bv_store_fetch(buffer, sizeof buffer, directory, 128, 1, 40, out, sizeof out, &length));
    return 0;
}
