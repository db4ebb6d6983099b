// In the form of libtock-c's tests of nonvolatile storage: what is written is read again, and what is outside refused.

#include <stdint.h>
#include <stdio.h>
#include <string.h>

#include <libtock-sync/storage/nonvolatile_storage.h>

static int test(uint8_t *readbuf, uint8_t *writebuf, size_t size, size_t offset, size_t len)
{
    printf("Test with size %zu ...\n", size);
    for (size_t i = 0; i < len; i++) {
        writebuf[i] = i;
    }
    int count;
    returncode_t ret = libtocksync_nonvolatile_storage_write(offset, len, writebuf, size, &count);
    if (ret != RETURNCODE_SUCCESS) {
        printf("\tERROR calling write: %s\n", tock_strrcode(ret));
        return ret;
    }
    ret = libtocksync_nonvolatile_storage_read(offset, len, readbuf, size, &count);
    if (ret != RETURNCODE_SUCCESS) {
        printf("\tERROR calling read: %s\n", tock_strrcode(ret));
        return ret;
    }
    if (count != (int)len || memcmp(readbuf, writebuf, len) != 0) {
        printf("\tInconsistency\n");
        return -1;
    }
    return 0;
}

int main(void)
{
    uint8_t readbuf[512], writebuf[512];
    uint32_t num_bytes;
    printf("[Nonvolatile Storage] Test App\n");
    if (!libtock_nonvolatile_storage_exists()) {
        printf("Nonvolatile storage driver does not exist.\n");
        return -1;
    }
    libtock_nonvolatile_storage_get_number_bytes(&num_bytes);
    printf("Have %lu bytes of nonvolatile storage\n", (unsigned long)num_bytes);

    int ret = test(readbuf, writebuf, 256, 0, 14);
    ret = ret ? ret : test(readbuf, writebuf, 512, 20, 512 - 20);
    if (ret == 0 && test(readbuf, writebuf, 512, num_bytes, 1) != 0) {
        printf("All tests succeeded\n");
    }
    return ret;
}
