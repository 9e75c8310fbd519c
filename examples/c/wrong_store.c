/* A reset that stores the State Table entry in parts of PART bits before the library stores it whole: what one_store and
   region_stores have to find. Linked with --wrap=ivshmem_reset. */
#include "ivshmem.h"

#define JOINED(a, b, c) a##b##c
#define UNSIGNED(bits) JOINED(uint, bits, _t)

ivshmem_counted __real_ivshmem_reset(uint32_t *hub, size_t hub_words, uint8_t *region, size_t region_bytes,
                                     ivshmem_delivery *table, size_t records, uint64_t id);
ivshmem_counted __wrap_ivshmem_reset(uint32_t *hub, size_t hub_words, uint8_t *region, size_t region_bytes,
                                     ivshmem_delivery *table, size_t records, uint64_t id);

ivshmem_counted __wrap_ivshmem_reset(uint32_t *hub, size_t hub_words, uint8_t *region, size_t region_bytes,
                                     ivshmem_delivery *table, size_t records, uint64_t id)
{
    volatile UNSIGNED(PART) *const entry = (volatile UNSIGNED(PART) *)(region + 4 * id);

    for (size_t i = 0; i < (PART < 32 ? 32 / PART : 1); i++)
        entry[i] = 0;
    return __real_ivshmem_reset(hub, hub_words, region, region_bytes, table, records, id);
}
