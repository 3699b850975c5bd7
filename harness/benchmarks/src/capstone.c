/* capstone's decoder over a run, instruction after instruction, into one place and without its details: the quickest way that it offers. */
#include <capstone/capstone.h>

size_t capstone_count(const uint8_t *bytes, size_t size, uint64_t address)
{
    csh handle;
    if (cs_open(CS_ARCH_M680X, CS_MODE_M680X_6809, &handle) != CS_ERR_OK)
        return 0;
    cs_insn *read = cs_malloc(handle);
    size_t count = 0;
    while (cs_disasm_iter(handle, &bytes, &size, &address, read))
        count++;
    cs_free(read, 1);
    cs_close(&handle);
    return count;
}
