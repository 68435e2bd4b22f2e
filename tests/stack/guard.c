/* Qemu gives a program more stack than its limit says. Loaded before the program, this closes what lies further from the stack's top than STACK_BYTES, so
   that a program which needs more ends by a signal, as it does without qemu. */
#include <stdint.h>
#include <stdio.h>
#include <stdlib.h>
#include <sys/mman.h>

__attribute__((constructor)) static void guard(void)
{
    char line[512];
    unsigned long here = (unsigned long)(uintptr_t)line, from, to;
    unsigned long bytes = strtoul(getenv("STACK_BYTES"), NULL, 10);
    FILE *maps = fopen("/proc/self/maps", "r");
    while (fgets(line, sizeof line, maps))
        if (sscanf(line, "%lx-%lx", &from, &to) == 2 && from <= here && here < to && to - from > bytes
            && mprotect((void *)from, (to - bytes - from) & ~4095ul, PROT_NONE))
            abort();
    fclose(maps);
}
