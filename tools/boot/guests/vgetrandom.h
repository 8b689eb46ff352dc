/* vgetrandom of this machine's vDSO, and pages for its states. The first programs of machines include it. */
#define _GNU_SOURCE
#include <elf.h>
#include <errno.h>
#include <stdint.h>
#include <stdio.h>
#include <string.h>
#include <sys/auxv.h>
#include <sys/mman.h>
#include <sys/reboot.h>
#include <sys/types.h>

#define PAGE 4096

typedef ssize_t (*vgetrandom_t)(void *, size_t, unsigned, void *, size_t);
static vgetrandom_t vgetrandom;
static struct {
    uint32_t size, prot, flags, reserved[13];
} parameters;

static void die(const char *why)
{
    printf("%s: %s\n", why, strerror(errno));
    reboot(RB_POWER_OFF);
}

/* The function's address, from the vDSO's symbol table, which is before the symbols' names. */
static vgetrandom_t find(void)
{
    char *base = (char *)getauxval(AT_SYSINFO_EHDR), *names = 0;
    Elf64_Ehdr *head = (void *)base;
    Elf64_Phdr *part = (void *)(base + head->e_phoff);
    Elf64_Sym *symbol = 0;
    for (int i = 0; i < head->e_phnum; i++)
        if (part[i].p_type == PT_DYNAMIC)
            for (Elf64_Dyn *it = (void *)(base + part[i].p_offset); it->d_tag; it++) {
                if (it->d_tag == DT_SYMTAB)
                    symbol = (void *)(base + it->d_un.d_ptr);
                if (it->d_tag == DT_STRTAB)
                    names = base + it->d_un.d_ptr;
            }
    for (; symbol && (char *)symbol < names; symbol++)
        if (!strcmp(names + symbol->st_name, "__vdso_getrandom"))
            return (vgetrandom_t)(base + symbol->st_value);
    return 0;
}

static void *page(void)
{
    void *found = mmap(0, PAGE, parameters.prot, parameters.flags, -1, 0);
    if (found == MAP_FAILED)
        die("no page for states");
    return found;
}

static void *slot(void *page, int number) { return (char *)page + number * parameters.size; }
