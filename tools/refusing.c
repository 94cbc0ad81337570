/* Loaded before a program (LD_PRELOAD), this refuses one of the allocations that the program itself asks for: the one
 * whose number the variable REFUSED tells, from 1 on. Those that its libraries ask for aren't counted. Where the variable
 * COUNTED names a file, the number of all of them is written there at the end. tools/robust.py builds and uses it. */
#define _GNU_SOURCE
#include <dlfcn.h>
#include <elf.h>
#include <stdio.h>
#include <stdlib.h>
#include <sys/auxv.h>

void *__libc_malloc(size_t size);
void *__libc_realloc(void *old, size_t size);

static unsigned long counted, refused;
static char *program;

__attribute__((constructor)) static void begin(void) {
  const char *number = getenv("REFUSED");
  refused = number ? strtoul(number, NULL, 10) : 0;
  program = (char *)getauxval(AT_PHDR) - sizeof(Elf64_Ehdr);
}

__attribute__((destructor)) static void end(void) {
  const char *path = getenv("COUNTED");
  unsigned long all = counted;
  FILE *file = path ? fopen(path, "w") : NULL;
  if (file) {
    fprintf(file, "%lu", all);
    fclose(file);
  }
}

static int is_refused(void *caller) {
  Dl_info found;
  if (!program || !dladdr(caller, &found) || found.dli_fbase != program)
    return 0;
  return ++counted == refused;
}

void *malloc(size_t size) {
  return is_refused(__builtin_return_address(0)) ? NULL : __libc_malloc(size);
}

void *realloc(void *old, size_t size) {
  return is_refused(__builtin_return_address(0)) ? NULL : __libc_realloc(old, size);
}
