/* Porter's own program, from the shared library in which Debian's ruby-fast-stemmer has it. */

#include "programs.h"

#ifdef PORTERS
#include <dlfcn.h>
#include <stdio.h>

static void *state;
static int (*stem)(void *state, char *letters, int last); /* from and to the place of the last letter */

int open_porters(void)
{
    void *library = dlopen(PORTERS, RTLD_NOW);
    void *(*create)(void) = library ? (void *(*)(void))dlsym(library, "create_stemmer") : 0;
    stem = library ? (int (*)(void *, char *, int))dlsym(library, "stem") : 0;
    if (!create || !stem || !(state = create())) {
        printf("bench: Porter's own program could not be opened in %s\n", PORTERS);
        return 0;
    }
    return 1;
}

int porters_stem(char *letters, int length)
{
    return stem(state, letters, length - 1) + 1;
}
#else
int open_porters(void)
{
    return 0;
}
#endif
