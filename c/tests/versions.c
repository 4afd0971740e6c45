/*
 * Two versions of the library in one process: a host, linked with a stand-in of 9.0,
 * loads plug-ins that are linked with this one. Each prints the version that it gets.
 */
#include "font_types.h"

#if defined(STAND_IN)
uint32_t fty_version(void) { return 0x090000; }
#elif defined(PLUG_IN)
uint32_t plugged_in(void);
uint32_t plugged_in(void) { return fty_version(); }
#else
#include <dlfcn.h>
#include <stdio.h>

int main(int count, char **paths) {
    printf("%06x", (unsigned)fty_version());
    for (int i = 1; i < count; i++) {
        void *plug_in = dlopen(paths[i], RTLD_NOW);
        if (plug_in == NULL)
            return fprintf(stderr, "%s\n", dlerror()), 1;
        uint32_t (*plugged_in)(void);
        *(void **)&plugged_in = dlsym(plug_in, "plugged_in");
        printf(" %06x", (unsigned)plugged_in());
    }
    return 0;
}
#endif
