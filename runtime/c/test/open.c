/* open NAME PACK ..: opens each pack for a node, and writes what cpgc says of it: `ok`, or the words after `cpgc: `. */
#include "host.h"

#include <inttypes.h>
#include <stdio.h>
#include <string.h>

static cpg_opened opened;

static void tell(cpg_status status)
{
    switch (status) {
    case CPG_OK:
        (void)printf("ok\n");
        break;
    case CPG_PACK:
        (void)printf("refused 10 pack %" PRIu32 "\n", opened.bad);
        break;
    case CPG_LONG:
        (void)printf("refused 16 long pack\n");
        break;
    case CPG_NODE:
        (void)printf("refused 19 node\n");
        break;
    default:
        (void)printf("full at %" PRIu32 "\n", opened.bad);
        break;
    }
}

int main(int count, char **words)
{
    if (count < 3) {
        (void)fprintf(stderr, "open NAME PACK ..\n");
        return 1;
    }
    for (int i = 2; i < count; i++) {
        uint32_t size;
        const uint8_t *pack = host_file(words[i], &size);
        tell(cpg_open(&opened, pack, size, words[1], (uint32_t)strlen(words[1])));
    }
    return 0;
}
