/* Records that can't be opened or written: each call may come nevertheless, and the record is closed as failed.

       broken PATH MUTATORS [EVENT]

   Opens a record at the path, and where that works writes the event and one more. Prints how open and close end, and close once more. */
#include "../../recorder/g1record.h"
#include <string.h>

static unsigned roots(void *heap, int m) {
    (void)heap;
    (void)m;
    return 1;
}
static void *root(void *heap, int m, unsigned i) {
    (void)heap;
    (void)m;
    (void)i;
    return NULL;
}

int main(int count, char **words) {
    g1record_view view = {NULL, roots, root, NULL, NULL, NULL, NULL, NULL, NULL, NULL};
    g1record r;
    int opened;
    if (count < 3) return 2;
    memset(&r, 0xff, sizeof r);
    opened = g1record_open(&r, words[1], 1000, (unsigned)strtoul(words[2], NULL, 10), 1, 4);
    if (count > 3) g1record_event(&r, "%s", words[3]);
    g1record_new(&r, 0, 0, 1, 1);
    if (opened != 0) g1record_walk(&r, &view);
    printf("%d %d", opened, g1record_close(&r));
    printf(" %d\n", g1record_close(&r));
    return 0;
}
