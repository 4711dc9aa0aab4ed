/* An event whose format asks for a number and gets a text: a compiler that checks formats refuses it. With -DRIGHT it gets a number. */
#include "../../recorder/g1record.h"

void tell(g1record *r);
void tell(g1record *r) {
#ifdef RIGHT
    g1record_event(r, "%u drop r%u = ok", 0u, 1u);
#else
    g1record_event(r, "%u drop r%u = ok", 0u, "1");
#endif
}
