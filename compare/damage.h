/* Reports with one thing wrong, made from a right one, each with the place where a recheck must find it. Rests on answers.h. */
#ifndef DAMAGE_H
#define DAMAGE_H

#include "answers.h"

/* One report to be rechecked. `place` is the first byte of the field at fault; -1: the report is right as well; `sure` is 0
   where a list was changed in a way that may have made another reason: then the fault may also lie later or not be there. */
struct damaged {
    struct bytes report;
    const char *what;
    long place;
    int sure;
};

/* Calls `use` with each report made from the right one `report`. Reports of more than some 200 bytes are cut and changed at
   some of their bytes only. */
void each_damage(const struct job *job, const struct history *history, const struct bytes *report, uint64_t seed,
                 void (*use)(const struct damaged *damaged, void *with), void *with);

#endif
