/* The self-tests of the second program, with fixed seeds. Rests on everything else here. */
#ifndef SELFCHECK_H
#define SELFCHECK_H

/* Prints a line `NAME: cases N wrong M` a test. Status 0 if nothing is wrong. */
int selfcheck(void);

#endif
