/* The second reader of SMT-LIB scripts: see scripts_read.c. */
#ifndef SCRIPTS_READ_H
#define SCRIPTS_READ_H

/* A script from standard input: 0 and the job's bytes on standard output, or 1 and the line `R number place` on standard error. */
int read_script(void);

#endif
