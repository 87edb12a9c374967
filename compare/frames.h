/* Streams of frames between make_jobs, a test program and this one. All numbers have their high byte first.

   From make_jobs, and from `second damage`, to a test program:
     J len4 bytes          a job: run it, and recheck what the run wrote
     P len4 bytes          a report: recheck it against the last job
   From a test program to `second frames`:
     J len4 bytes          the job that what follows is about
     L room4 places4 work4 optional: the loans for it, report room and lengths of both tables; without it 60,000, 4,000, 32,768
     R number2 place4 length4 bytes   the run's answer, and the report's bytes
     P len4 bytes          another report
     C number2 place4      what the recheck said of the report that came last, by R or by P
     X                     the test program saw that a table or the room did not end as it must: always wrong
   Rests on answers.h and damage.h. */
#ifndef FRAMES_H
#define FRAMES_H

/* Judges a test program's stream on standard input; prints `cases N wrong M` and the first few wrong ones. Status: 0 if none
   is wrong, 1 if some are, 2 if the stream is broken or holds no case. */
int frames_judge(void);

/* Puts behind each job of the stream on standard input damaged reports. */
int frames_damage(unsigned long long seed);

/* Answers the stream on standard input as a test program does, by use lists. With `lie` above 0, every lie-th answer is wrong.
   Says on standard error how many answers and lies there were. */
int frames_play(long lie);

#endif
