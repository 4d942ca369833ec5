#ifndef TIME_H
#define TIME_H
typedef long time_t, clock_t;
time_t time(time_t *to);
clock_t clock(void);
#define CLOCKS_PER_SEC ((clock_t)1000000)
#endif
