#ifndef HEADERS_TIME_H
#define HEADERS_TIME_H
typedef long clock_t;
#define CLOCKS_PER_SEC ((clock_t)1000000)
clock_t clock(void);
#endif
