struct timespec {
    long tv_sec;
    long tv_nsec;
};
enum { CLOCK_MONOTONIC = 6 };
int clock_gettime(int, struct timespec *);
