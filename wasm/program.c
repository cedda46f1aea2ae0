// What the program's start asks of the C library: that a signal is ignored. A page has no signals.

typedef unsigned long u64;

u64 __sysv_signal(int number, u64 handler) {
    (void)number;
    (void)handler;
    return 0;
}
