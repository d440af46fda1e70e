/* Atomic operations and shared counters, relaxable, at 2 GiB. */
extern long outer;
static long turns;
static int locks[3];

int take(int which)
{
    if (__atomic_exchange_n(&locks[which], 1, __ATOMIC_ACQUIRE))
        return 0;
    __atomic_fetch_add(&turns, 1, __ATOMIC_RELAXED);
    __atomic_fetch_or(&outer, 1L << which, __ATOMIC_SEQ_CST);
    return 1;
}

void give(int which)
{
    __atomic_store_n(&locks[which], 0, __ATOMIC_RELEASE);
}
