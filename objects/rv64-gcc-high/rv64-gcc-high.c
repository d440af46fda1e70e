/* The code model of any address above 2^32: pairs, calls, and words of 64 bits. */
extern int outer(int);
extern volatile unsigned port;
static long counter[2];
long limit = 40;
long *where[] = { counter, &limit, (long *)&port };

long step(long by)
{
    counter[by & 1] += by;
    if (counter[0] > limit)
        port = 1;
    return outer(counter[1]) + *where[by % 3];
}
