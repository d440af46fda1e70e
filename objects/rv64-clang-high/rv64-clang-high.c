/* The code model of any address above 2^32, with words of 64 bits. */
extern long outer(long);
extern unsigned port;
static long counter[3];
long limit = 40;
long *where[] = { counter, &limit, (long *)&port };

long step(long by)
{
    counter[by % 3] += by;
    if (counter[0] > limit)
        port = 1;
    return outer(counter[2]) + *where[by & 1];
}
