/* Addresses by HI20 and LO12 in the upper 2 GiB: LUI extends the sign. */
extern int outer(int);
extern volatile unsigned port;
static long counter[3];
long limit = 40;
long *where[] = { counter, &limit, &limit + 1, (long *)&port };

long step(long by)
{
    counter[by & 1] += by;
    if (counter[0] > limit) {
        counter[2] = 0;
        port = 1;
    }
    return outer(counter[1]) + *where[by & 3];
}
