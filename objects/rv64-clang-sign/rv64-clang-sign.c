/* Addresses by HI20 and LO12 in the upper 2 GiB: LUI extends the sign. */
extern int outer(int);
extern unsigned port;
static long counter[3];
long limit = 40;
long *where[] = { counter, &limit, counter + 3 };

long step(long by)
{
    counter[by % 3] += by;
    if (counter[0] > limit)
        port = 1;
    return outer(counter[2]) + *where[by & 1];
}
