/* Addresses by HI20 and LO12, calls by CALL, below 2 GiB. */
extern int outer(int);
extern unsigned port;
static long counter[3];
long limit = 40;
long *where[] = { counter, &limit, counter + 3 };

long step(long by)
{
    counter[by % 3] += by;
    if (counter[0] > limit) {
        counter[1] = 0;
        port = 1;
    }
    return outer(counter[2]) + *where[by & 1];
}
