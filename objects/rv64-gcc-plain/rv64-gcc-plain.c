/* Addresses by HI20 and LO12, calls, data words of 64 bits: code without markers, below 2 GiB. */
extern int outer(int);
extern volatile unsigned port;
static long counter;
long limit = 40;
long *where[] = { &counter, &limit, &limit + 1, (long *)&port };
int (*const call)(int) = outer;

long step(long by)
{
    counter += by;
    if (counter > limit) {
        counter = 0;
        port = 1;
    }
    return outer(counter) + *where[by & 3];
}

void spin(void)
{
    while (port == 0)
        step(1);
}
