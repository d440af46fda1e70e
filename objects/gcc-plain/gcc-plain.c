/* Addresses by HI20 and LO12, calls, data words: code without markers. */
extern int outer(int);
extern volatile unsigned port;
static int counter;
int limit = 40;
int *where[] = { &counter, &limit, &limit + 1, (int *)&port };
int (*const call)(int) = outer;

int step(int by)
{
    counter += by;
    if (counter > limit) {
        counter = 0;
        port = 1;
    }
    return outer(counter) + *where[by & 3];
}

void spin(void)
{
    while (port == 0)
        step(1);
}
