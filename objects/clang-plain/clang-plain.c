/* Addresses by HI20 and LO12, calls by CALL. */
extern int outer(int);
extern unsigned port;
static int counter[3];
int limit = 40;
int *where[] = { counter, &limit, counter + 3 };

int step(int by)
{
    counter[by % 3] += by;
    if (counter[0] > limit) {
        counter[1] = 0;
        port = 1;
    }
    return outer(counter[2]) + *where[by & 1];
}
