/* Debug sections: their relocations do not count, since no such section is allocated. */
extern int outer(int);
static long kept;
long add(int a, int b)
{
    int sum = a + b;
    kept += outer(sum);
    return kept;
}
