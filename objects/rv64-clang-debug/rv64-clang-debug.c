/* Debug sections by the second compiler. */
extern int outer(int);
static long kept;
long add(int a, int b)
{
    int sum = a + b;
    kept += outer(sum);
    return kept;
}
