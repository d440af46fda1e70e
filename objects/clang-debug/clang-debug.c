/* Debug sections by the second compiler, relaxable code. */
extern int outer(int);
static int kept;
int add(int a, int b)
{
    int sum = a + b;
    kept += outer(sum);
    return kept;
}
