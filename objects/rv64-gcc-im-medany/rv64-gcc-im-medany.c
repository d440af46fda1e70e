/* Without compressed instructions: medany code, calls of functions and through pointers. */
extern int outer(int);
static int inner(int, int);
static int (*const act[])(int) = { outer, outer };
static short states[7] = { 1, 2 };
struct { char mark; int *where; } __attribute__((packed)) link = { 7, (int *)&states[1] };

__attribute__((noinline)) static int inner(int a, int b)
{
    for (int i = 0; i < b; i++)
        if (states[i] > a)
            return outer(i);
    return -1;
}

int run(int a)
{
    int sum = 0;
    for (int i = 0; i < 7; i++) {
        states[i] += a;
        sum += inner(a, i) + act[i & 1](sum);
    }
    return sum + *link.where;
}
