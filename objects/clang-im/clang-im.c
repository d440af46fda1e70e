/* Without compressed instructions, by the second compiler: calls and a switch by a table. */
extern int act(int);
static int states[5];
int limit = 30;
int *const where[] = { states, &states[5], &limit };

int choose(int what)
{
    for (int i = 0; i < 5; i++)
        if (states[i] > limit)
            states[i] = act(i);
    switch (what) {
    case 0: return act(5);
    case 1: return act(3) + 1;
    case 2: return act(8) - 7;
    case 3: return act(1) * 3;
    case 4: return act(9) / 5;
    case 5: return act(*where[what & 1]) ^ 6;
    case 6: return act(7) | 8;
    default: return -1;
    }
}
