/* Without compressed instructions: loops, calls and a switch by a table, in relaxable code. */
extern void send(int);
extern int receive(void);
static int queue[16];
static unsigned head, tail;
int limit = 12;
int *const ends[] = { queue, &queue[16], &limit };

int push(int what)
{
    if (tail - head >= (unsigned)limit)
        return 0;
    queue[tail++ % 16] = what;
    return 1;
}

int serve(void)
{
    int done = 0;
    while (head != tail) {
        int what = queue[head++ % 16];
        switch (what & 7) {
        case 0: send(5); break;
        case 1: send(receive()); break;
        case 2: done += 3; break;
        case 3: send(*ends[done % 3]); break;
        case 4: done -= receive(); break;
        case 5: return done;
        default: send(what / 10);
        }
        done++;
    }
    return done;
}
