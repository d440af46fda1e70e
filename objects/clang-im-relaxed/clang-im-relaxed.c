/* Without compressed instructions, relaxable code by the second compiler: branches and jumps keep
   their relocations. */
extern void send(int);
extern int receive(void);
static int queue[16];
static unsigned head, tail;

int push(int what)
{
    if (tail - head >= 16)
        return 0;
    queue[tail++ % 16] = what;
    return 1;
}

int serve(int most)
{
    int done = 0;
    while (head != tail && done < most) {
        int what = queue[head++ % 16];
        if (what < 0) {
            do
                send(what);
            while (receive() == 0);
        } else if (what > 100)
            done += receive();
        done++;
    }
    return done;
}
