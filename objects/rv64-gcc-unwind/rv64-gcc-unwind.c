/* Unwind tables: .eh_frame with its advances. */
extern int act(int *);
int one(int x)
{
    int box[4] = { x, x + 1 };
    return act(box) + box[1];
}
int two(int x)
{
    int box[64];
    for (int i = 0; i < 64; i++)
        box[i] = x + i;
    return act(box) + act(box + x) + one(x);
}
