/* Relaxable code above 2^32: pairs of PCREL_HI20 and PCREL_LO12 with their marks. */
extern void send(char);
extern int ready;
static char buffer[33];
static unsigned long length;

void put(char c)
{
    if (length < sizeof buffer)
        buffer[length++] = c;
}

long flush(void)
{
    unsigned long sent = 0;
    while (sent < length && ready)
        send(buffer[sent++]);
    length = 0;
    return sent;
}
