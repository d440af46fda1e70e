/* Relaxable code by the second compiler. */
extern void send(char);
static char buffer[33];
static unsigned long length;

void put(char c)
{
    if (length < sizeof buffer)
        buffer[length++] = c;
}

long flush(int how)
{
    unsigned long sent = 0;
    for (unsigned long i = 0; i < length; i++) {
        if (how && buffer[i] == '\n')
            send('\r');
        send(buffer[i]);
        sent++;
    }
    length = 0;
    return sent;
}
