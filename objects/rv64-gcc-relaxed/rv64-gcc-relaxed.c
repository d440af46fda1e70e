/* Relaxable code of compressed instructions: branches and jumps keep their relocations. */
extern void send(char);
static char buffer[33];
static unsigned long length;

void put(char c)
{
    if (length < sizeof buffer)
        buffer[length++] = c;
}

long flush(int how)
{
    unsigned long sent = 0;
    for (unsigned long i = 0; i < length; i++) {
        if (how && buffer[i] == '\n') {
            send('\r');
            sent++;
        }
        send(buffer[i]);
        sent++;
    }
    while (length > 0)
        buffer[--length] = 0;
    return sent;
}
