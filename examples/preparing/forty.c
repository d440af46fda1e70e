/* Forty functions of three statements, with calls and externals. */
extern volatile unsigned port[104];
extern unsigned measure(unsigned place, unsigned weight);
extern void report(unsigned place, unsigned value);

#define FUNCTION(n)                                         \
    unsigned step##n(unsigned weight, unsigned most)        \
    {                                                       \
        unsigned old = port[n], now = measure(n, weight);   \
        report(n, now > most ? most : now - old);           \
        return port[n] = measure(now, old) + weight;        \
    }
#define FOUR(n) FUNCTION(n##0) FUNCTION(n##1) FUNCTION(n##2) FUNCTION(n##3)

FOUR(1) FOUR(2) FOUR(3) FOUR(4) FOUR(5) FOUR(6) FOUR(7) FOUR(8) FOUR(9) FOUR(10)
