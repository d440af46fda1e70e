/* Loads and stores of floating-point registers by the second compiler, above 2^32. */
extern float outer;
static double gain = 1.5;
double total;
double scale(double x)
{
    double y = x * gain + 0.3;
    gain = total;
    total += y;
    outer = (float)y;
    return y / 3.0;
}
