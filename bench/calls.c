/* Calls itself, for ever: Fibonacci's numbers by their definition. */
static unsigned fibonacci(unsigned n)
{
    return n < 2 ? n : fibonacci(n - 1) + fibonacci(n - 2);
}

static volatile unsigned found;

void _start(void)
{
    for (;;)
        found = fibonacci(24);
}
