int fib(int n)
{
    if (n < 2) return n;
    return fib(n - 1) + fib(n - 2);
}
void main() { port_out(GPU_ClearColor, fib(16)); }
