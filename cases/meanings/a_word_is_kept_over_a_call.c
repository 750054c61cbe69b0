// A call makes its own target alone: what is known of other variables is known behind it.
//b 100
//> out 514 4
//> out 514 9
//> halted
int twice(int x) { return x + x; }
void main()
{
    int a = 5;
    int b = twice(2);
    port_out(GPU_ClearColor, b);
    port_out(GPU_ClearColor, a + b);
}
