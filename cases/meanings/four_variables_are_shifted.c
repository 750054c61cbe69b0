// Each of four variables takes the word of the one before, and the first one is not read again.
//b 200
//> out 514 2
//> out 514 3
//> out 514 4
//> halted
int x;
void main()
{
    x = 2;
    int a = x;
    int b = a + 1;
    int c = b + 1;
    int d = 9;
    d = c;
    c = b;
    b = a;
    a = 5;
    port_out(GPU_ClearColor, b);
    port_out(GPU_ClearColor, c);
    port_out(GPU_ClearColor, d);
}
