// Two variables take each other's words, in each turn of a loop.
//b 200
//> out 514 1
//> out 514 2
//> out 514 2
//> out 514 1
//> out 514 1
//> out 514 2
//> halted
void main()
{
    int a = 1;
    int b = 2;
    for (int i = 0; i < 3; i++)
    {
        port_out(GPU_ClearColor, a);
        port_out(GPU_ClearColor, b);
        int t = a;
        a = b;
        b = t;
    }
}
