// A local whose address stands in a local whose address is taken: each becomes a temporary only where the copies of its address are gone.
//b 100
//> out 514 7
//> out 514 8
//> halted
void main()
{
    int x = 6;
    int* p = &x;
    int** q = &p;
    int** r = q;
    **r = 7;
    port_out(GPU_ClearColor, x);
    x = x + 1;
    port_out(GPU_ClearColor, **q);
}
