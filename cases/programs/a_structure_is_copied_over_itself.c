// A structure is copied as it was, also to a place that overlaps it, and what is used behind the copy is as before.
//> out 0x202 0x00AB6D12
//> out 0x202 0x00000005
//> halted
struct S { int[5] w; };
void main()
{
    int[8] a;
    for (int i = 0; i < 8; i++) a[i] = i + 1;
    S* p = (S*)&a[0];
    S* q = (S*)&a[1];
    *q = *p;
    int all = 0;
    for (int i = 0; i < 8; i++) all = all * 10 + a[i];
    port_out(GPU_ClearColor, all);
    port_out(GPU_ClearColor, q->w[4]);
}
