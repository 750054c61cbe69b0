struct S { int a; };
S s;
void main()
{
    if (s) halt();
}
