void main()
{
    int a = 1
    a = 2;
}
