void main()
{
    int a = 1.5;
}
