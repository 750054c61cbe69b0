void main()
{
    int* p = "abc;
}
