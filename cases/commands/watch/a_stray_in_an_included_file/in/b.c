







int wrong()
{
    int x;
    return x;
}
