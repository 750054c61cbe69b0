void main()
{
    break;
}
