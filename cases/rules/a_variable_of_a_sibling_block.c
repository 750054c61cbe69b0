void main() {
    {
        int a;
    }
    {
        a = 1; // error 40
    }
}
