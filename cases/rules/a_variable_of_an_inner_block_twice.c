void main() {
    {
        int a;
        int a; // error 41
    }
}
