void main() {
    for (int a; ; )
        int a; // error 41
}
