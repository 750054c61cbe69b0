void main() {
    for (int a = 0, a = 1; ; ) break; // error 41
}
