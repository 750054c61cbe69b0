void main() {
    int[2] v;
    int[v[0]] a; // error 48
}
