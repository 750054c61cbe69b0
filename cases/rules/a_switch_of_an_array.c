void main() {
    int[2] v;
    switch (v) { } // error 42
}
