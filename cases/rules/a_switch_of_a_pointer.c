void main() {
    int* p;
    switch (p) { } // error 42
}
