void main() {
    int[2] v;
    switch (1) {
        case v[0]: ; // error 48
    }
}
