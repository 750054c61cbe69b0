// The parameters of a function do not count as its variables.
struct Wide { int[4096] words; };

void fill(Wide w, int n) {
    int[1000000] all;
}

void main() {
}
