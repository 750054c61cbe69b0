// The parameters of a function do not count as its variables.
void fill(int n) {
    int[999999] all;
    int[2] more; // error 50
}

void main() {
}
