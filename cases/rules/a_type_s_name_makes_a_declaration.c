// With the name of a type a star declares a pointer, with that of a variable it multiplies.
typedef int t;

void f() {
    t * p;
    p = NULL;
}

void main() {
    int u = 2, p = 3;
    u * p;
    p = 4;
}
