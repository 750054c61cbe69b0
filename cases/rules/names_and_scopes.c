// Each name is declared before its use, and hides what has its name outside.
int a = 1, b;
enum E { red, green = 5, blue };
struct S { int a, b, red, main, S2; };
struct T { int a; S s; };
union U { int a; bool b; };
typedef int number;

int twice(int a) {
    return a + a;
}

void hides(int hides, int twice, bool red) {
    hides = twice + red;
    {
        int hides = 2;
        bool twice = hides;
        {
            S main;
            main.main = twice;
        }
    }
}

void scopes(int parameter) {
    int a = a;
    { int b = a; }
    { bool b = a; }
    { int parameter; }
    for (int i = 0; i < 3; ++i) ;
    for (int i = 0; i < 3; ++i) { int i = 5; }
    for (int a = parameter; a < 3; ++a) {
        int* b = &a;
    }
    bool i;
    switch (a) {
        case 1: int c = 1; { int c = 2; }
        case 2: c = 3; break;
        default:
    }
    int c;
    if (a) int d = 1; else int e = d;
    while (0) int f = e;
    e = f;
    do { int c; } while (c);
    do int g; while (g);
    switch (a) { case 1: ; { switch (a) { case 1: ; default: ; } } default: ; }
    int green, blue, E2;
    int halt, port_in;
    halt = port_in;
    wait_frame();
}

void main() {
    int main = red + green * 2 - blue;
    number n = twice(twice(main));
    hides(n, b, false);
    scopes(a);
    T t;
    t.a = 1;
    t.s.S2 = t.a;
    T* p = &t;
    p->s.red = (*p).s.a;
    U u;
    u.a = u.b;
}
