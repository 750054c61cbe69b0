enum E { A, B, };
union U { int a; int* b, c; };
struct S { U u; int[2] v; S*[2] next; };
typedef int* to_int;
typedef to_int[3]* rows;
int*[3] of_pointers;
int[3]* to_array;
int[3]*[2] of_pointers_to_arrays;
int** twice, thrice;
bool flag = true, other = false;

void f();
void f(void);
int g(int a, bool b, void* c, S* d, E e);
void*[2]* pointer();

void f(void) { ; { } }

int g(int a, bool b, void* c, S* d, E e) {
    return - + ! ~ - -a + *&a * (a) - (int) - (bool) !b;
}

void main() {
    to_int t;
    int p = 1, q = 2;
    p * q;
    S s;
    S* r = &s;
    r->next[0]->next[1]->v[p++]--;
    (*r).u.b = (int*) (void*) &s.v;
    *r->u.b = -1;
    (*(r)).v[0] = ((1));
    p = q = 3;
    p += q -= 1;
    p = p < q == q > p;
    p = p || q && p | q ^ p & q == p < q << p + q * -p;
    if (p) if (q) p = 1; else q = 1;
    if (p) { } else if (q) ; else { }
    for (int i = 0, j = 1; i < j; i++) ;
    for (p = 0; ; ) break;
    for (; ; ) { break; }
    do { } while (0);
    do do ; while (0); while (0);
    while (0) while (0) ;
    switch (p) { }
    switch (p) { q = 1; default: case 1: case 2: q = 2; { break; } case 3: }
    g(p, q, t, r, B);
    f();
    return;
}
