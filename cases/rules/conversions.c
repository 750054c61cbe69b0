// What becomes what: numbers each other, pointers and void pointers each other, an array a pointer, a structure its own type.
enum E { A, B };
enum F { C };
struct S { int a; bool b; };
union U { S s; int i; };

int number(int a) {
    return a;
}

bool truth(bool a) {
    return a;
}

E enumeration(E a) {
    return a;
}

int* pointer(int* a) {
    return a;
}

void* anywhere(void* a) {
    return a;
}

S structure(S a) {
    return a;
}

U either(U a) {
    return a;
}

int from_truth(bool a) { return a; }
int from_enumeration(E a) { return a; }
bool from_number(int a) { return a; }
F from_other(E a) { return a; }
void* from_pointer(int* a) { return a; }
int* from_anywhere(void* a) { return a; }
int* from_nothing() { return NULL; }
int* from_text() { return "text"; }

void main() {
    int n = 1;
    bool b = n;
    E e = n;
    F f = e;
    n = b; n = e; n = A; n = true; n = 'a';
    b = e; b = 7; e = b; e = C; f = 12; f = e;
    n = number(b) + truth(n) + enumeration(f);
    int[3] v;
    int[2][3] w;
    int* p = v;
    int** pp = &p;
    void* q = pp;
    void** qq = q;
    S s, t;
    S* sp = &s;
    U u, x;
    p = w[1]; p = "text"; p = NULL; p = q; p = &v[1]; p = v;
    q = p; q = v; q = w; q = "text"; q = NULL; q = sp; q = &u; q = qq; q = &q; q = &v;
    pp = q; pp = NULL; sp = q; sp = NULL;
    int[3]* rows = w;
    int[3]* row = &v;
    rows = row + 1;
    p = *rows;
    p = pointer(v); p = pointer(q); p = anywhere(rows); q = anywhere(p);
    s = t; s = *sp; s = structure(t); u = x; u.s = s; s = u.s; u = either(u);
    int a = number('a');
    int* from = from_text();
    S copied = s;
    U same = either(u);
    S[2] several;
    several[1] = several[0];
    *sp = several[1];
    sp = several;
    n = (int) b; b = (bool) 5; e = (E) 12; f = (F) e; n = (int) A;
    p = (int*) q; p = (int*) sp; sp = (S*) p; pp = (int**) p; q = (void*) v; p = (int*) "text"; p = (int*) NULL; p = (int*) w;
    rows = (int[3]*) v;
    E* ep = (E*) p;
    bool* bp = (bool*) &n;
}
