// A pointer needs no size, and a structure may be declared before it is whole.
struct A { A* a; };
struct B;
struct B;
union C;
typedef B Named;

B* first(B* b);
void takes(Named* b, C* c);
int compares(B* a, B* b) {
    B** p = &a;
    *p = b;
    p++;
    Named* named = (Named*) a;
    named = &*b;
    return a == b || a < b || a == NULL || !a;
}

struct D { B* b; B*[3] bs; C* c; };

struct B { int a; D d; B* next; };
struct B;
union C { int a; B b; C* c; };

B* first(B* b) {
    return b->next;
}

int reads(B b, C* c) {
    b.d.b = &b;
    return b.a + b.next->a + c->b.d.c->a + sizeof(Named) + sizeof(C);
}

B result(B* b) {
    return *b;
}

typedef int[3] row;
typedef row[2] rows;
typedef row* to_row;
typedef B* to_b;

void main() {
    B b;
    rows r;
    to_row p = &r[1];
    to_b q = &b;
    r[1][2] = (*p)[0];
    b = result(q);
    b.a = reads(b, NULL);
    int[sizeof(rows) == 6] six;
    row v = { 1, 2, 3 };
}
