// A type has 4,194,304 words, all globals 3,145,728, the variables of a function 1,000,000, a value 4,096.
struct Whole { int[4194304] a; };
union Same { Whole a; int[2048][2048] b; int c; };
typedef int[4194304] T;
typedef Whole[1]* P;
struct Half { int[2097152] a; };
struct Two { Half a, b; };
struct Value { int[4096] a; };
union Either { Value a; int b; };
struct Large { int[4097] a; Value b; };

int[3145727] most;
int last;

Value passed(Value a) {
    return a;
}

Either either(Either a);

void variables() {
    { int[500000] a; }
    for (int[250000] a; ; ) break;
    switch (1) { default: int[249999] a; }
    int b;
}

void main() {
    Whole* whole = NULL;
    int a = sizeof(Whole) + sizeof(T) + sizeof(Same) + sizeof(Two);
    int[4194304]* pointer = NULL;
    whole->a[4194303] = (*whole).a[0];
    Value v = passed(v);
    v = passed(passed(v));
    Either e;
    e = e;
    Large l, m;
    Large* p = &l;
    Large n = { { 1 }, v };
    l.a[1] = m.a[2];
    (l).a[1] = 2;
    p->a[1] = (*p).a[2];
    l.b = m.b;
    &l;
    &*p;
}
