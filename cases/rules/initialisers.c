// Constants, NULL, texts and lists of these fill globals.
enum E { A = 3, B };
struct S { int a; bool b; E e; };
struct T { S s; int[3] v; int* p; };
union U { int[2] a; bool b; };
struct Q { int a; int[3] b; };

int one = 1, two = 1 + 1, three = A, four = B, size = sizeof(T) * -2;
bool truth = 7;
E e = A | 8;
int* nothing = NULL;
int* text = "text";
int* bracketed = ("text");
void* anywhere = "text";
int** deep = NULL;
S* structure = NULL;
int[4] letters = "abc";
int[4] in_brackets = ("abc");
int[9] longer = "abc";
int[1] empty = "";
int[3] numbers = { 1, 2 };
int[3] all = { 1, 2, 3, };
int[2][3] rows = { { 1, 2, 3 }, { 4 } };
int[2][4] words = { "abc", "" };
int*[2] pointers = { "abc", NULL };
S s = { 1, true, B };
S less = { 1 };
T t = { { 1, 2 }, { 3, 4, 5 }, "text" };
T u = { { 1 }, "ab" };
U first = { { 1, 2 } };
U from_text = { "a" };
S[2] several = { { 1 }, { 2, 3, 4 } };
int not_filled;

S made(int a) {
    S s = { a, a > 1, a };
    return s;
}

void main() {
    int a = a;
    int b = one + made(two).a, c = b;
    bool d = b && c;
    int* p = &b, q = p + 1;
    int** pp = &p;
    int[3] v = { b, made(c).a, *p++ };
    int[3][2] w = { { b, c }, { d } };
    int[4] letters = "abc";
    S copied = made(3);
    S again = copied;
    S[3] three = { copied, { 1, 2 }, made(4) };
    T t = { copied, { 1 }, v };
    T other = { made(1), "ab", "text" };
    U u = first;
    U[2] us = { u, { { 1 } } };
    p = v;
}
