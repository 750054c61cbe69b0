// Each operator on what it takes.
enum E { A, B };
struct S { int a; S* next; int[2] v; };
struct Unknown;

S value() {
    S s;
    return s;
}

void main() {
    int n;
    bool b;
    E e;
    int[4] v;
    int[4][5] w;
    int* p = v;
    int* q = &v[2];
    void* any = p;
    S s;
    S* sp = &s;
    Unknown* unknown = NULL;
    Unknown** known = &unknown;
    n = -n; n = +b; n = ~e; n = -A; n = ~true; n = - -n;
    b = !n; b = !p; b = !v; b = !any; b = !NULL; b = !"text"; b = !e; b = !unknown;
    n = n * b / e % A << n >> b & e ^ n | 1;
    n = n + b - e + A;
    p = p + 1; p = v + b; p = p - e; p = v - 1; p = w[2] + n; p = "text" + 1;
    n = p - q; n = v - p; n = p - v; n = v - v; n = sp - &s; n = w[1] - w[0]; n = w - w; n = known - known;
    known = known + 1;
    ++known;
    b = n < b; b = n <= e; b = A > n; b = b >= n; b = e == b; b = n != true;
    b = p < q; b = v <= p; b = p > v; b = any >= p; b = p == any; b = any != q; b = p == NULL; b = NULL != v; b = NULL == NULL; b = any < NULL;
    b = sp == sp->next; b = unknown == NULL; b = unknown == unknown; b = w[0] == w[1]; b = w == w; b = &p == any; b = "a" == "a"; b = "a" == p;
    b = n && p || v && !any || NULL && e || "text";
    n = v[0] + v[b] + v[e] + p[n] + w[1][2] + "text"[1] + sp->v[1] + (*sp).v[A];
    n = s.a + sp->a + (&s)->a + (*sp).a + sp->next->next->a + value().a;
    sp = value().next;
    *p = 1; *v = 2; **w = 3; *(p + 1) = 4; *&n = 5; *"text" = 6; (n) = 7; ((v))[0] = 8; (*p) = 9;
    any = &n; any = &v; any = &v[1]; any = &*p; any = &s.a; any = &sp->v; any = &"text"; any = &(n); any = &*unknown; any = &*v; any = &s.v[1];
    n = b = e = 1;
    p = q = v;
    n += b; n -= e; n *= n; n /= b; n %= A; n <<= 1; n >>= b; n &= e; n |= n; n ^= 1;
    b += 1; e -= 1; b ^= b; e <<= 1;
    p += 1; p -= b; p += e; sp += 1;
    n += p - q;
    n += n -= 1;
    ++n; --n; n++; n--; ++b; b--; e++; --e; ++p; p--; sp++; --sp; ++*p; (*p)++; *p++; *++p; ++v[1]; s.a++; ++sp->a; (n)++; &p[1];
    n = sizeof(int) + sizeof(S) + sizeof(int[3][4]) + sizeof(S*) + sizeof(Unknown*) + sizeof(void*) + sizeof(E);
    n; 1; p; v; s; "text"; NULL; sp->v; value();
}
