struct Q { int a; int[3] b; };

Q swap(Q q) {
    Q other = q;
    other.a = q.b[0];
    other.b[0] = q.a;
    return other;
}

void main() {
    Q q = { 1, { 2, 3, 4 } };
    q = swap(swap(q));
}
