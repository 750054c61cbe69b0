struct Pair { int a; int b; };
struct Row { int a; int b; int c; };
Pair p;
Pair q;
Row r;
Row s;
void copies() { r = s; }
void copies_pair() { p = q; }
void copies_members() { p.a = q.a; p.b = q.b; }
void fills() { int[5] a = { 1, 2 }; p.a = a[0]; }
void names_each() { int[2] a = { 1, 2 }; p.a = a[0]; }
void turns() { for (int i = 0; i < 3; i++) p.a += i; }
void leaves() { while (p.a == 0) { p.a = 1; break; } }
void never_called() { p.b = 2; }
void calls_a_loop() { turns(); }
void main() { leaves(); copies_members(); }
