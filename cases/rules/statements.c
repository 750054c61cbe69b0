// Each form of statement, with each kind of condition.
enum E { A, B };

int no_return() { }

int return_without() {
    return;
}

int both(int a) {
    if (a) return 1;
    return;
}

void main() {
    int n;
    bool b;
    E e = B;
    int* p = NULL;
    int[2] v;
    ;
    { }
    { { n = 1; } ; }
    if (n) ; if (b) ; if (e) ; if (p) ; if (v) ; if (NULL) ; if ("text") ; if (n < 1) ; if (n = 1) ;
    if (n) if (b) n = 1; else n = 2;
    if (n) { } else if (b) { } else { }
    while (n) break;
    while (p) { if (b) break; if (n) continue; { break; } }
    while (v) while (1) break;
    do break; while (e);
    do { continue; } while (p);
    for (;;) break;
    for (n = 0; n < 3; n++) continue;
    for (int i, j = 2; p; ++i) { if (i) continue; else break; }
    for (; v; ) break;
    for (; NULL; n) ;
    switch (n) { }
    switch (b) { default: }
    switch (e) { case A: break; case B: { break; } default: ; }
    switch (n + 1) { n = 1; case 1: case 2: n = 2; if (n) break; default: n = 3; case -1: }
    switch (n) { case 1: while (1) break; break; }
    while (1) {
        switch (n) { case 1: continue; case 2: switch (b) { case 1: continue; default: break; } }
        break;
    }
    switch (n) { case 1: while (1) { continue; } }
    n; 1; v; p; n == 1; no_return();
    return;
}
