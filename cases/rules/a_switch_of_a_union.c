union U { int a; };

void main() {
    U s;
    switch (s) { } // error 42
}
