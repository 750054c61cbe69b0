struct Big { int[4097] a; };

void main() {
    Big a;
    switch (a) { } // error 50
}
