int[3] f() { // error 42
    return;
}

void main() { }
