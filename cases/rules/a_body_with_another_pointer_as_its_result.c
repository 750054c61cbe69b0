int* f();
void* f() { // error 42
    return NULL;
}

void main() { }
