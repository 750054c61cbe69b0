// A body may stand anywhere in the text, a prototype as often as wanted, and one that is not called needs none.
int odd(int n);
int even(int n);
int odd(int m);
void never_called(int a, bool* b);

int even(int n) {
    if (n == 0) return true;
    return odd(n - 1);
}

int odd(int n) {
    if (n == 0) return false;
    return even(n - 1);
}

int odd(int other_name);

void nothing(void) { }

int* leads(int* p) {
    return p;
}

void five(int a, bool b, int* c, void* d, int** e) { }

void main() {
    int n = odd(3);
    int* p;
    odd(3);
    nothing();
    five(true, 7, p, p, &p);
    five('a', odd(1), "text", NULL, NULL);
    leads(p)[2] = 1;
    *leads(p) = leads(p)[even(2)];
    wait_frame();
    port_out(GPU_ClearColor, port_in(RNG_CurrentValue));
    port_out(RNG_CurrentValue, true);
    p = card_memory();
    card_memory()[0] = 1;
    halt();
}

void end() { }
