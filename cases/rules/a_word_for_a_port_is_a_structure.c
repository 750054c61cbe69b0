struct S { int a; };

void main() {
    S s;
    port_out(GPU_ClearColor, s); // error 42
}
