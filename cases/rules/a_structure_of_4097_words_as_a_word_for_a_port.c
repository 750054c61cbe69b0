struct Big { int[4097] a; };

void main() {
    Big a;
    port_out(GPU_ClearColor, a); // error 50
}
