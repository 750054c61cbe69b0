// A function that ends without its value strays where the value is used.
//b 9
//> stray 15 17
int f() { }
void main() { port_out(GPU_ClearColor, f()); }
